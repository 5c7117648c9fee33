"""Which edits are tried in one check, and in which order the checks and the proofs come."""

import subprocess
from dataclasses import dataclass

from wrong_bodies import crates

# How many edits are tried in one check.
TOGETHER = 16
# How many of the last commits tell which edits come first where there are only so many minutes.
LAST_COMMITS = 30


@dataclass
class Group:
    """Edits that are tried in one check: their functions, by file and line, the texts that they
    make, and the group's place in the order of tries."""

    edits: list
    functions: set
    texts: dict
    place: int = 0

    def crate(self):
        """The crate whose edits a group holds."""
        return self.edits[0].crate

    def takes(self, edit, own):
        """Adds an edit of other functions, unless the group is full or another edit took its text away, and returns whether it did."""
        texts = edit.apply(self.texts)
        if len(self.edits) == TOGETHER or self.functions & own or texts is None:
            return False
        self.edits.append(edit)
        self.functions |= own
        self.texts |= texts
        return True


def groups(edits):
    """Puts edits of different functions together, and leaves those alone that are outside functions, or neutral with a goal."""
    together, alone = [], []
    for edit in edits:
        own = {(it.file, it.first) for it in edit.functions if it}
        if not all(edit.functions) or edit.is_neutral and edit.goals:
            alone.append(Group([edit], set(), edit.apply({})))
        elif not any(it.takes(edit, own) for it in together):
            together.append(Group([edit], own, edit.apply({})))
    return together + alone


def git(*words):
    """What git says in this repository: nothing if there is none."""
    ran = subprocess.run(["git", "-C", crates.TOP, *words], capture_output=True, text=True)
    return ran.stdout if ran.returncode == 0 else ""


def changed_files():
    """The files that the last commits changed, each with its place among them: the newest first."""
    words = ["log", "--first-parent", "-m", "-n", str(LAST_COMMITS), "--format=", "--name-only"]
    return {it: place for place, it in enumerate(dict.fromkeys(git(*words).split()))}


def place_of_change(edit, changed):
    """The place of the newest of the changed files that an edit is made of, or None."""
    own = [f"crates/{edit.crate}/{it}" for it in [edit.path, *(file for file, _, _ in edit.pairs)]]
    return min((changed[it] for it in own if it in changed), default=None)


def in_turn(found, changed, commit):
    """The groups of edits, those of changed files first and the newest of them foremost, and the others from where the commit tells."""
    first, others = [], []
    for edits in found.values():
        places = {it.name: place_of_change(it, changed) for it in edits}
        new = [it for it in edits if places[it.name] is not None]
        new.sort(key=lambda it: places[it.name])
        first += [(places[it.edits[0].name], it) for it in groups(new)]
        others += groups([it for it in edits if places[it.name] is None])
    at = int(commit or "0", 16) % max(len(others), 1)
    return [it for _, it in sorted(first, key=lambda it: it[0])] + others[at:] + others[:at]


class Places:
    """The places of proofs and checks among all that waits for a lane. If there is only so much
    time, the groups are tried in the order given, and each crate is proved where the first needs
    it. Else the proofs come first, and then the edits of the upper crates, which take longest."""

    def __init__(self, tries, is_short):
        """Gives each of the groups that are tried its place in their order."""
        self.tries, self.is_short = tries, is_short
        for place, group in enumerate(tries):
            group.place = place

    def of_proof(self, crate):
        """The place of a crate's proof among all that waits for a lane."""
        if not self.is_short:
            return False, crates.rank(crate)
        needs = lambda group: crate == group.crate() or crate in crates.below(group.crate())
        return min(it.place for it in self.tries if needs(it)), False

    def of_check(self, group):
        """The place of a check of a group's edits among all that waits for a lane."""
        return (group.place, True) if self.is_short else (True, -crates.rank(group.crate()))
