"""From groups of edits to how many were refused: together first, and by themselves where that doesn't tell."""

import tempfile
from concurrent.futures import ThreadPoolExecutor
from pathlib import Path

from wrong_bodies import crates, judging
from wrong_bodies.clock import Ended
from wrong_bodies.copies import answers_of
from wrong_bodies.edits import paths_of
from wrong_bodies.grouping import Places, changed_files, git, groups, in_turn
from wrong_bodies.prover import Prover


class Trial:
    """Tries groups of edits by a prover, and keeps what is said of those that failed."""

    def __init__(self, prover):
        """Makes a trial in which nothing was tried."""
        self.prover, self.failures = prover, []

    def try_alone(self, group, edit):
        """Tries one edit of a group in a check of its own, and returns whether it was refused, and why."""
        texts, paths = edit.apply({}), paths_of([edit])
        if edit.is_neutral and edit.goals:
            answers = answers_of(edit.crate, [edit])
            if self.prover.check(group, answers, paths)[0] is False:
                return False, "NOT REFUSED: its goal isn't proved of the right body"
            texts |= answers
        # What it edits comes first, and then the whole crate, which a neutral edit needn't have refused.
        for paths in [paths] if edit.is_neutral else [paths, []]:
            is_proved, lines = self.prover.check(group, texts, paths)
            if is_proved is False:
                break
        return judging.verdict(is_proved, lines)

    def try_after(self, group, edit, lines):
        """Reads in a check of a group whether an edit is refused, and why, and tries it by itself if the check doesn't tell."""
        if first := judging.refusal(edit, lines):
            return True, f"refused: {first[:160]}"
        if edit.is_neutral and judging.is_all_proved(edit, lines):
            return False, "NOT REFUSED"
        return self.try_alone(group, edit)

    def try_group(self, group):
        """Tries the edits of a group once their crate is proved, and returns how many were tried in time and how many passed."""
        lines, tried, passed = [], 0, 0
        try:
            if not self.prover.is_proved(group.crate()):
                return len(group.edits), 0
            if group.functions:
                lines = self.prover.check(group, group.texts, paths_of(group.edits))[1]
            for edit in group.edits:
                is_refused, why = self.try_after(group, edit, lines)
                print(f"{edit.kind()}: {why}", flush=True)
                is_well = why.startswith("NOT REFUSED") if edit.is_neutral else is_refused
                tried, passed = tried + 1, passed + is_well
                if not is_well:
                    self.failures.append(f"{edit.kind()}: {why}")
        except Ended:
            pass
        return tried, passed

    def run(self, tries):
        """Proves the crates that groups need, tries the groups, prints what failed, and returns how many edits were tried and passed."""
        edited = {it.crate() for it in tries}
        needed = sorted({name for it in edited for name in [it, *crates.below(it)]}, key=crates.rank)
        with ThreadPoolExecutor(len(needed) + len(tries) + 1) as pool:
            self.prover.begin(pool, needed)
            results = [*pool.map(self.try_group, tries)]
        for it in self.failures:
            print(f"failed: {it}")
        return sum(it for it, _ in results), sum(it for _, it in results)


def try_all(clock, found, kept, is_short):
    """Tries edits over what is proved in a kept folder, or in one that goes afterwards, and returns how many were tried and passed."""
    if is_short:
        tries = in_turn(found, changed_files(), git("rev-parse", "HEAD").strip())
    else:
        tries = [group for edits in found.values() for group in groups(edits)]
    with tempfile.TemporaryDirectory(prefix="wrong-bodies-") as room:
        folder = Path(kept or room).resolve()
        folder.mkdir(parents=True, exist_ok=True)
        return Trial(Prover(folder, clock, found, Places(tries, is_short))).run(tries)
