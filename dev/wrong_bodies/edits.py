"""Edits of a crate's code: reading them, applying them, and why one can't be tried."""

import re
from dataclasses import dataclass, field
from pathlib import Path

from wrong_bodies import crates
from wrong_bodies.functions import called, function_around, module_of


@dataclass
class Edit:
    """A wrong body, or a neutral edit: the pairs of texts, each with its file, the functions
    around them if each stands in one, the goals at which it is refused, each the folder of a
    proof, a name and parameters, and where it stands below the crate."""

    crate: str
    name: str
    pairs: list = field(default_factory=list)
    functions: list = field(default_factory=list)
    goals: list = field(default_factory=list)
    is_neutral: bool = False
    path: str = ""

    def kind(self):
        """What an edit is called in what the script prints."""
        return f"{'neutral edit' if self.is_neutral else 'wrong body'} {self.crate}/{self.name}"

    def apply(self, texts):
        """The texts of the files that an edit changes, over those that others changed, or None if an old text doesn't stand once."""
        made = {}
        for file, old, new in self.pairs:
            text = made.get(file) or texts.get(file) or (crates.folder(self.crate) / file).read_text()
            if text.count(old) != 1:
                return None
            made[file] = text.replace(old, new)
        return made


def read_edit(crate, path):
    """Reads an edit from its file, and finds the functions that it edits."""
    edit, file, old = Edit(crate, path.stem, is_neutral=path.suffix == ".neutral"), "", ""
    edit.path = path.relative_to(crates.folder(crate)).as_posix()
    for line in path.read_text().splitlines():
        key, _, text = line.partition(":")
        text = text.removeprefix(" ")
        if key == "file":
            file = text.strip()
        elif key == "old":
            old = text
        elif key == "new":
            edit.pairs.append((file, old, text))
        elif key == "goal":
            edit.goals.append(tuple(text.split(" ", 2)))
    edit.functions = [function_with(crate, file, old) for file, old, _ in edit.pairs]
    return edit


def function_with(crate, file, text):
    """The function of a file in which a text stands first, or None if the text stands in none, or if there is no such file."""
    if not (crates.folder(crate) / file).is_file():
        return None
    lines = (crates.folder(crate) / file).read_text().split("\n")
    at = next((it for it, line in enumerate(lines) if text in line), None)
    return None if at is None else function_around(crate, file, lines, at)


def edits_of(crate):
    """The edits of a crate, in the order of their names, and then the neutral ones."""
    folder = crates.folder(crate) / "wrong-bodies"
    name = lambda path: path.stem
    found = [sorted(folder.rglob(f"*.{it}"), key=name) for it in ("edit", "neutral")]
    return [read_edit(crate, it) for paths in found for it in paths]


def paths_of(edits):
    """What a check of edits looks at, as the prover calls it: the functions that they edit, or the module of one outside functions."""
    places = (place for edit in edits for place in zip(edit.functions, edit.pairs))
    return sorted({own.path() if own else called(module_of(pair[0])) for own, pair in places})


def why_bad(edit):
    """Why an edit can't be tried, or None if it can be."""
    home = f"wrong-bodies/{module_of(edit.pairs[0][0]) or 'lib'}"
    if Path(edit.path).parent.as_posix() != home:
        return f"it belongs in {home}, by the file that it changes first"
    if not all((crates.folder(edit.crate) / file).is_file() for file, _, _ in edit.pairs):
        return "its file is gone"
    if not edit.apply({}):
        return "an old text doesn't stand once in its file"
    return None if edit.is_neutral else why_bad_goal(edit)


def why_bad_goal(edit):
    """Why a goal of an edit can't be the one at which the edit is refused, or None if each can be."""
    own = [it and it.proof for it in edit.functions]
    for folder, name, _ in edit.goals:
        if own and None not in own and folder not in own:
            return f"{folder} holds no proof of a function that it edits"
        path = crates.folder(edit.crate) / folder / "Answers.antt"
        if path.is_file() and re.search(rf"^{re.escape(name)} ", path.read_text(), re.MULTILINE):
            return f"{folder} has an answer to its goal {name} already, and would have two"
    return None


def without_bad(found):
    """Takes the edits away that can't be tried, prints why of each, and returns how many there were."""
    count = 0
    for edits in found.values():
        for edit, why in [(it, why_bad(it)) for it in edits]:
            if why:
                print(f"{edit.kind()}: BAD EDIT: {why}")
                edits.remove(edit)
                count += 1
    return count
