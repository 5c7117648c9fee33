"""The functions of a file of code, and where their proofs are."""

import re
from dataclasses import dataclass
from functools import cache

from wrong_bodies import crates


@dataclass
class Function:
    """The lines of a function in a file, its name, and the folder of its proof if that can be told."""

    file: str
    first: int
    last: int
    name: str
    proof: str | None

    def path(self):
        """What the prover calls this function, or its module if the function's proof can't be told."""
        return called(self.proof.removeprefix("proofs/") if self.proof else module_of(self.file))


def module_of(file):
    """The module that a file holds, as a path below the crate: empty for its root."""
    path = file.removeprefix("src/").removesuffix(".rt")
    return "" if path in ("lib", "main") else path


def called(path):
    """What the prover calls what has this path below the crate."""
    return path.replace("/", "::")


def function_around(crate, file, lines, at):
    """The function of a file in whose lines a line stands, or None if it stands in none."""
    for first in range(at, -1, -1):
        if found := re.match(r"( *)(?:pub(?:\(\w+\))? )?(?:const |unsafe )*fn (\w+)", lines[first]):
            last = last_line(lines, first, found[1])
            proof = proof_of(crate, file, lines, first, found[2])
            return Function(file, first + 1, last + 1, found[2], proof) if at <= last else None
    return None


def last_line(lines, first, indent):
    """The last line of the function that begins in this line, which in a laid out file is a brace in the same column."""
    ends = (indent + "}", indent + "{}")
    is_last = lambda at: lines[at] in ends or at == first and lines[at].endswith("}")
    return next(it for it in range(first, len(lines)) if is_last(it))


@cache
def modules_of_types(crate):
    """The modules of a crate in which its types are declared, by the names of the types."""
    folder = crates.folder(crate) / "src"
    found = {}
    for path in folder.rglob("*.rt"):
        for name in re.findall(r"^(?:pub(?:\(\w+\))? )?(?:struct|enum) (\w+)", path.read_text(), re.MULTILINE):
            found[name] = module_of(path.relative_to(folder.parent).as_posix())
    return found


def proof_of(crate, file, lines, first, name):
    """The folder of a function's proof, or None if the function is a trait's, or that of a generic type with certain arguments."""
    if not lines[first].startswith(" "):
        parts = [module_of(file)]
    else:
        head = next((it for it in reversed(lines[:first]) if re.match(r"[^\s#/{}w]", it)), "")
        found = re.match(r"impl(?:<[^>]*>)? (\w+)", head)
        is_plain = found and " for " not in head and not re.match(r"impl \w+<", head)
        if not is_plain or found[1] not in modules_of_types(crate):
            return None
        # A method stands below the module of its type, wherever the method is written.
        parts = [modules_of_types(crate)[found[1]], found[1]]
    return "/".join(["proofs", *filter(None, parts), name])
