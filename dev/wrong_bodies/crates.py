"""The crates of the repository, and which stands on which."""

from functools import cache
from pathlib import Path

TOP = Path(__file__).resolve().parent.parent.parent


@cache
def stands_on():
    """The crates of the repository, lowest first, with the names of what each stands on."""
    lines = (TOP / "crates.txt").read_text().splitlines()
    rows = (it.split(":") for it in lines if it and not it.startswith("#"))
    return {name.split()[0]: below.split() for name, below in rows}


def below(crate):
    """The crates of the repository on which a crate stands, straight or through others."""
    straight = [it for it in stands_on()[crate] if it in stands_on()]
    return list(dict.fromkeys(name for it in straight for name in [it, *below(it)]))


def rank(crate):
    """Where a crate stands in crates.txt, which has the lower ones first."""
    return list(stands_on()).index(crate)


def folder(crate):
    """The folder of a crate."""
    return TOP / "crates" / crate


def root(crate):
    """The file with which a crate begins: a program's main file, or a library's."""
    return "src/main.rt" if (folder(crate) / "src/main.rt").is_file() else "src/lib.rt"
