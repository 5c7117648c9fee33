"""The contracts of src/: what a call promises, clause by clause, and which definitions a clause cites.

A call is a function, or a method with its type in front, `Acl::grants`. The name of a type or of a trait
alone is all that its blocks say, as what a command means. A law is a public function of no parameters
that runs nothing.
"""

import re
from functools import lru_cache

from definitions import TOP, SpecFile, reached

# A line with which a function, a type or a trait begins, as the formatter lays it out.
HEAD = re.compile(r'( *)(?:pub(?:\([^)]*\))? )?(?:unsafe )?(?:extern "C" )?(fn|struct|enum|trait) (\w+)')
# A line with which methods of a type begin, maybe for a trait.
IMPL = re.compile(r"impl(?:<.*?>)? (?:[\w:]+(?:<.*>)? for )?(\w+)")
# A clause, with its name if it has one.
CLAUSE = re.compile(r"\bensures(?: (\w+))? \{")
# Definitions that code takes from elsewhere.
GHOST_USE = re.compile(r"^ *ghost (use Rattle\.[^;]*);$", re.MULTILINE)
# A public function of no parameters, and its body if nothing is in it.
NO_PARAMETERS = re.compile(r"^pub fn (\w+)(?:<[^>]*>)?\(\)\n(?:.*\n)*?\{(\}?)$", re.MULTILINE)


def contract_of(lines, at, indent):
    """The lines of a function that begins here, but for its body."""
    for line in lines[at:]:
        if line in (f"{indent}{{", f"{indent}{{}}"):
            return
        yield line
        if line.endswith(";"):
            return


def block_of(lines, at):
    """The lines of a block that begins here."""
    for line in lines[at:]:
        yield line
        if not line.startswith(" ") and line.endswith(("}", ";")):
            return


class Imports(SpecFile):
    """What the ghost names of code lead to."""

    def __init__(self, text, top=TOP):
        self.lines, self.names, self.files = {}, {}, {}
        for it in GHOST_USE.findall(text):
            self._take_import(" ".join(it.split()), top)

    def cited_by(self, text):
        """The definitions that a text names: their files and names."""
        self.lines = {"": [text]}
        return set(self.named_by("", None))


class CodeFile:
    """A file of code: the text of each contract, and of each type and trait, by its name; and its laws."""

    def __init__(self, path, top=TOP):
        text = path.read_text()
        self.path, self.texts, self.imports = path, {}, Imports(text, top)
        self.laws = [name for name, is_empty in NO_PARAMETERS.findall(text) if is_empty]
        lines, owner = text.splitlines(), ""
        for at, line in enumerate(lines):
            if found := IMPL.match(line):
                owner = found[1]
                self._add(owner, block_of(lines, at))
            elif found := HEAD.match(line):
                indent, kind, name = found.groups()
                owner = owner if indent else "" if kind == "fn" else name
                named = f"{owner}::{name}" if indent else name
                self._add(named, contract_of(lines, at, indent) if kind == "fn" else block_of(lines, at))

    def _add(self, name, lines):
        self.texts[name] = "\n".join([*filter(None, [self.texts.get(name)]), *lines])

    def clauses(self, call):
        """The clauses of a call by their names, and the whole of its contract by ``''``."""
        found = {"": self.texts[call]}
        parts = CLAUSE.split(self.texts[call])
        for name, clause in zip(parts[1::2], parts[2::2]):
            if name:
                found[name] = found.get(name, "") + clause
        return found


@lru_cache(None)
def files_of(crate):
    return [CodeFile(it) for it in sorted((TOP / f"crates/{crate}/src").glob("**/*.rt"))]


def laws_of(crate):
    """The laws of a crate, but for those that only say the numbers of constants."""
    return [law for it in files_of(crate) for law in it.laws if not law.endswith("_in_numbers")]


def contracts(crate, call):
    """The files of a crate that have a contract of this name."""
    return [it for it in files_of(crate) if call in it.texts]


@lru_cache(None)
def closure(path, name):
    return {(file, it) for file, names in reached(path, name).items() for it in names}


def cited(crate, call, clauses):
    """The definitions on which these clauses of a call rest, or if none is named all of its contract."""
    found = set()
    for file in contracts(crate, call):
        texts = file.clauses(call)
        for clause in clauses or ("",):
            for path, name in file.imports.cited_by(texts.get(clause, "")):
                found |= closure(path, name)
    return found
