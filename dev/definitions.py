"""The definitions of specs/, and which of them one stands on.

A definition is a name with its lines, comments and imports left out: an abbreviation with its
equations, or a record with its fields. It stands on those that its lines name, of its own file or
by an import, and on those that these stand on. What Rust declares, and the kit's, isn't counted.
"""

import re
from pathlib import Path

TOP = Path(__file__).resolve().parent.parent
# An import of names, or of a file by another name.
IMPORT = re.compile(r"(?:pub )?use Rattle\.(\w+)\.specs\.([\w.]+?)(?:\.\{(.*)\}| as (\S+))")
WORD = re.compile(r"[^\s(){}\[\],;]+")
KINDS = ("pub", "abbrev", "unfoldable", "record", "data")


def is_import(line):
    return line.startswith(("use ", "pub use "))


class SpecFile:
    """A file of definitions: the lines of each, and what its imports bring."""

    def __init__(self, path, top=TOP):
        self.lines, self.names, self.files = {}, {}, {}
        text = path.read_text().splitlines()
        for line in filter(is_import, text):
            self._take_import(line, top)
        code = [it for it in text if it.strip() and not is_import(it)]
        self._take_lines([it for it in code if not it.lstrip().startswith("--")])

    def _take_import(self, line, top):
        found = IMPORT.fullmatch(line)
        if not found:
            return
        crate, module, names, alias = found.groups()
        target = top / f"crates/{crate}/specs/{module.replace('.', '/')}.antt"
        if not target.is_file():
            return
        if alias:
            self.files[alias] = target
        for it in (names or "").split(", "):
            name, _, other = it.partition(" as ")
            self.names[other or name] = (target, name)

    def _take_lines(self, code):
        name, record, at = None, None, 0
        for line in code:
            indent = len(line) - len(line.lstrip())
            words = WORD.findall(line) or [""]
            named = [it for it in words if it not in KINDS]
            # Definitions begin where a line does, or further in behind a module's head; what stands
            # further in than they begin belongs to the one before, and so do a record's fields.
            at = 0 if indent == 0 else at
            begins = indent <= at and (record is None or indent <= record)
            if words[0] == "module":
                name, record, at = line.strip(), None, indent + 2
            elif words[0] in KINDS and named and begins:
                name = named[0]
                record = indent if "record" in words[: words.index(name)] else None
            self.lines.setdefault(name, []).append(line)

    def named_by(self, name, path):
        """The definitions that the lines of one name: their files and names."""
        body = "\n".join(self.lines[name])
        known = {**{it: (path, it) for it in self.lines if it}, **self.names}
        for word in set(WORD.findall(body)):
            yield from (known[it] for it in {word, *word.split(".")} if it in known)
            first, _, rest = word.partition(".")
            if first in self.files:
                yield self.files[first], rest
        for it, found in known.items():
            if "◌" in it and all(part in body for part in it.split("◌") if part):
                yield found


def reached(path, name, top=TOP):
    """The definitions that one stands on, itself among them: for each file the names and how many
    lines they have."""
    files, seen, waiting = {}, {}, [(path, name)]
    while waiting:
        path, name = waiting.pop()
        if path not in files:
            files[path] = SpecFile(path, top)
        file = files[path]
        if name in file.lines and name not in seen.get(path, {}):
            seen.setdefault(path, {})[name] = len(file.lines[name])
            waiting += file.named_by(name, path)
    return seen
