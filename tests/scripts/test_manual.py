"""docs/meardwyn.3: it has the prototypes, structs and constants that include/meardwyn.h has, and no others, and examples that compile."""

import os
import re
import shutil
import subprocess
import tempfile
import unittest
from pathlib import Path

TOP = Path(__file__).resolve().parent.parent.parent
HEADER, PAGE = TOP / "include/meardwyn.h", TOP / "docs/meardwyn.3"
# A prototype, or the head of an inline function: what it returns, its name, and what it takes.
PROTOTYPE = re.compile(r"^(?:static inline )?((?:int32_t|uint32_t|bool|const char) \*?)(meardwyn_\w+)\(([^)]*)\)(?:;|\n\{)", re.M)
# The calls that the library exports, as they are declared.
EXPORTED = re.compile(r"^(?:int32_t|uint32_t|bool) meardwyn_\w+\(", re.M)
COMPILER = os.environ.get("CC", "cc")
SLOW = 600


def plain(text):
    """A text without the marks of roff."""
    return re.sub(r"\\f[BIR]", "", text).replace("\\-", "-").replace("\\ ", " ")


def code_of(text):
    """C without its remarks."""
    return re.sub(r"/\*.*?\*/", "", text, flags=re.DOTALL)


def prototypes(text):
    """The prototypes of a text, by name."""
    return {name: (returns.strip(), " ".join(words.split())) for returns, name, words in PROTOTYPE.findall(code_of(text))}


def structs(text):
    """The names of each struct's fields, in order."""
    found = {}
    for name, body in re.findall(r"struct (meardwyn_\w+)\s*\{([^}]*)\}", code_of(text)):
        found[name] = re.findall(r"(\w+)\s*[,;]", body)
    return found


def constants(text):
    """The constants of enums, and their numbers."""
    bodies = re.findall(r"enum(?: meardwyn_\w+)? \{([^}]*)\}", code_of(text))
    return {name: int(number, 0) for body in bodies for name, number in re.findall(r"MEARDWYN_(\w+) = (-?\w+)", body)}


def part(page, name):
    """A part of the page, by its head."""
    return re.search(rf"^\.SH {name}\n(.*?)(?=^\.SH |\Z)", page, re.M | re.S)[1]


class Manual(unittest.TestCase):
    def setUp(self):
        self.header, self.page = HEADER.read_text(), PAGE.read_text()

    def test_the_synopsis_has_each_prototype(self):
        wanted = prototypes(self.header)
        self.assertGreater(len(wanted), 40)
        self.assertEqual(prototypes(plain(part(self.page, "SYNOPSIS"))), wanted)

    def test_each_call_is_described(self):
        described = set(re.findall(r"meardwyn_\w+", plain(part(self.page, "DESCRIPTION"))))
        inline = {it for it in prototypes(self.header) if it.endswith("_for")}
        self.assertEqual(set(prototypes(self.header)) - described - inline, set())

    def test_pages_say_how_many_calls_there_are(self):
        exported = len(EXPORTED.findall(self.header))
        inline = len(prototypes(self.header)) - exported
        for text in (self.header, self.page):
            self.assertIn(f"The {exported} exported calls", text)
            self.assertIn(f"The {inline} inline functions", text)
        self.assertIn(f"The C library: {exported} calls", (TOP / "crates/acl_c/README.md").read_text())

    def test_structs_have_the_same_fields(self):
        self.assertEqual(structs(plain(part(self.page, "TYPES"))), structs(self.header))

    def test_constants_have_the_same_numbers(self):
        wanted = constants(self.header)
        types, errors = plain(part(self.page, "TYPES")), plain(part(self.page, "ERRORS"))
        faults = {name: int(number) for number, name in re.findall(r"^ *(-\d+)  MEARDWYN_(\w+) ", errors, re.M)}
        self.assertEqual(faults, {name: number for name, number in wanted.items() if number < 0})
        for name, number in wanted.items():
            short = name.removeprefix("NFS4_")
            if number >= 0:
                said = re.search(rf"\b(?:MEARDWYN_|MEARDWYN_NFS4_)?{short} (?:and \w+ )?\((\w+)\)", types)
                self.assertTrue(said, name)
                self.assertEqual(int(said[1], 0), number, name)

    @unittest.skipUnless(shutil.which(COMPILER), "no C compiler")
    def test_examples_compile(self):
        examples = re.findall(r"^\.nf\n(.*?)^\.fi\n", part(self.page, "EXAMPLES"), re.M | re.S)
        self.assertEqual(len(examples), 3)
        with tempfile.TemporaryDirectory(prefix="test-manual-") as room:
            for number, example in enumerate(examples):
                file = Path(room) / f"example{number}.c"
                file.write_text(plain(example))
                flags = ("-std=c99", "-D_DEFAULT_SOURCE", "-Wall", "-Wextra", "-Wconversion", "-Werror", "-O1", "-c", f"-I{HEADER.parent}")
                ran = subprocess.run([COMPILER, *flags, "-o", file.with_suffix(".o"), file], capture_output=True, text=True, timeout=SLOW)
                self.assertEqual(ran.stderr, "")

    @unittest.skipUnless(shutil.which("man"), "man isn't here")
    def test_man_has_no_warning(self):
        ran = subprocess.run(["man", "--warnings", "-l", PAGE], capture_output=True, text=True, timeout=SLOW, env={**os.environ, "LC_ALL": "C.UTF-8"})
        self.assertEqual((ran.returncode, ran.stderr), (0, ""))


if __name__ == "__main__":
    unittest.main()
