"""tests/try-cases over a program that is a stand-in: which cases pass, and what is told of those that don't."""

import os
import shutil
import subprocess
import tempfile
import unittest
from pathlib import Path

TOP = Path(__file__).resolve().parent.parent.parent
# How many seconds a stand-in may take on the slowest machine.
SLOW = 600
# It tells its words, copies a line, fails, or takes memory, and then tells that, as the program would, or something else.
PROGRAM = r"""
#include <stdlib.h>
#include <string.h>
#include <unistd.h>

static int put(int where, const char *text)
{
    size_t size = strlen(text);
    return write(where, text, size) == (ssize_t)size;
}

int main(int count, char **words)
{
    char byte[2] = "";
    if (!strcmp(words[1], "words"))
        for (int at = 2; at < count; at++) {
            if (!put(1, "<") || !put(1, words[at]) || !put(1, ">\n")) {
                put(2, "aclctl: run: output\n");
                return 3;
            }
        }
    if (!strcmp(words[1], "copy"))
        while (read(0, byte, 1) == 1 && put(1, byte) && *byte != '\n')
            ;
    if (!strcmp(words[1], "fail")) {
        put(2, "told\nmore\n");
        return 7;
    }
    if (!strcmp(words[1], "grow") || !strcmp(words[1], "carelessly")) {
        void *volatile grown = malloc(atoi(words[2]));
        if (!grown && !strcmp(words[1], "grow")) {
            put(2, "aclctl: run: memory\n");
            return 3;
        }
        put(1, grown ? "grown\n" : "lost\n");
    }
    return 0;
}
"""
GOOD = r"""
# A remark.
case: words: as a shell reads them
words: words "$(cat two)" '' b\ c
out:
    <1
    2>
    <>
    <b c>

case: words: cut off, without an end
words: words abc
room: 4
status: 3
out:
    <abc\
err:
    aclctl: run: output

case: input: a line of a file
words: copy
input: two
left: 2
out:
    1

case: input: of what a command prints
words: copy
from: echo 3; echo 4
left: 2
out:
    3

case: output: that of a file
words: copy
input: one
out: one

case: output: the first words
words: words first second
out:
    <first>
    <sec..

case: failure
words: fail
status: 7
err:
    told
    ..

case: growths
words: grow 100
refused: 100
out:
    grown
"""
# What a case has, and what is told of it.
BAD = (
    ("words: fail\nerr:\n    told\n    more\n", "status 7; told"),
    ("words: words a\n", "it wrote '<a>\\n' and ''"),
    ("words: words a\nout:\n    <a\n", "it wrote '<a>\\n' and ''"),
    ("words: fail\nstatus: 7\nerr:\n    told\n", "it wrote '' and 'told\\nmore\\n'"),
    ("words: copy\ninput: two\nleft: 0\nout:\n    1\n", "2 bytes are left"),
    ("words: words\nsatus: 7\n", "there is no line 'satus:'"),
    ("words: words\nrefused: 100\n", "0 growths, of 0 bytes at the most"),
    ("words: grow 101\nrefused: 100\nout:\n    grown\n", "1 growths, of 101 bytes at the most"),
    ("words: carelessly 9\nrefused: 100\nout:\n    grown\n", "growth 1 of 1: (0, 'lost\\n', '', 0, 1, 9, 0)"),
)


class Cases(unittest.TestCase):
    @classmethod
    def setUpClass(cls):
        cls.made = Path(tempfile.mkdtemp(prefix="test-cases-"))
        cls.addClassCleanup(shutil.rmtree, cls.made)
        (cls.made / "program.c").write_text(PROGRAM)
        words = [os.environ.get("CC", "cc"), "-o", cls.made / "program", cls.made / "program.c"]
        subprocess.run(words, check=True)

    def setUp(self):
        self.room = Path(tempfile.mkdtemp(prefix="test-cases-"))
        self.addCleanup(shutil.rmtree, self.room)
        for folder in ("tests", "crates/aclctl/out", "crates/aclctl/cases/here"):
            (self.room / folder).mkdir(parents=True)
        for name in ("try-cases", "refuse-growth.c"):
            shutil.copy(TOP / "tests" / name, self.room / "tests" / name)
        self.program = self.room / "crates/aclctl/out/aclctl"
        shutil.copy(self.made / "program", self.program)
        self.write("one", "1\n")
        self.write("two", "1\n2\n")

    def write(self, name, text):
        """Writes a file beside the cases."""
        (self.room / "crates/aclctl/cases/here" / name).write_text(text)

    def tried(self, *words):
        """How it ended, what it told of cases that fail, and how many it says passed and failed."""
        how = {"stdout": subprocess.PIPE, "stderr": subprocess.STDOUT, "text": True, "timeout": SLOW}
        ran = subprocess.run([self.room / "tests/try-cases", *words], cwd=self.room, **how)
        *told, last = ran.stdout.splitlines()
        return ran.returncode, told, last

    def test_what_is_as_it_should_be_passes(self):
        self.write("cases", GOOD)
        self.write("more.cases", "case: more\nwords: words\n")
        self.assertEqual(self.tried(), (0, [], "9 passed, 0 failed"))

    def test_only_cases_of_these_names_are_tried(self):
        self.write("cases", GOOD)
        self.assertEqual(self.tried("input:", "failure"), (0, [], "3 passed, 0 failed"))
        self.assertEqual(self.tried("frobnicate"), (1, [], "0 passed, 0 failed"))

    def test_what_is_wrong_fails_and_is_told(self):
        for said, told in BAD:
            self.write("cases", f"case: it\n{said}")
            status, lines, last = self.tried()
            self.assertEqual((status, last), (1, "0 passed, 1 failed"), said)
            self.assertEqual(lines[0], f"failed: here: it: {told}")

    def test_another_program(self):
        self.write("cases", GOOD)
        self.program.rename(self.room / "other")
        self.assertEqual(self.tried("--program", "other")[2], "8 passed, 0 failed")
        self.assertEqual(self.tried()[0], 1)

    def test_of_a_program_with_the_sanitizer_no_growth_is_refused(self):
        self.write("cases", "case: it\nwords: carelessly 9\nrefused: 100\nout:\n    grown\n")
        with self.program.open("ab") as program:
            program.write(b"__asan_init")
        told = "no growth was refused in 1 cases: the program has another allocator"
        self.assertEqual(self.tried(), (0, [told], "1 passed, 0 failed"))


if __name__ == "__main__":
    unittest.main()
