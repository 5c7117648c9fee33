"""dev/rt-beside over a kit that is a stand-in: who waits for whom, and how often a crate is read."""

import os
import shutil
import subprocess
import sys
import tempfile
import time
import unittest
from pathlib import Path

TOP = Path(__file__).resolve().parent.parent.parent
# How many seconds a stand-in may take on the slowest machine, and how many it is given to do what it shouldn't.
SLOW, SOON = 600, 1
# Crates on a base `low`, and `top` on two of these. It writes down which it reads, and when it holds all of them alone.
LIBRARY = """
import fcntl, os

ROOM = os.environ["ROOM"]

def note(text):
    with open(f"{ROOM}/notes", "a") as it:
        it.write(text + "\\n")

class Crate:
    def __init__(self, name, *deps):
        self.folder, self.deps = f"{ROOM}/{name}", deps

    def stamp(self):
        note(f"read {os.path.basename(self.folder)}")
        return os.path.basename(self.folder) + "".join(it.stamp() for it in self.deps)

    def is_built(self):
        return os.path.exists(f"{self.folder}/built")

def lock(crates):
    note("alone")
    held = [os.open(it.folder, os.O_RDONLY) for it in crates]
    for it in held:
        fcntl.flock(it, fcntl.LOCK_EX)
    return held
"""
KIT = """#!/usr/bin/env python3
import os, sys
sys.path.insert(0, os.path.dirname(os.path.realpath(__file__)))
import rtlib

def main(words):
    low = rtlib.Crate("low")
    if words[0] == "sum":
        middle = rtlib.Crate("one", low)
        print(rtlib.Crate("top", low, middle, rtlib.Crate("two", low, middle)).stamp())
        return 0
    held = rtlib.lock([low, rtlib.Crate(words[1], low)])
    rtlib.note(f"{words[1]} holds")
    sys.stdin.read()
    return 0

if __name__ == "__main__":
    print("alone")
    sys.exit(main(sys.argv[1:]))
"""


class Beside(unittest.TestCase):
    def setUp(self):
        self.room = Path(tempfile.mkdtemp(prefix="test-beside-")).resolve()
        self.addCleanup(shutil.rmtree, self.room)
        for name in ("bin", "low", "one", "two", "top"):
            (self.room / name).mkdir()
        (self.room / "low/built").touch()
        (self.room / "bin/rt").write_text(KIT)
        (self.room / "bin/rt").chmod(0o755)
        (self.room / "bin/rtlib.py").write_text(LIBRARY)
        self.env = {**os.environ, "PATH": f"{self.room}/bin:{os.environ['PATH']}", "ROOM": str(self.room)}

    def begin(self, *words):
        """Begins a command, which holds what it holds until its standard input ends."""
        how = {"stdin": subprocess.PIPE, "stdout": subprocess.DEVNULL, "env": self.env}
        begun = subprocess.Popen([sys.executable, TOP / "dev/rt-beside", *words], **how)
        self.addCleanup(begun.wait)
        self.addCleanup(begun.stdin.close)
        return begun

    def notes(self):
        """What was written down."""
        notes = self.room / "notes"
        return notes.read_text().splitlines() if notes.exists() else []

    def wait_for(self, note, count=1):
        """Waits until that was written down so often."""
        ends = time.time() + SLOW
        while self.notes().count(note) < count and time.time() < ends:
            time.sleep(0.02)
        self.assertEqual(self.notes().count(note), count)

    def test_crates_on_one_built_base_are_held_side_by_side(self):
        self.begin("lib", "one")
        self.wait_for("one holds")
        self.begin("lib", "two")
        self.wait_for("two holds")
        self.assertNotIn("alone", self.notes())

    def test_one_crate_is_held_once(self):
        first = self.begin("lib", "one")
        self.wait_for("one holds")
        self.begin("lib", "one")
        time.sleep(SOON)
        self.assertEqual(self.notes().count("one holds"), 1)
        first.stdin.close()
        self.wait_for("one holds", 2)

    def test_a_base_that_is_not_built_is_held_alone(self):
        (self.room / "low/built").unlink()
        first = self.begin("lib", "one")
        self.wait_for("one holds")
        self.begin("lib", "two")
        time.sleep(SOON)
        self.assertNotIn("two holds", self.notes())
        first.stdin.close()
        self.wait_for("two holds")
        self.assertEqual(self.notes().count("alone"), 2)

    def test_other_commands_hold_all_alone(self):
        self.begin("check", "one")
        self.wait_for("one holds")
        self.assertIn("alone", self.notes())

    def test_each_crate_is_read_once_for_a_sum(self):
        how = {"capture_output": True, "text": True, "env": self.env, "timeout": SLOW}
        said = subprocess.run([sys.executable, TOP / "dev/rt-beside", "sum"], **how).stdout
        self.assertEqual(sorted(self.notes()), ["read low", "read one", "read top", "read two"])
        (self.room / "notes").unlink()
        plain = subprocess.run([self.room / "bin/rt", "sum"], **how).stdout
        self.assertEqual((plain, len(self.notes())), (f"alone\n{said}", 8))

    def test_another_kit_is_run_as_it_is(self):
        for change in ("remove", "rename"):
            with self.subTest(change):
                library = self.room / "bin/rtlib.py"
                text = LIBRARY.replace("def stamp", "def sum_of").replace(".stamp()", ".sum_of()")
                library.write_text(text) if change == "rename" else library.rename(self.room / "bin/other.py")
                (self.room / "bin/rt").write_text("#!/bin/sh\necho plain $*\n") if change == "remove" else None
                words = [sys.executable, TOP / "dev/rt-beside", "lib", "one"]
                ran = subprocess.run(words, capture_output=True, text=True, env=self.env, stdin=subprocess.DEVNULL)
                self.assertTrue(ran.stdout.startswith("plain lib one" if change == "remove" else "alone"), ran)
                (self.room / "bin/rt").write_text(KIT)


if __name__ == "__main__":
    unittest.main()
