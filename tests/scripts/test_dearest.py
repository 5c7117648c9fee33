"""dev/dearest: which functions it finds, and in which order."""

import os
import tempfile
import unittest
from pathlib import Path

from loading import script

dearest = script("dev/dearest")


class Dearest(unittest.TestCase):
    def kept(self, top, crate, key, name, size, time=0):
        """A file that the kit kept of a crate."""
        file = Path(top) / "crates" / crate / "out/incremental" / key / name
        file.parent.mkdir(parents=True, exist_ok=True)
        file.write_bytes(b"x" * size)
        os.utime(file, (time, time))

    def test_the_function_with_the_most_code_comes_first(self):
        with tempfile.TemporaryDirectory() as top:
            self.kept(top, "one", "k", "Rattle-one-proofs.a.f.Code.Mir.oantt", 10)
            self.kept(top, "one", "k", "Rattle-one-proofs.a.g.Code.Mir.oantt", 30)
            self.kept(top, "two", "k", "Rattle-two-proofs.b.T.h.Code.Mir.oantt", 20)
            found = dearest.functions_in(Path(top))
        self.assertEqual(found, [(30, "one", "a.g"), (20, "two", "b.T.h"), (10, "one", "a.f")])

    def test_other_files_and_those_of_other_crates_do_not_count(self):
        with tempfile.TemporaryDirectory() as top:
            self.kept(top, "one", "k", "Rattle-one-proofs.a.f.Code.oantt", 10)
            self.kept(top, "one", "k", "Rattle-two-proofs.a.f.Code.Mir.oantt", 10)
            self.assertEqual(dearest.functions_in(Path(top)), [])

    def test_of_two_that_were_kept_the_last_counts(self):
        with tempfile.TemporaryDirectory() as top:
            self.kept(top, "one", "old", "Rattle-one-proofs.a.f.Code.Mir.oantt", 30, 1)
            self.kept(top, "one", "new", "Rattle-one-proofs.a.f.Code.Mir.oantt", 10, 2)
            self.assertEqual(dearest.functions_in(Path(top)), [(10, "one", "a.f")])


if __name__ == "__main__":
    unittest.main()
