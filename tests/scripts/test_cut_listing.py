"""bin/cut-listing: that the answers about pieces are those about the whole, by a stand-in that answers as `who --reach` does."""

import subprocess
import sys
import tempfile
import unittest
from pathlib import Path

BIN = Path(__file__).resolve().parent.parent.parent / "bin"
sys.path.insert(0, str(BIN.parent / "tests"))

from texts import Ways, blocks_of, path_of  # noqa: E402

PATHS = ("srv", "srv/a", "srv/a/one", "srv/a/b", "srv/a/b/two", "srv/a x/three", "srv/c", "other", "other/srv", "srv", "srv/d")


def listing(paths):
    """A listing of these paths, by either word for a file; a path that isn't told is a block that doesn't read."""
    words = ("file", "file", "File")
    return "\n".join(f"# {words[at % 3]}: {it}\n# owner: 0\n" if it else "lost\n" for at, it in enumerate(paths)).encode()


def answer(text):
    """Two lines of each block whose way is known."""
    ways = Ways()
    for _, block in blocks_of(text):
        path = path_of(block)
        way = ways.to(path, path is not None)
        if path is not None and way is not None:
            yield from (b"%s %s %s\n" % (letters, b"+".join([b"al", *(b"in" for _ in way)]), path) for letters in (b"rwx", b"--x"))


class Cut(unittest.TestCase):
    def setUp(self):
        self.room = tempfile.TemporaryDirectory()
        self.addCleanup(self.room.cleanup)
        self.folder = Path(self.room.name)

    def run_it(self, *words):
        return subprocess.run([BIN / "cut-listing", *map(str, words)], capture_output=True)

    def cut_and_joined(self, text, pieces):
        """How many pieces there are, and their joined answer."""
        whole, into = self.folder / "whole", self.folder / f"pieces{pieces}"
        whole.write_bytes(text)
        self.assertEqual(self.run_it("--pieces", pieces, "--into", into, whole).returncode, 0)
        names = sorted(it for it in into.iterdir() if not it.suffix)
        for it in names:
            it.with_suffix(".out").write_bytes(b"".join(answer(it.read_bytes())))
        return len(names), self.run_it("--join", into).stdout

    def test_a_listing_whose_folders_stand_behind_what_is_in_them_is_refused(self):
        for paths in (("srv/a", "srv"), ("srv", "other", "srv/a"), ("srv", "/srv"), ("a", ".")):
            whole, into = self.folder / "whole", self.folder / "-".join(it.replace("/", "_") for it in paths)
            whole.write_bytes(listing(paths))
            cut = self.run_it("--into", into, whole)
            self.assertEqual(cut.returncode, 1, paths)
            self.assertIn(f"{paths[-1]!r} in {whole} stands behind what is in it".encode(), cut.stderr)

    def test_the_pieces_answers_are_those_of_the_whole(self):
        for lost in (None, 3, 0):
            paths = [*PATHS]
            if lost is not None:
                paths.insert(lost, None)
            text = listing(paths)
            for pieces in (1, 2, 3, 5, 11):
                count, joined = self.cut_and_joined(text, f"{pieces}")
                self.assertGreaterEqual(count, min(pieces, 2))
                self.assertEqual(joined, b"".join(answer(text)), (lost, pieces))
                subprocess.run(["rm", "-r", self.folder / f"pieces{pieces}"], check=True)

    def test_a_path_of_two_listings_is_in_one_pair(self):
        for name, paths in (("before", PATHS), ("after", (*PATHS[4:], "new"))):
            (self.folder / name).write_bytes(listing([*paths, None]))
        into = self.folder / "pairs"
        self.assertEqual(self.run_it("--pieces", 3, "--into", into, self.folder / "before", self.folder / "after").returncode, 0)
        paths_in = lambda name: [path_of(block) for _, block in blocks_of((into / name).read_bytes())]
        before, after = ([paths_in(f"000{it}.{end}") for it in (1, 2, 3)] for end in ("before", "after"))
        self.assertEqual(sorted(it or b"" for one in before for it in one), sorted([b"", *(it.encode() for it in PATHS)]))
        self.assertEqual(sum(map(len, after)), len(PATHS) - 4 + 2)
        for ours, theirs in ((before, after), (after, before)):
            for place, paths in enumerate(ours):
                self.assertFalse(any(it in other for it in paths for at, other in enumerate(theirs) if at != place))

    def test_what_is_there_is_not_written_over(self):
        (self.folder / "whole").write_bytes(listing(PATHS))
        (self.folder / "left").touch()
        self.assertEqual(self.run_it("--into", self.folder, self.folder / "whole").returncode, 1)
        self.assertEqual(self.run_it("--into", self.folder / "none", self.folder / "absent").returncode, 1)
        self.assertEqual(self.run_it("--join", self.folder, "more").returncode, 2)


if __name__ == "__main__":
    unittest.main()
