"""The parts of bin/report: how lines are cut, which folders there are, and how much a page has at most."""

import io
import random
import sys
import unittest
from pathlib import Path
from unittest.mock import patch

BIN = Path(__file__).resolve().parent.parent.parent / "bin"
sys.path.insert(0, str(BIN))

from report_page import Page  # noqa: E402
from reporting import answers, listing, matrix  # noqa: E402
from reporting.accounts import Accounts  # noqa: E402
from reporting.answers import IMPACT, VIA, WHO, Runs, Unread  # noqa: E402
from reporting.folders import Tree  # noqa: E402
from reporting.html import text_of  # noqa: E402
from reporting.listing import Survey, blocks_of, place_of  # noqa: E402
from reporting.sums import Sums  # noqa: E402
from reporting.thinning import Thinned, blocks_asked  # noqa: E402

# Paths of which some end as others do, or as a line of an answer does.
PATHS = [b"x", b"a x", b"rwx al x", b"new x", b"differ al 7 5,6 - r x", b"al x", b" x", b"x ", b"d/" * 900, b"gone x", b"y"]
HEADS = {
    WHO: [b"rwx al", b"r-- al", b"--x bo", b"rw- a\\040b", b"r-- " + b"n" * 255],
    VIA: [b"rwx al owner", b"r-- al group,group:60,mask", b"--x bo 2,14", b"rw- b - "[:-1], b"r-- " + b"n" * 255 + b" other"],
    IMPACT: [b"new", b"gone", b"differ al 7 5,6 - r", b"differ - 65534 - rw -", b"differ bo 8 - w x"],
}
ACCOUNTS = Accounts().read([b"root:x:0:0::/:\n", b"alice:x:1000:100::/:\n", b"users:x:100:\n"])


class Slow(io.RawIOBase):
    """A stream that gives some bytes at a time."""

    def __init__(self, data, rng):
        super().__init__()
        self.data, self.rng = data, rng

    def read(self, size):
        size = min(size, self.rng.choice((1, 7, 100, 5000)))
        piece, self.data = self.data[:size], self.data[size:]
        return piece

    read1 = read


def block(path, *more):
    """A block of a listing, as bytes."""
    return b"# file: " + path + b"\n# owner: root\n# group: root\n" + b"".join(it + b"\n" for it in more) + b"other::r-x\n\n"


def tree_of(*blocks):
    """The tree of a listing."""
    return Tree(Survey(ACCOUNTS).read(io.BytesIO(b"".join(blocks))))


class Lines(unittest.TestCase):
    def test_runs_are_those_that_were_written(self):
        for form, heads in HEADS.items():
            for seed in range(150):
                rng = random.Random(seed)
                kinds = [[rng.choice(heads) for _ in range(rng.choice((1, 1, 2, 5, 40)))] for _ in range(4)]
                wanted = []
                for _ in range(60):
                    path = rng.choice(PATHS)
                    if not wanted or wanted[-1][0] != path:
                        wanted.append((path, b"\n".join(rng.choice(kinds))))
                data = b"".join(head + b" " + path + b"\n" for path, text in wanted for head in text.split(b"\n"))
                self.assertEqual([*Runs(Slow(data, rng), form)], wanted, seed)

    def test_texts_are_forgotten_where_there_are_many(self):
        wanted = [(b"%d" % it, b"r-- u%d" % it) for it in range(3000)]
        data = b"".join(text + b" " + path + b"\n" for path, text in wanted)
        with patch.object(answers, "MOST_KEPT", 100):
            runs = Runs(io.BytesIO(data), WHO)
            self.assertEqual([*runs], wanted)
            self.assertLessEqual(len(runs.texts), 100)

    def test_paths_that_end_as_another_does_are_let_go(self):
        wanted = [(b"x", b"r-- al\nrw- bo"), *((b"%d x" % it, b"r-- al") for it in range(3000))]
        data = b"".join(head + b" " + path + b"\n" for path, text in wanted for head in text.split(b"\n"))
        with patch.object(answers, "CHUNK", 100):
            runs, most = Runs(io.BytesIO(data), WHO), 0
            for it in wanted:
                self.assertEqual(next(iter(runs)), it)
                most = max(most, len(runs.buffer))
        self.assertLess(most, 1000)

    def test_lines_of_another_form_are_refused(self):
        for form, text in ((WHO, b"rwx al"), (WHO, b"rwx al a"), (WHO, b"rwx al a\nfault x 1 a\n"), (WHO, b"al a b\n"), (WHO, b"\n"), (WHO, b"r-- al a\n\n"), (IMPACT, b"differ a b\n"), (IMPACT, b"old a\n")):
            with self.assertRaises(Unread, msg=text):
                [*Runs(io.BytesIO(text), form)]


class Listings(unittest.TestCase):
    def test_blocks_are_cut_at_empty_lines(self):
        text = b"\n\na\nb\n\n\n\nc\n\n \nd"
        for seed in range(20):
            self.assertEqual([*blocks_of(Slow(text, random.Random(seed)))], [b"a\nb", b"c", b" \nd"])

    def test_a_block_without_end_takes_no_memory(self):
        text = (b"x" * 999 + b"\n") * 5000 + b"\n# file: a\n"
        got = [*blocks_of(io.BytesIO(text))]
        self.assertEqual((len(got), got[1]), (2, b"# file: a"))
        self.assertLessEqual(len(got[0]), 2 * listing.CHUNK + 2)

    def test_a_path_stands_behind_either_word(self):
        for head, path in ((b"# file: a", b"a"), (b"# File: # file: a", b"# file: a"), (b"# FILE: a", None), (b"# File: ", None)):
            self.assertEqual(listing.path_of(head), path)

    def test_places_are_paths_without_idle_steps(self):
        for path, place in ((b".", b""), (b"./a", b"a"), (b"a//b/./c/", b"a/b/c"), (b"/", b"/"), (b"//a", b"/a"), (b"a/.", b"a"), (b"a/.b", b"a/.b"), (b"..", b".."), (b".a", b".a"), (b"a\\\\b/\\012", b"a\\b/\n"), (b"\\033/./\x1b", b"\x1b/\x1b")):
            self.assertEqual(place_of(path), place)

    def test_folders_are_in_one_another_by_steps(self):
        tree = tree_of(block(b"."), block(b"a"), block(b"./a//b"), block(b"a/b/c"), block(b"ab"), block(b"/x"), block(b"/x/y"))
        levels = [(it.name, it.level, it.files) for it in tree.in_order()]
        self.assertEqual(levels, [(b"", 0, 0), (b".", 1, 1), (b"a", 2, 0), (b"./a//b", 3, 1), (b"/x", 1, 1)])
        tree.add_up()
        self.assertEqual([it.files for it in tree.in_order()], [3, 2, 1, 1, 1])

    def test_a_folder_behind_what_is_in_it_and_one_that_comes_twice(self):
        tree = tree_of(block(b"a/b/c"), block(b"a/b"), block(b"a"), block(b"a"), block(b"a/d"), block(b"alone"))
        tree.add_up()
        self.assertEqual([(it.name, it.files) for it in tree.in_order()], [(b"", 3), (b"a", 2), (b"a/b", 1)])

    def test_files_of_a_folder_that_the_listing_lacks(self):
        tree = tree_of(block(b"a"), block(b"a/b/c"), block(b"a/b/d"), block(b"e/f"))
        tree.add_up()
        self.assertEqual([(it.name, it.files) for it in tree.in_order()], [(b"", 4)])
        tree = tree_of(block(b"a"), block(b"a/x"), block(b"a/b/c"), block(b"a/b/d"))
        tree.add_up()
        self.assertEqual([(it.name, it.files) for it in tree.in_order()], [(b"", 3), (b"a", 3)])


def ways_of(paths):
    """Of each block, by the rules of docs/COMMANDS.md: the blocks of the folders above it, or None if they aren't known."""
    steps = [tuple(part for part in it.split(b"/") if part not in (b"", b".")) for it in paths]
    is_alike = lambda one, other: paths[one].startswith(b"/") == paths[other].startswith(b"/")
    is_above = lambda one, other: is_alike(one, other) and len(steps[one]) < len(steps[other]) and steps[other][: len(steps[one])] == steps[one]
    starts, way, found, is_known = [], [], [], True
    for at in range(len(paths)):
        way = [it for it in way if is_above(it, at)]
        if not way:
            starts.append(at)
            is_known = is_known and all(is_alike(it, at) and not is_above(it, at) and not is_above(at, it) for it in starts[:-1])
        chain = [*reversed(way), at]
        is_whole = all(len(steps[over]) + 1 == len(steps[it]) for over, it in zip(chain, chain[1:]))
        found.append(tuple(paths[it] for it in chain[:-1]) if is_known and is_whole else None)
        way = [at, *way]
    return found


class Thinning(unittest.TestCase):
    def thinned(self, listing):
        """What is kept of a listing, for how many each block stands, and whether that is exact."""
        out = io.BytesIO()
        thinned = Thinned(out)
        found, plain = Survey(ACCOUNTS).read(io.BytesIO(listing), thinned), Survey(ACCOUNTS).read(io.BytesIO(listing))
        for it in ("blocks", "inside", "listed", "owners", "repeated", "strangers"):
            self.assertEqual(getattr(found, it), getattr(plain, it), it)
        thinned.close()
        out.seek(0)
        return [*blocks_asked(out, thinned.counts)], thinned.is_exact

    def some_paths(self, rng):
        """Paths in the order of getfacl, mostly."""
        root = rng.choice((b"s", b"/s", b"."))
        paths, waiting = [], [root]
        while waiting:
            path = waiting.pop(rng.choice((*[-1] * 30, 0)))
            paths.append(path)
            if rng.random() < (1 if path == root else 0.3) and path.count(b"/") < 3:
                waiting += [path + b"/" + it for it in rng.sample([b"a", b"b", b"c", b"d e", b".f", b"g\\012", b"h", b"i", b"j"], rng.randint(1, 9))]
        for _ in range(rng.choice((0, 0, 1, 3))):
            at, other = rng.randrange(len(paths)), rng.randrange(len(paths))
            paths[at] = rng.choice((paths[other], paths[at] + b"/", b"./" + paths[at], b"/" + paths[at], paths[at]))
            paths.insert(other, paths.pop(at))
        return paths

    def test_one_stands_for_those_that_are_answered_alike(self):
        left_out = inexact = 0
        for seed in range(1500):
            rng = random.Random(seed)
            paths = self.some_paths(rng)
            bodies = {it: rng.choice((b"other::r-x", b"other::r-x", b"other::r-x", b"default:other::r-x", b"user:7:r-x")) for it in {*paths}}
            blocks = [block(it, bodies[it]) for it in paths]
            kept, is_exact = self.thinned(b"".join(blocks))
            if not is_exact:
                inexact += 1
                continue
            whole = ways_of([*map(listing.unescaped, paths)])
            wanted, of_kept = [], ways_of([it for it, _, _ in kept])
            for (path, body, times), way in zip(kept, of_kept):
                wanted += [(path.rpartition(b"/")[0], Survey(ACCOUNTS).learn(body).is_folder, way)] * times
            seen = [(listing.unescaped(path).rpartition(b"/")[0], Survey(ACCOUNTS).learn(bodies[path] + b"\n").is_folder, whole[at]) for at, path in enumerate(paths)]
            self.assertEqual(sorted(map(repr, seen)), sorted(map(repr, wanted)), (seed, paths))
            above = {it for way in whole if way for it in way}
            self.assertEqual(above - {listing.unescaped(it) for it, _, times in kept if times == 1}, set(), (seed, paths))
            left_out += len(paths) - len(kept)
        self.assertGreater(left_out, 300)
        self.assertLess(inexact, 1000)

    def test_folders_that_come_late_and_long_blocks_are_asked_about(self):
        kept, is_exact = self.thinned(b"".join(block(it) for it in (b"a", b"a/x", b"a/y", b"a/z", b"a/y/in")))
        self.assertEqual((is_exact, kept[1][2]), (False, 1 + 2))
        long = b"#" * 40_000
        kept, is_exact = self.thinned(b"".join(block(it, long) for it in (b"a", b"a/x", b"a/y")))
        self.assertEqual((is_exact, len(kept)), (True, 3))
        kept, is_exact = self.thinned(b"".join(block(it) for it in (b"a", b"a/x", b"a/y", b"a/y/in", b"a/z")) + b"# file: \n# owner: 0\n\n")
        self.assertEqual((is_exact, [it[::2] for it in kept]), (True, [(b"a", 1), (b"a/x", 1), (b"a/y", 1), (b"a/y/in", 1), (b"a/z", 1)]))


class Names(unittest.TestCase):
    def test_what_cannot_be_seen_is_in_octal_digits(self):
        for raw, text in ((b"a b", "a b"), (b" a", "\\040a"), (b"a ", "a\\040"), (b"", ""), (b"\t", "\\011"), (b"a\n\x7f", "a\u21b5\\177"), ("\u00e9".encode(), "\u00e9"), (b"\xe9", "\\351"), ("\u200b\u2028".encode(), "\\342\\200\\213\\342\\200\\250"), (b"\\012", "\\012"), ("a\u00a0b".encode(), "a\\302\\240b")):
            self.assertEqual(text_of(raw), text)


class Room(unittest.TestCase):
    def matrix_of(self, most):
        """The table of a tree of four levels and two users, where a page has so many cells."""
        paths = [b"s", *(b"s/%d" % it for it in range(3)), *(b"s/%d/%d" % (it, other) for it in range(3) for other in range(4))]
        blocks = [block(it, b"default:other::r-x") for it in sorted(paths)]
        sums = Sums(tree_of(*blocks, *(block(b"s/%d/%d/file" % (it, other)) for it in range(3) for other in range(4))))
        answer = b"".join(b"r-x al owner %s\nrwx bo group %s\n" % (it, it) for it in sorted(paths))
        answer += b"".join(b"r-- al other s/%d/%d/file\n" % (it, other) for it in range(3) for other in range(4))
        files = [block(b"s/%d/%d/file" % (it, other)) for it in range(3) for other in range(4)]
        asked = io.BytesIO(b"".join([*blocks, *files]))
        sums.read(io.BytesIO(answer), blocks_asked(asked, None))
        sums.tree.add_up()
        with patch.object(matrix, "MOST_CELLS", most):
            text, columns = matrix.matrix(sums)
        return text, columns, Page(f"<section id=reach>{text}</section>").folders()

    def test_folders_are_summed_up_where_there_is_no_room(self):
        for most, rows, level in ((200, 16, None), (95, 4, 2), (23, 1, 1), (1, 1, 0)):
            text, columns, folders = self.matrix_of(most)
            self.assertEqual((columns, len(folders)), (3, rows), most)
            self.assertEqual(f"So folders below level {level} have no rows of their own" in text, level is not None)
            self.assertEqual(folders["s"], ("12 files", {"anyone": "", "al": "r-x r all", "bo": "rwx"}))

    def test_the_cells_of_a_page_take_five_megabytes(self):
        text, columns, folders = self.matrix_of(1000)
        cells = (text.count("<td") + 3 * len(folders))
        self.assertLess(len(text[text.index("<tbody>") :]) / cells * matrix.MOST_CELLS, 5_000_000)


if __name__ == "__main__":
    unittest.main()
