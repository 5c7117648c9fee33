"""tests/read-texts.py: that each byte of a text stands over the letter of its place."""

import importlib.util
import sys
import unittest
from pathlib import Path

TESTS = Path(__file__).resolve().parent.parent
sys.path.insert(0, str(TESTS))


def loaded():
    """The script as a module."""
    spec = importlib.util.spec_from_file_location("read_texts", TESTS / "read-texts.py")
    made = importlib.util.module_from_spec(spec)
    spec.loader.exec_module(made)
    return made


texts = loaded()
CODE = """\
const ROWS: [(Option<u8>, &str); 2] = [
    (Some(b':'), "0S1"),
    (
        None,
        "S2S",
    ),
];
"""
WITH_TEXTS = """\
const ROWS: [(Option<u8>, &str); 2] = [
    //            a|b
    (Some(b':'), "0S1"),
    //   a|b
    (
        None,
        "S2S",
    ),
];
"""


class Texts(unittest.TestCase):
    def test_a_text_stands_over_each_row_with_a_column_for_each_byte(self):
        self.assertEqual(texts.with_texts(CODE, b"a\nb"), WITH_TEXTS)

    def test_it_takes_the_place_of_one_that_stands_there(self):
        for old in ("c|b", "a|b|c", "   a|b"):
            self.assertEqual(texts.with_texts(WITH_TEXTS.replace("a|b", old), b"a\nb"), WITH_TEXTS)

    def test_a_text_in_another_place_is_told(self):
        first, second = texts.comments_in(WITH_TEXTS)
        self.assertEqual((first[0], second[0]), (2, 4))
        moved = WITH_TEXTS.replace("    //   a|b\n", "") + "    //   a|b\n"
        for code in (moved, WITH_TEXTS.replace("//   a", "//  a"), CODE):
            wanted = texts.with_texts(code, b"a\nb")
            self.assertNotEqual(texts.comments_in(code), texts.comments_in(wanted), code)

    def test_a_byte_that_has_no_column_is_refused(self):
        for text in (b"a\tb", b"a|b", b"a\x80b"):
            with self.assertRaises(SystemExit):
                texts.shown(text)


if __name__ == "__main__":
    unittest.main()
