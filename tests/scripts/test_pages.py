"""docs/ONE_FUNCTION.md: what it quotes stands so in the files that it is quoted from."""

import re
import unittest
from pathlib import Path

TOP = Path(__file__).resolve().parent.parent.parent
PAGE = TOP / "docs/ONE_FUNCTION.md"
# The code and the definitions that a page quotes.
QUOTED = re.compile(r"```(?:rust|antt|text)\n(.*?)```", re.DOTALL)


class Quotes(unittest.TestCase):
    def test_each_quote_stands_in_a_file(self):
        folders = [TOP / "crates/acl_posix" / it for it in ("src/acl", "specs", "proofs/acl/modes", "wrong-bodies/acl")]
        files = [it.read_text() for folder in folders for it in folder.rglob("*.*")]
        quotes = [it for it in QUOTED.findall(PAGE.read_text()) if "▼" not in it]
        self.assertEqual(len(quotes), 7)
        for quote in quotes:
            self.assertTrue(any(quote in it for it in files), quote)


if __name__ == "__main__":
    unittest.main()
