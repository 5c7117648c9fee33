"""tests/try-tutorial: which commands it finds on pages, which of them it runs, and what it makes of their outputs."""

import contextlib
import io
import os
import tempfile
import unittest
from pathlib import Path
from unittest import mock

from loading import script

tutorial = script("tests/try-tutorial")
PAGE = """\
# A page

```console
$ aclctl one
two
$ find . |
>   sort
> three
```

```sh
$ not run
```

```console
$ cd srv
```
"""


class Commands(unittest.TestCase):
    def test_commands_of_a_page_and_what_stands_below(self):
        with tempfile.TemporaryDirectory() as room:
            page = Path(room, "page.md")
            page.write_text(PAGE)
            found = [*tutorial.blocks_of(page)]
        self.assertEqual(found, [[("aclctl one", "two\n"), ("find . |\n  sort\nthree", "")], [("cd srv", "")]])

    def test_each_page_has_commands(self):
        for name in tutorial.PAGES:
            self.assertTrue([*tutorial.blocks_of(tutorial.TOP / name)], name)

    def test_order_counts_where_entries_decide(self):
        for command, is_so in (("aclctl who -", True), ("aclctl why -", False), ("aclctl explain -", False)):
            self.assertEqual(tutorial.is_same(command, "b\na\n", "a\nb\n"), is_so)
            self.assertTrue(tutorial.is_same(command, "a\nb\n", "a\nb\n"))
            self.assertFalse(tutorial.is_same(command, "a\na\n", "a\n"))


class Skipped(unittest.TestCase):
    def why(self, name, *commands, no_lists="no lists", no_share="no share"):
        """Why a block of these commands isn't run."""
        return tutorial.Pages("/room", no_lists, no_share).why_skipped(name, [(it, "") for it in commands])

    def test_what_needs_a_share(self):
        self.assertEqual(self.why("README.md", "aclctl who listing"), "")
        self.assertEqual(self.why("README.md", "x", "getfacl -Rn srv | aclctl who -"), "no share")
        self.assertEqual(self.why("README.md", "getfacl -Rn srv | aclctl who -", no_share=""), "")
        self.assertEqual(self.why("docs/MIGRATION.md", "aclctl who listing"), "no share")
        self.assertEqual(self.why("docs/TUTORIAL.md", "aclctl who listing"), "no lists")

    def test_what_others_try_or_nobody_can(self):
        self.assertIn("try-forms", self.why("docs/COMMANDS.md", "nfs4_getfacl a"))
        self.assertIn("try-forms", self.why("docs/MIGRATION.md", "aclctl impact posix.acl now.acl"))
        with mock.patch.object(tutorial.shutil, "which", lambda _: None):
            self.assertIn("parallel", self.why("examples/machines.md", "x | parallel y"))


class Runs(unittest.TestCase):
    def run_page(self, *commands):
        """What is counted of a page of commands, each with what it has to print, and what is said."""
        text = "".join(f"```console\n$ {command}\n{wanted}```\n" for command, wanted in commands)
        with tempfile.TemporaryDirectory() as room, mock.patch.dict(tutorial.PAGES, {"page.md": "empty"}):
            top = Path(room, "top")
            (top / "examples").mkdir(parents=True)
            (top / "page.md").write_text(text)
            os.makedirs(f"{room}/clone/empty")
            pages = tutorial.Pages(room, "no lists", "no share")
            said = io.StringIO()
            with mock.patch.object(tutorial, "TOP", top), contextlib.redirect_stdout(said):
                pages.run_page("page.md")
        return (pages.passed, pages.failed), said.getvalue()

    def test_each_command_prints_what_stands_below(self):
        found, said = self.run_page(("echo one", "one\n"), ("mkdir a; cd a", ""), ("basename $PWD", "a\n"), ("cat b 2>&1", "c\n"))
        self.assertEqual(found, (3, 1))
        self.assertTrue(said.startswith("failed: page.md: cat b"))

    def test_a_status_other_than_0_is_a_failure(self):
        self.assertEqual(self.run_page(("false", ""), ("false | true", ""), ("true", ""))[0], (1, 2))


if __name__ == "__main__":
    unittest.main()
