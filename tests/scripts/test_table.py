"""bin/table over answers that stand here: the rows of each, as CSV and as JSON, with owners, and summed up."""

import base64
import csv
import io
import json
import os
import shutil
import subprocess
import tempfile
import unittest
from pathlib import Path

TOP = Path(__file__).resolve().parent.parent.parent
SCRIPT = TOP / "bin/table"
# How many seconds it may take on the slowest machine.
SLOW = 600
WHO = "rw- CORP\\134bob srv/a b\\012c\nr-x al srv/plans\n-w- al srv/plans/x\\\\y\n"
IMPACT = "differ bob 5 60,61 w - srv/a\ndiffer - 7 - - rwx srv/a\nnew srv/d/b\ndiffer bob 5 60,61 - r srv/d/b\nchanged access,default srv/c\ngone srv/d/z\n"
WHY = """denied
folder srv granted
class other
entry other::r-x r-x ---
folder srv/a b granted denied
class group
entry group::rwx --- --x
entry group:60:r-- --- --x
mask ---
file srv/a b granted/z granted
r 3 A::EVERYONE@:rwa
w - -
"""
LISTING = """# file: srv
# owner: root
# group: root
user::rwx

# file: srv/a
# owner: CORP\\134alice
# group: domain\\040users
user::rwx

# file: srv/plans
# owner: 1000
# group: 100
user::rwx

"""
BEFORE = "# file: srv/d/z\n# owner: zoe\n# group: 1\nuser::rwx\n\n# file: srv/a\n# owner: older\n# group: 2\nuser::rwx\n"


class Table(unittest.TestCase):
    def setUp(self):
        self.room = Path(tempfile.mkdtemp(prefix="test-table-")).resolve()
        self.addCleanup(shutil.rmtree, self.room)

    def write(self, name, text):
        """Writes a file of the room."""
        (self.room / name).write_bytes(text if isinstance(text, bytes) else text.encode())
        return name

    def run_script(self, text, *words, **how):
        """Runs the script in the room, with a text on standard input."""
        given = text if isinstance(text, bytes) else text.encode()
        how = {"capture_output": True, "timeout": SLOW, "cwd": self.room, "env": {**os.environ, "LC_ALL": "C"}, **how}
        return subprocess.run([SCRIPT, *words], input=given, **how)

    def rows(self, text, *words):
        """The rows in JSON."""
        ran = self.run_script(text, "--jsonl", *words)
        self.assertEqual((ran.returncode, ran.stderr), (0, b""))
        return [json.loads(it) for it in ran.stdout.decode().splitlines()]

    def cells(self, text, *words):
        """The rows in CSV, by columns."""
        ran = self.run_script(text, *words)
        self.assertEqual((ran.returncode, ran.stderr), (0, b""))
        return [*csv.DictReader(io.StringIO(ran.stdout.decode(), newline=""))]

    def refused(self, why, text, *words, status=1):
        """That there is no table, for this reason."""
        ran = self.run_script(text, *words)
        self.assertEqual(ran.returncode, status, ran.stderr)
        self.assertIn(why, ran.stderr.decode())

    def test_who(self):
        wanted = [("CORP\\bob", "rw", "srv/a b\nc"), ("al", "rx", "srv/plans"), ("al", "w", "srv/plans/x\\y")]
        for read in (self.rows, self.cells):
            self.assertEqual([(it["user"], it["permissions"], it["path"]) for it in read(WHO)], wanted)

    def test_all_fourteen_letters(self):
        self.assertEqual(self.rows("rwxp-DaARWcCos alice srv/x\n")[0]["permissions"], "rwxpDaARWcCos")

    def test_who_with_permissions_that_were_asked_for(self):
        answer = "bob srv/a b\nrwx new x\n"
        self.assertEqual([it["user"] for it in self.rows(answer, "--perms", "rw")], ["bob", "rwx"])
        self.assertEqual({it["permissions"] for it in self.rows(answer, "--perms=rw")}, {"rw"})
        self.assertEqual([it["path"] for it in self.rows(answer, "--delete")], ["srv/a b", "new x"])
        self.assertEqual(self.rows(answer, "--delete")[0]["permissions"], "delete")

    def test_who_by_which_entries(self):
        answer = "rw- CORP\\134bob group:50,group:60 srv/a b\nr-x al user,mask srv/plans\n--x eve 2,4 x\nr-- z other owner x\n"
        for read in (self.rows, self.cells):
            rows = read(answer, "--via")
            self.assertEqual([it["via"] for it in rows], ["group:50 group:60", "user mask", "2 4", "other"])
            self.assertEqual([it["path"] for it in rows], ["srv/a b", "srv/plans", "x", "owner x"])
        self.assertEqual((rows[0]["user"], rows[0]["permissions"]), ("CORP\\bob", "rw"))
        self.assertEqual(self.run_script(answer, "--via").stdout.split(b"\r\n")[0], b"user,permissions,via,path,path_b64,user_b64")
        rows = self.rows("bob group:60 srv/plan\ncarol - x\n", "--via", "--perms", "w")
        self.assertEqual([(it["permissions"], it["via"], it["path"]) for it in rows], [("w", "group:60", "srv/plan"), ("w", "", "x")])
        self.assertEqual(self.rows("r-- a owner s/x\nrw- a owner s/y\nr-- a owner s/z\n", "--via", "--summary=1")[0]["paths"], 2)
        self.assertEqual(self.rows("", "--via"), [])

    def test_entries_are_no_part_of_a_path(self):
        why = "line 1 is of who --via, or its path begins like that: give --via, or else --no-via: "
        for line, words in (("r-- al owner srv/x", ()), ("r-- al group,group:60,mask x", ()), ("r-- al 4 x", ()), ("al - x", ("--perms=r",))):
            self.refused(why + line, line + "\n", *words)
        self.assertEqual(self.rows("r-- al owner srv/x\n", "--no-via")[0]["path"], "owner srv/x")
        self.assertEqual(self.rows("al owner srv/x\n", "--no-via", "--perms=r")[0]["path"], "owner srv/x")
        # Elsewhere no line has entries, and one that isn't the first is as that is.
        self.assertEqual([it["path"] for it in self.rows("r-- al srv\nr-- al owner x\n")], ["srv", "owner x"])
        self.assertEqual(self.rows("al owner x\n", "--delete")[0]["path"], "owner x")
        self.refused("line 2 is none of such an answer: r-- al srv/x", "r-- al owner s\nr-- al srv/x\n", "--via")
        self.refused("line 1 is none of such an answer: new x", "new x\n", "--via")
        self.refused("who has no --via with --delete", "", "--via", "--delete", status=2)
        self.refused("not allowed with argument", "", "--via", "--no-via", status=2)

    def test_impact(self):
        rows = self.cells(IMPACT)
        self.assertEqual([it["what"] for it in rows], ["differ", "differ", "new", "differ", "changed", "gone"])
        self.assertEqual([it["lost"] for it in rows], ["w", "", "", "", "", ""])
        self.assertEqual([it["gained"] for it in rows], ["", "rwx", "", "r", "", ""])
        self.assertEqual([(it["user"], it["uid"], it["gids"]) for it in rows[:3]], [("bob", "5", "60 61"), ("", "7", ""), ("", "", "")])
        self.assertEqual(rows[4]["changed"], "access default")
        first = {"what": "differ", "user": "bob", "uid": 5, "gids": "60 61", "lost": "w", "gained": "", "path": "srv/a"}
        self.assertEqual(self.rows(IMPACT)[0], first)
        self.assertEqual(self.rows(IMPACT)[2], {"what": "new", "path": "srv/d/b"})

    def test_why(self):
        rows = self.cells(WHY)
        self.assertEqual([it["what"] for it in rows], ["answer", "folder", "folder", "file"])
        self.assertEqual([it["decision"] for it in rows], ["denied", "granted", "denied", "granted"])
        self.assertEqual([it["path"] for it in rows], ["", "srv", "srv/a b granted", "srv/a b granted/z"])
        self.assertEqual((rows[2]["class"], rows[2]["mask"]), ("group", "'---"))
        self.assertEqual(rows[2]["entries"], "group::rwx --- --x; group:60:r-- --- --x")
        self.assertEqual(rows[3]["entries"], "r 3 A::EVERYONE@:rwa; w - -")

    def test_cells_are_no_formulas_and_can_be_read_back(self):
        paths = ["=1+1", "+1", "-1", "@x", "\tx", "  =x", "'x", "\uff1dx", "plain", "a=b"]
        answer = "".join(f"r-- {'-x' if at else '=n'} {it}\n" for at, it in enumerate(paths))
        rows = self.cells(answer)
        self.assertEqual([it["path"] for it in rows], [f"'{it}" for it in paths[:8]] + paths[8:])
        self.assertEqual([it["user"] for it in rows], ["'=n", *["'-x"] * 9])
        self.assertEqual([it["path"] for it in self.rows(answer)], paths)
        self.assertEqual([it["path"] for it in self.cells("r-- n \\015x\nr-- n \\012x\n")], ["'\rx", "'\nx"])

    def test_bytes_that_are_no_text_stand_beside(self):
        answer = b"r-- \\377n srv/\xff\xfe\nr-- m srv/\xc3\xa9\n"
        for read in (self.rows, self.cells):
            first, second = read(answer)
            self.assertEqual((first["user"], first["path"]), ("\ufffdn", "srv/\ufffd\ufffd"))
            self.assertEqual(base64.b64decode(first["path_b64"]), b"srv/\xff\xfe")
            self.assertEqual(base64.b64decode(first["user_b64"]), b"\xffn")
            self.assertEqual(second["path"], "srv/\u00e9")
        self.assertNotIn("path_b64", self.rows(answer)[1])

    def test_owners(self):
        self.write("listing", LISTING)
        rows = self.rows(WHO, "--listing", "listing")
        self.assertEqual([it.get("owner") for it in rows], [None, "1000", None])
        self.write("before", BEFORE)
        rows = self.cells(IMPACT, "--listing=listing", "--before", "before")
        self.assertEqual([it["owner"] for it in rows], ["CORP\\alice"] * 2 + [""] * 3 + ["zoe"])
        self.assertEqual(rows[0]["group"], "domain users")

    def test_control_bytes_that_the_answer_alone_escapes_are_found_in_the_listing(self):
        self.write("listing", b"# file: srv/\x1b\n# owner: al\n# group: 1\nuser::rwx\n")
        self.assertEqual(self.rows("r-- n srv/\\033\n", "--listing", "listing")[0]["owner"], "al")

    def test_sums_by_folders(self):
        answer = "".join(f"{letters} {name} /srv/{path}\n" for letters, name, path in (("rw-", "b", "p/x"), ("rw-", "b", "p/q/y"), ("r--", "b", "p/z"), ("rw-", "a", "k"), ("rw-", "b", "o/x")))
        rows = [(it["path"], it["user"], it["permissions"], it["paths"]) for it in self.rows(answer, "--summary", "2")]
        self.assertEqual(rows, [("/srv", "a", "rw", 1), ("/srv/o", "b", "rw", 1), ("/srv/p", "b", "r", 1), ("/srv/p", "b", "rw", 2)])
        self.assertEqual([it["path"] for it in self.rows(answer, "--summary=0")], ["/"] * 3)
        self.assertEqual([it["paths"] for it in self.cells("r-- a x\n", "--summary=5")], ["1"])
        self.write("listing", LISTING)
        rows = [(it["what"], it["user"], it["gained"], it["path"], it.get("owner")) for it in self.rows(IMPACT, "--summary=1", "--listing=listing")]
        self.assertIn(("differ", "bob", "r", "srv", "root"), rows)

    def test_an_answer_without_lines_has_no_row(self):
        self.assertEqual(self.rows(""), [])
        self.assertEqual(self.run_script("").stdout, b"")
        self.assertEqual(self.run_script("", "--perms", "r").stdout, b"user,permissions,path,path_b64,user_b64\r\n")

    def test_what_is_no_answer_is_refused(self):
        self.refused("table: -: line 1 is none of such an answer: bob srv/x", "bob srv/x\n")
        self.refused("line 2 is none of such an answer: new x", "r-- a b\nnew x\n")
        self.refused("line 2 is none of such an answer: r-- a c", "r-- a b\nr-- a c")
        self.refused("line 2 is none", "differ a 1 2 - r x\ndiffer a 1 2 r x\n")
        self.refused("line 1 is none", "bob\n", "--perms=r")
        self.refused("an answer of why isn't summed up", WHY, "--summary=1")

    def test_files_and_words(self):
        self.refused("table: cannot read none: No such file or directory", "", "none")
        self.refused("table: cannot read none: No such file or directory", WHO, "--listing", "none")
        self.refused("- is given twice", "", "--listing", "-", status=2)
        self.refused("DEPTH is 0 or more", "", "--summary=-1", status=2)
        self.refused("not allowed with argument", "", "--csv", "--jsonl", status=2)
        name = self.write("answer", WHO)
        self.assertEqual(self.rows("", name), self.rows(WHO))

    def test_an_output_that_is_full_is_told(self):
        with open("/dev/full", "w") as full:
            ran = self.run_script(WHO, capture_output=False, stdout=full, stderr=subprocess.PIPE)
        self.assertEqual((ran.returncode, ran.stderr), (1, b"table: cannot write the table: No space left on device\n"))


if __name__ == "__main__":
    unittest.main()
