"""bin/report over a program that is a stand-in: what stands on the page, and what it says where there is none."""

import os
import random
import re
import resource
import shutil
import subprocess
import tempfile
import unittest
from pathlib import Path
from unittest.mock import patch

from report_page import Page

TOP = Path(__file__).resolve().parent.parent.parent
# How many seconds a stand-in may take on the slowest machine.
SLOW = 600
# It answers as the program does, by rules that are simpler: a user has what an entry for the user says, or else what that for the
# others says, where every folder above is searched.
PROGRAM = r'''#!/usr/bin/env python3
import os, re, sys

def blocks(text):
    line = 1
    for block in re.split("(\n\n+)", text):
        if block.strip("\n"):
            yield line, block.strip("\n").split("\n")
        line += block.count("\n")

def letters(lines, user):
    found = {it.rsplit(":", 1)[0]: it[-3:] for it in lines if not it.startswith("#")}
    return found.get(f"user:{user}", found.get("other:", "---"))

def via(lines, user):
    return "user" if any(it.startswith(f"user:{user}:") for it in lines) else "group,group:100" if user == "carol" else "other"

def files(text, name, is_quiet=False):
    count = lost = 0
    for number, lines in blocks(text):
        count += 1
        if len(lines) > 1 and lines[1].startswith("# owner: ") and lines[0].startswith("# file: "):
            yield lines[0][8:], lines
        elif not is_quiet:
            lost += 1
            print(f"aclctl: {name}:{number}: bad-header: {lines[0]}", file=sys.stderr)
    if lost:
        print(f"aclctl: {name}: {lost} of {count} files were not answered", file=sys.stderr)
        STATUS.append(4)
    if not count and not is_quiet:
        print(f"aclctl: {name}: no file", file=sys.stderr)
        STATUS.append(4)

def users(words):
    name = words[words.index("--accounts") + 1] if "--accounts" in words else "/etc/passwd"
    try:
        rows = [it.rstrip("\n").split(":") for it in open(name, errors="surrogateescape")]
    except OSError:
        print(f"aclctl: cannot read {name}", file=sys.stderr)
        sys.exit(1)
    if any(len(it) not in (4, 7) for it in rows):
        print(f"aclctl: {name}:1: bad-account: alice:x:1000", file=sys.stderr)
        sys.exit(1)
    return sorted(re.sub(r"[ \t\r:,\\]", lambda it: f"\\{ord(it[0]):03o}", it[0]) for it in rows if len(it) == 7 and it[2] != "0")

def reached(text, name, whom, is_quiet=False):
    seen = {}
    for path, lines in files(text, name, is_quiet):
        above = [it for at, it in seen.items() if path.startswith(at + "/")]
        seen[path] = lines
        yield path, [(user, letters(lines, user)) for user in whom if all("x" in letters(it, user) for it in above)]

def line(told, user, path):
    if "--perms" in words:
        return f"{user} {path}\n" if "w" in told else ""
    return f"{told} {user} {via(seen_of[path], user)} {path}\n" if "--via" in words else f"{told} {user} {path}\n"

def change(old, new):
    take = lambda one, other: "".join(it for it in one if it not in other + "-") or "-"
    return take(old, new), take(new, old)

STATUS, words = [0], sys.argv[1:]
if words == ["--version"]:
    sys.exit(0)
open(os.environ["ROOM"] + "/calls", "a").write(" ".join(words) + "\n")
whom = [words[at + 1] for at, it in enumerate(words) if it == "--user"] or users(words)
text = sys.stdin.buffer.read().decode(errors="surrogateescape")
out = open(1, "w", errors="surrogateescape", closefd=False)
if words[0] == "who":
    assert words[-1] == "-" and "--reach" in words
    seen_of = dict(files(text, "-", True))
    for path, told in reached(text, "-", whom):
        out.writelines(line(it, user, path) for user, it in told if it != "---")
else:
    assert words[0] == "impact" and words[-1] == "-" and {"--reach", "--all"} <= {*words}
    older = open(words[-2], errors="surrogateescape").read()
    old, new = ({path: dict(told) for path, told in reached(it, name, whom)} for it, name in ((older, words[-2]), (text, "-")))
    for path in (*new, *(it for it in old if it not in new)):
        if path not in old or path not in new:
            out.write(f"{'new' if path in new else 'gone'} {path}\n")
        for user in whom:
            lost, gained = change(*(it.get(path, {}).get(user, "---") for it in (old, new)))
            if (lost, gained) != ("-", "-"):
                out.write(f"differ {user} 7 5,6 {lost} {gained} {path}\n")
sys.exit(max(STATUS))
'''


def block(path, other, **users):
    """A block of a listing: what the others may do with the path, and what some users may."""
    entries = "".join(f"user:{name}:{letters}\n" for name, letters in users.items())
    return f"# file: {path}\n# owner: root\n# group: root\nuser::rwx\n{entries}group::r-x\nother::{other}\n\n"


ACCOUNTS = "root:x:0:0::/:\nalice:x:1000:100::/:\nbob:x:1001:100::/:\ncarol:x:1002:100::/:\nroot:x:0:\nusers:x:100:\n"
# alice reads and writes the plans, and bob one of them; what is shut nobody reaches but alice, who may only pass.
SHARE = [
    block("srv", "r-x"),
    block("srv/plans", "--x", alice="rwx"),
    block("srv/plans/one", "---", alice="rw-", bob="rw-"),
    block("srv/plans/two", "---", alice="rw-", bob="r--"),
    block("srv/plans/old", "---", alice="r-x"),
    block("srv/plans/old/three", "rw-", alice="r--"),
    block("srv/shut", "---", alice="--x"),
    block("srv/shut/four", "rw-", alice="---"),
    block("srv/open", "rw-"),
]


class OverStandIn(unittest.TestCase):
    """A folder with the script, the stand-in, accounts and a share."""

    def setUp(self):
        self.room = Path(tempfile.mkdtemp(prefix="test-report-")).resolve()
        self.addCleanup(shutil.rmtree, self.room)
        (self.room / "bin").mkdir()
        shutil.copy(TOP / "bin/report", self.room / "bin/report")
        shutil.copytree(TOP / "bin/reporting", self.room / "bin/reporting", ignore=shutil.ignore_patterns("__pycache__"))
        self.write("bin/aclctl", PROGRAM)
        (self.room / "bin/aclctl").chmod(0o755)
        self.write("accounts", ACCOUNTS)
        self.write("share", "".join(SHARE))

    def write(self, name, text):
        """Writes a file of the room."""
        (self.room / name).write_bytes(text if isinstance(text, bytes) else text.encode(errors="surrogateescape"))

    def run_script(self, *words, **how):
        """Runs the script in the room."""
        how = {"capture_output": True, "text": True, "timeout": SLOW, "cwd": self.room, "errors": "surrogateescape", **how}
        return subprocess.run([self.room / "bin/report", *words], env={**os.environ, "ROOM": str(self.room)}, **how)

    def page(self, listing="share", accounts="accounts", **how):
        """The page of a listing."""
        ran = self.run_script("--accounts", accounts, listing, **how)
        self.assertEqual((ran.returncode, ran.stderr), (0, ""))
        return Page(ran.stdout)

    def refused(self, *words, **how):
        """What the script says where there is no page."""
        ran = self.run_script(*words, **how)
        self.assertEqual((ran.returncode, ran.stdout), (1, ""))
        return ran.stderr


class Report(OverStandIn):
    def test_each_cell_says_what_a_user_reaches_in_a_folder(self):
        folders = self.page().folders()
        self.assertEqual(
            folders,
            {
                "srv": ("5 files", {"anyone": "r-x r 1 w 1", "alice": "r-x r 4 w 3", "bob": "r-x r 3 w 2"}),
                "srv/plans": ("3 files", {"anyone": "--x", "alice": "rwx r all w 2", "bob": "--x r 2 w 1"}),
                "srv/plans/old": ("1 file", {"anyone": "", "alice": "r-x r all", "bob": ""}),
                "srv/shut": ("1 file", {"anyone": "", "alice": "--x", "bob": ""}),
            },
        )

    def test_the_numbers_at_the_head(self):
        page = self.page()
        numbers = page.numbers()
        self.assertEqual([numbers[it] for it in ("folders", "files", "of 3 users reach something", "path that anyone can write")], ["4", "5", "3", "1"])
        self.assertIn("srv", page.titles)

    def test_who_is_like_anyone_has_no_column(self):
        text = self.page().texts["reach"]
        self.assertIn("1 user has the same in each row, and no column: carol.", text)

    def test_what_everybody_can_do_and_who_can_write_most(self):
        page = self.page()
        self.assertIn("can read 1 file and write 1 file.", page.texts["anyone"])
        self.assertEqual(page.tables["anyone"][1:], [["srv", "1", "1"]])
        self.assertEqual(page.paths["anyone"], ["srv/open"])
        self.assertEqual(page.tables["writers"][1:], [["alice", "3", "1", "4"], ["bob", "2", "0", "3"], ["carol", "1", "0", "1"]])

    def test_drop_boxes_stand_apart_from_mistakes(self):
        sticky = lambda path, other: block(path, other).replace("# group: root\n", "# group: root\n# flags: --t\n")
        self.write("share", block("s", "r-x") + sticky("s/box", "rwx") + block("s/open", "rwx") + block("s/open/in", "rw-") + block("s/odd", "-w-") + block("s/odd/in", "---"))
        page = self.page()
        self.assertEqual(page.paths["anyone"], ["s/open", "s/open/in", "s/odd", "s/box"])
        self.assertEqual(page.numbers()["paths that anyone can write"], "3")
        for words in ("1 folder without the sticky bit that anyone can write", "2 other paths that anyone can write", "1 drop box with the sticky bit that anyone can write"):
            self.assertIn(words, page.texts["anyone"])

    def test_names_and_owners_stand_without_escapes(self):
        self.write("accounts", ACCOUNTS + "CORP\\bea x:x:1005:100::/:\n")
        folder = "# file: s\\\\x\\012y\n# owner: OWNER\n# group: root\nuser:CORP\\134bea\\040x:rwx\nother::r-x\n\n" + block("s\\\\x\\012y/f", "r--")
        for owner, shown in (("CORP\\134bea\\040x", "CORP\\bea x"), ("1005", "CORP\\bea x"), ("4711", "4711"), ("root", "root"), ("0", "root")):
            self.write("share", folder.replace("OWNER", owner))
            page = self.page()
            self.assertEqual((page.owners, [*page.folders()]), ([shown], ["s\\x\u21b5y"]))
            self.assertIn("CORP\\bea x", page.tables["reach"][0])

    def test_what_is_escaped_in_one_place_and_not_in_another_is_one_path(self):
        self.write("share", block("s\\\\\x1b", "r-x") + block("s\\\\\x1b/in", "rw-", bob="r--"))
        program = (self.room / "bin/aclctl").read_text().replace('{user} {path}\\n"', '{user} " + path.replace(chr(27), chr(92) + "033") + "\\n"')
        self.assertIn("chr(27)", program)
        self.write("bin/aclctl", program)
        folders = self.page().folders()
        self.assertEqual(folders, {"s\\\\033": ("1 file", {"anyone": "r-x r all w all", "bob": "r-x r all"})})

    def owners_of(self, *words):
        """Writes the pages of owners. Returns them and the tables, by the names of their files."""
        ran = self.run_script("--accounts", "accounts", "--owners", "own", *words, "share")
        self.assertEqual((ran.returncode, ran.stderr), (0, ""))
        return {it.name: it.read_text() for it in sorted((self.room / "own").iterdir())}

    def test_each_owner_has_a_page_and_a_table(self):
        self.write("share", "".join(SHARE).replace("srv/plans\n# owner: root", "srv/plans\n# owner: alice").replace("srv/shut\n# owner: root", "srv/shut\n# owner: =b/ad"))
        found = self.owners_of()
        self.assertEqual([*found], ["%3Db%2Fad.csv", "%3Db%2Fad.html", "alice.csv", "alice.html", "root.csv", "root.html"])
        head = "folder,user,permissions,through,files read,files written,files,keep or remove,date,signature"
        self.assertEqual(found["alice.csv"].splitlines(), [head, "srv/plans,(anyone),x,anyone,0,0,3,,,", 'srv/plans,bob,x,"by name, anyone",2,1,3,,,'])
        self.assertEqual(found["%3Db%2Fad.csv"].splitlines(), [head, "srv/shut,alice,x,by name,0,0,1,,,"])
        rows = found["root.csv"].splitlines()[1:]
        self.assertEqual(rows, ["srv,(anyone),rx,anyone,1,1,5,,,", 'srv,alice,rx,"by name, anyone",4,3,5,,,', 'srv,bob,rx,"by name, anyone",3,2,5,,,', "srv/plans/old,alice,rx,by name,1,0,1,,,"])
        page = found["alice.html"]
        self.assertIn("<h1>alice</h1>", page)
        self.assertIn("<td class=u>bob<td class=m>--x<td class=by>by name, anyone<td class=n>2<td class=n>1<td class=box><td class=box>", page)
        self.assertNotIn("<td class=u>alice", page)
        for it in ("Date", "Signature", "Keep", "Remove", "default-src 'none'"):
            self.assertIn(it, page)
        self.assertEqual(page.count("<script"), 0)

    def test_pages_of_owners_that_cannot_be_written(self):
        self.write("own", "a file")
        self.assertIn("report: cannot write own: File exists", self.refused("--accounts", "accounts", "--owners", "own", "share"))

    def test_somebody_in_no_group_has_an_id_that_nothing_names(self):
        self.write("accounts", ACCOUNTS + "high:x:4294967294:100::/:\n")
        self.write("share", "".join(SHARE) + "# file: srv/x\n# owner: 4294967293\n# group: root\nuser:4294967292:rw-\nother::---\n")
        page = self.page()
        asked = [it for it in (self.room / "calls").read_text().splitlines() if "--user" in it]
        words = ("--user 4294967291", "--perms w --user 4294967293 --user 4294967292", "--perms w --user 4294967291")
        self.assertEqual(asked, [f"who --accounts accounts --reach {it} -" for it in words])
        # Whoever gets the last of these ids could write the file that names it, and what anybody can.
        self.assertEqual([it[1:4] for it in page.tables["strangers"][1:]], [["4294967293", "1", "1 file"], ["4294967292", "1", "2 files"]])

    def test_ids_without_an_account(self):
        self.write("share", "# file: a\n# owner: 7\n# group: 100\nuser::rw-\nuser:1000:r--\ngroup:8:rw-\n\n# file: b\n# owner: 7\n# group: 9\nuser::rw-\ndefault:user:7:rwx\nother::---\n")
        rows = self.page().tables["strangers"][1:]
        self.assertEqual(rows, [["owner", "7", "2", "nothing", "a"], ["group", "8", "1", "", "a"], ["group", "9", "1", "", "b"], ["user in an entry", "7", "1", "nothing", "b"]])
        self.write("share", "".join(SHARE))
        self.assertIn("Each id that the listing has is that of an account.", self.page().texts["strangers"])

    def test_ids_without_an_account_in_nfs4_lists(self):
        self.write("share", "# file: a\n# owner: root\n# group: root\nA::1000:rx\nA:g:7:rx\nD:fd:8:w\n\n# file: b\n# owner: root\n# group: root\n  user:9:rwx:-:allow\n group:100:r:fd:deny\n")
        page = self.page()
        self.assertEqual(page.tables["strangers"][1:], [["group", "7", "1", "", "a"], ["user in an entry", "8", "1", "nothing", "a"], ["user in an entry", "9", "1", "nothing", "b"]])
        self.assertEqual(page.numbers()["folders"], "2")

    def test_a_folder_has_something_in_it_or_a_default_list_or_is_sticky(self):
        head = "# owner: root\n# group: root\n"
        plain = (f"# file: {name}\n{head}{it}\nother::---\n\n" for name, it in (("f", "A::EVERYONE@:rfd"), ("g", "user:bob:rwxd:--:allow"), ("h", "# flags: s--")))
        listing = "".join(plain) + "# file: d\n# owner: root\n# group: root\nother::r-x\ndefault:other::r-x\n\n" + block("e", "r-x") + "# file: t\n# owner: root\n# group: root\n# flags: --t\nother::rwx\n"
        self.write("share", listing)
        page = self.page()
        self.assertEqual([(it, of[0]) for it, of in page.folders().items()], [("The whole listing", "4 files"), ("d", "0 files"), ("t", "0 files")])
        self.assertEqual(page.paths["anyone"], ["t"])

    def test_through_which_entries(self):
        # The stand-in grants by name, to others, and to carol by two groups, of which the one is the file's.
        page = self.page()
        users, ways = page.tables["through"][1:4], page.tables["through"][5:]
        self.assertEqual(users[0], ["alice", "by name |r\u00a03\u00a0w\u00a02, anyone |r\u00a01\u00a0w\u00a01"])
        self.assertEqual(users[2], ["carol", "groups root + users |r\u00a01\u00a0w\u00a01"])
        self.assertEqual(ways, [["by name", "2", "3"], ["anyone", "2", "1"], ["groups root + users", "1", "1"]])
        self.assertEqual(page.ways("srv/plans", "bob"), "by name, anyone")
        self.assertEqual(page.ways("srv/shut", "alice"), "by name")

    def test_files_that_are_alike_are_asked_about_once(self):
        more = [block(f"srv/plans/{it}", "r--", alice="rw-") for it in range(50)]
        self.write("share", "".join([*SHARE[:2], *more, SHARE[2], *more[:1]]))
        page = self.page()
        self.assertEqual(page.folders()["srv/plans"], ("52 files", {"anyone": "--x r 51", "alice": "rwx r all w all", "bob": "--x r all w 1"}))
        self.assertIn(["alice", "by name |r\u00a052\u00a0w\u00a052"], page.tables["through"])

    def test_names_are_text(self):
        names = ["<script>alert(1)", "a&amp;b", "<img src=x onerror=alert(1)>", "'\"><b>", "\u202egpj.exe", "\x1b[31mred", "caf\u00e9", "not\udcfftext", "two  blanks", "end "]
        listing = block("srv", "r-x", **{"<i>": "rwx"}) + "".join(block(f"srv/{it}", "rw-") + block(f"srv/{it}/in", "rw-") for it in names)
        self.write("share", listing.replace("other::rw-", "other::rwx"))
        self.write("accounts", ACCOUNTS + "<i>:x:5:5::/:\n\"q' b:x:6:5::/:\n")
        ran = self.run_script("--accounts", "accounts", "share")
        page = Page(ran.stdout)
        self.assertEqual(page.tags & {"img"}, set())
        self.assertEqual(ran.stdout.count("<script"), 1)
        shown = {"srv"} | {f"srv/{it}" for it in (*names[:4], "\\342\\200\\256gpj.exe", "\\033[31mred", "caf\u00e9", "not\\377text", "two  blanks", "end\\040")}
        self.assertEqual(set(page.folders()), shown)
        self.assertIn("<i>", page.tables["reach"][0])
        self.assertIn("\"q' b", page.texts["reach"])
        self.assertEqual([it for it in page.paths["anyone"] if "/in" not in it][:2], ["srv/<script>alert(1)", "srv/a&amp;b"])

    def test_the_page_takes_nothing_from_elsewhere(self):
        text = self.run_script("--accounts", "accounts", "share").stdout
        for it in ("http:", "https:", "src=", "href=", "@import", "url("):
            self.assertNotIn(it, text)
        self.assertIn("default-src 'none'", text)

    def test_an_empty_listing(self):
        self.write("share", "\n\n")
        page = self.page()
        self.assertEqual(list(page.numbers().values())[:3], ["0", "0", "0"])
        self.assertIn("aclctl: share: no file", page.texts["unanswered"])
        self.assertIn("Nobody whom the accounts have can write anything.", page.texts["writers"])

    def test_faults_are_told_as_the_program_tells_them(self):
        self.write("share", "".join(SHARE) + "# file: <b>\n# group: x\n\nlost\n")
        page = self.page()
        self.assertEqual(page.numbers()["blocks not answered"], "2")
        self.assertIn("2 blocks of share: who may do what there isn\u2019t known.", page.texts["unanswered"])
        self.assertIn("aclctl: share:73: bad-header: # file: <b>\naclctl: share:76: bad-header: lost", page.texts["unanswered"])

    def test_many_faults_are_counted(self):
        self.write("share", "lost\n\n" * 1000)
        text = self.page().texts["unanswered"]
        self.assertIn("1,000 blocks of share", text)
        self.assertIn("And 800 more lines.", text)

    def test_no_user_but_root(self):
        self.write("accounts", "root:x:0:0::/:\nroot:x:0:\n")
        page = self.page()
        self.assertEqual(page.numbers()["of 0 users reach something"], "0")
        self.assertEqual(page.folders()["srv"], ("5 files", {"anyone": "r-x r 1 w 1"}))

    def test_what_cannot_be_read(self):
        for words, name in ((("--accounts", "none", "share"), "none"), (("--accounts", "accounts", "none"), "none"), (("--accounts", "accounts", "--before", "none", "share"), "none")):
            self.assertEqual(self.refused(*words), f"report: cannot read {name}: No such file or directory\n")
        self.assertEqual(self.refused("--accounts", ".", "share"), "report: cannot read .: Is a directory\n")
        self.write("accounts", "alice:x:1\n")
        self.assertEqual(self.refused("--accounts", "accounts", "share"), "report: aclctl who ended with status 1\naclctl: accounts:1: bad-account: alice:x:1000\n")
        self.assertEqual(self.run_script("--accounts", "-", "-").returncode, 2)

    def test_an_answer_of_another_form_is_no_page(self):
        self.write("bin/aclctl", "#!/bin/sh\necho rwx alice\n")
        self.assertIn("report: aclctl answers in another form: rwx alice", self.refused("--accounts", "accounts", "share"))

    def test_a_program_that_fails_in_the_middle_is_no_page(self):
        self.write("bin/aclctl", '#!/bin/sh\n[ "$1" != who ] || { echo rwx alice other srv; echo aclctl: memory >&2; exit 3; }\n')
        self.assertEqual(self.refused("--accounts", "accounts", "share"), "report: aclctl who ended with status 3\naclctl: memory\n")

    def test_an_output_that_is_full_is_told(self):
        with open("/dev/full", "w") as full:
            ran = self.run_script("--accounts", "accounts", "share", capture_output=False, stdout=full, stderr=subprocess.PIPE)
        self.assertEqual((ran.returncode, ran.stderr), (1, "report: cannot write the page: No space left on device\n"))

    def test_listings_and_accounts_come_through_pipes_too(self):
        wanted = self.page().folders()
        self.assertEqual(self.page("-", input="".join(SHARE)).folders(), wanted)
        self.assertEqual(self.page("share", "-", input=ACCOUNTS).folders(), wanted)
        words = 'exec "$ROOM/bin/report" --accounts <(cat accounts) <(cat share)'
        ran = subprocess.run(["bash", "-c", words], cwd=self.room, env={**os.environ, "ROOM": str(self.room)}, capture_output=True, text=True, timeout=SLOW)
        self.assertEqual((Page(ran.stdout).folders(), ran.stderr), (wanted, ""))

    def test_files_whose_names_are_like_options(self):
        wanted = self.page().folders()
        for name in ("-share", "--accounts"):
            shutil.copy(self.room / "share", self.room / name)
            shutil.copy(self.room / "accounts", self.room / f"{name}.accounts")
            ran = self.run_script(f"--accounts={name}.accounts", f"--before={name}", "--", name)
            self.assertEqual((Page(ran.stdout).folders(), ran.stderr), (wanted, ""))

    def test_no_room_for_what_is_asked_about(self):
        def limit():
            resource.setrlimit(resource.RLIMIT_FSIZE, (100, 100))

        why = self.refused("--accounts", "accounts", "share", preexec_fn=limit)
        self.assertRegex(why, r"^report: cannot write .*/thinned: File too large\n$")

    def test_nothing_is_left_in_the_folder_for_temporary_files(self):
        (self.room / "tmp").mkdir()
        with patch.dict(os.environ, TMPDIR=str(self.room / "tmp")):
            self.page("-", input="".join(SHARE))
        self.assertEqual(os.listdir(self.room / "tmp"), [])

    def test_what_changed(self):
        self.write("older", "".join(SHARE))
        newer = [*SHARE[:2], block("srv/plans/one", "---", alice="r--", bob="rw-"), SHARE[3].replace("bob:r--", "bob:rw-"), *SHARE[4:6], *SHARE[8:], block("srv/new", "r--")]
        self.write("share", "".join(newer))
        ran = self.run_script("--accounts", "accounts", "--before", "older", "share")
        self.assertEqual((ran.returncode, ran.stderr), (0, ""))
        page = Page(ran.stdout)
        self.assertEqual(page.numbers()["paths changed, new or gone"], "5")
        tables, at = page.tables["changes"], page.tables["changes"].index(["In folder", "changed", "new", "gone", "users concerned"])
        # alice gained nothing; bob may write one more; the new file concerns all, who reach it, and of those that are gone alice
        # passed one, in which nobody reached the other.
        self.assertEqual(tables[1:at], [["bob", "1", "1", "", "", "1", ""], ["alice", "", "", "1", "1", "1", "1"], ["carol", "", "", "", "", "1", ""]])
        self.assertEqual(tables[at + 1 : at + 4], [["srv/plans", "2", "", "", "2"], ["srv", "", "1", "1", "3"], ["srv/shut", "", "", "1", ""]])
        self.assertEqual(tables[at + 5 :], [["srv/plans/one", "alice", "w", "-"], ["srv/plans/two", "bob", "-", "w"]])
        self.assertEqual(page.paths["changes"], ["srv/new", "srv/shut", "srv/shut/four"])

    def test_nothing_changed(self):
        self.write("older", "".join(SHARE))
        page = Page(self.run_script("--accounts", "accounts", "--before", "older", "share").stdout)
        self.assertIn("No user reaches more or less than before, by way of all folders above, and no path is new or gone.", page.texts["changes"])

    def test_faults_of_the_listing_before_are_told_too(self):
        self.write("older", "".join(SHARE) + "lost\n")
        self.write("share", "".join(SHARE) + "gone\n")
        page = Page(self.run_script("--accounts", "accounts", "--before", "older", "share").stdout)
        self.assertIn("aclctl: share:73: bad-header: gone\naclctl: older:73: bad-header: lost", page.texts["unanswered"])
        self.assertEqual(page.numbers()["blocks not answered"], "2")


class Sums(OverStandIn):
    """The numbers of a random share, beside the lines of the answer counted one by one."""

    def random_share(self, rng):
        """A listing in the order of getfacl, and its paths: which of them are folders. Most folders can be passed."""
        paths, waiting = [], [("srv", 0)]
        while waiting:
            path, depth = waiting.pop()
            paths.append(path)
            inner = rng.sample(["a", "b b", "a.b", "srv", "x", "1 x", "b"], rng.randint(1, 5)) if depth < rng.randint(2, 5) else []
            waiting.extend((f"{path}/{name}", depth + 1) for name in inner)
        folders = {it.rpartition("/")[0] for it in paths} - {""}
        rights = {True: ("rwx", "r-x", "r-x", "--x", "--x", "-w-"), False: ("rw-", "r--", "-w-", "--x", "---", "r-x")}
        letters = lambda path: rng.choice(rights[path in folders])
        return paths, folders, "".join(block(it, letters(it), alice=letters(it), bob=letters(it)) for it in paths)

    def test_random_shares(self):
        for seed in range(12):
            paths, folders, listing = self.random_share(random.Random(seed))
            self.write("share", listing)
            page = self.page().folders()
            answer = subprocess.run([self.room / "bin/aclctl", "who", "--accounts", "accounts", "--reach", "-"], input=listing, capture_output=True, text=True, env={**os.environ, "ROOM": str(self.room)}, cwd=self.room).stdout
            lines = [it.split(" ", 2) for it in answer.splitlines()]
            self.assertEqual(set(page), folders or {"The whole listing"})
            for folder in folders:
                inside = [it for it in paths if it.startswith(folder + "/") and it not in folders]
                files, cell = page[folder]
                self.assertEqual(files.split(" ")[0], str(len(inside)))
                for user in ("alice", "bob", "carol"):
                    told = {path: letters for letters, who, path in lines if who == user}
                    counts = [sum(it in told[path] for path in inside if path in told) for it in "rw"]
                    words = [f"{it} {'all' if count == len(inside) else count}" for it, count in zip("rw", counts) if count]
                    wanted = " ".join([told.get(folder, "---"), *words])
                    self.assertEqual(cell.get(user, cell["anyone"] if told else ""), "" if wanted == "---" else wanted, (seed, folder, user))


class Words(unittest.TestCase):
    """The options that the help, the manual page and the completions have."""

    def completed(self, option, current):
        """What bash completes a word to that follows another."""
        ask = 'source "$1"; _aclctl_report aclctl-report "$3" "$2"; printf "%s\\n" "${COMPREPLY[@]}"'
        words = ["bash", "--norc", "-c", ask, "bash", TOP / "completions/aclctl-report.bash", option, current]
        return subprocess.run(words, capture_output=True, text=True, timeout=SLOW, cwd=TOP / "examples/office").stdout.split()

    def test_all_have_the_same_options(self):
        told = subprocess.run([TOP / "bin/report", "--help"], capture_output=True, text=True, timeout=SLOW).stdout
        options = set(re.findall(r"--[a-z]+", told))
        self.assertEqual(options, {"--help", "--accounts", "--before", "--owners"})
        self.assertEqual(set(self.completed("x", "-")), options)
        self.assertEqual(set(re.findall(r"'(--[a-z]+)[=[]", (TOP / "completions/_aclctl-report").read_text())), options)
        page = (TOP / "docs/aclctl-report.1").read_text().split(".SH OPTIONS")[1].replace("\\-", "-")
        self.assertEqual(set(re.findall(r"^\\fB(--[a-z]+)", page, re.M)), options - {"--help"})

    def test_files_where_files_go(self):
        for option in ("--accounts", "--before", "aclctl-report"):
            self.assertEqual(self.completed(option, "set"), ["setup.toml"])

    @unittest.skipUnless(shutil.which("zsh"), "zsh isn't here")
    def test_zsh_reads_its_own(self):
        words = ["zsh", "-f", "-c", '_arguments() { print -rl -- "$@" }; source $1', "zsh", TOP / "completions/_aclctl-report"]
        ran = subprocess.run(words, capture_output=True, text=True, timeout=SLOW)
        self.assertEqual((ran.stderr, ran.stdout.splitlines()[-1]), ("", "1:listing:_files"))


if __name__ == "__main__":
    unittest.main()
