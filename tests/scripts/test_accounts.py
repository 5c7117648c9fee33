"""bin/accounts over a getent and an id that are stand-ins, and over this host's: whom it asks for, what it prints, and what it
says of those whom it leaves out."""

import os
import re
import shutil
import subprocess
import sys
import tempfile
import unittest
from pathlib import Path

TOP = Path(__file__).resolve().parent.parent.parent
SCRIPT = TOP / "bin/accounts"
# How many seconds a stand-in may take on the slowest machine.
SLOW = 600
# It writes down what it was asked for, and has the line of a file for it.
GETENT = """#!/bin/sh
echo "$*" >> "$ROOM/calls"
[ "$2" = -- ] || exit 1
[ ! -e "$ROOM/bad" ] || exit 3
KEY=$3 awk -F: '$1 == ENVIRON["KEY"] || $3 == ENVIRON["KEY"] { print; found = 1; exit } END { exit !found }' "$ROOM/$1" || exit 2
"""
# It has the gids of each user in a file: NAME=GID GID..
ID = """#!/bin/sh
[ "$1 $2" = "-G --" ] || exit 2
KEY=$3 awk '{ gids = $0; sub(/.*=/, "", gids); name = substr($0, 1, length($0) - length(gids) - 1) } name == ENVIRON["KEY"] { print gids; found = 1 } END { exit !found }' "$ROOM/gids"
"""
PASSWD = ["root:x:0:0:root:/root:/bin/sh", "alice:x:1000:100::/home/alice:/bin/sh", "bob:x:1001:100::/:", "carol:x:1002:70::/:"]
GROUP = ["root:x:0:", "users:x:100:", "staff:x:50:bob,zoe", "ops:x:60:"]
GIDS = ["root=0", "alice=100 60 4711", "bob=100 50", "carol=70 50"]
SHARE = """\
# file: srv
# owner: root
# group: root
user::rwx
user:alice:rwx
group::r-x
group:50:r-x
mask::rwx
other::---
default:user::rwx
default:user:1002:rwx
default:group::r-x
default:other::---
"""
ACCOUNTS = [*PASSWD, *GROUP[:1], "staff:x:50:bob,zoe,carol", "ops:x:60:alice", "70:x:70:", GROUP[1], "4711:x:4711:alice"]


class Accounts(unittest.TestCase):
    def setUp(self):
        self.room = Path(tempfile.mkdtemp(prefix="test-accounts-")).resolve()
        self.addCleanup(shutil.rmtree, self.room)
        (self.room / "bin").mkdir()
        for name, text in (("getent", GETENT), ("id", ID)):
            (self.room / "bin" / name).write_text(text)
            (self.room / "bin" / name).chmod(0o755)
        self.system(PASSWD, GROUP, GIDS)

    def system(self, passwd, group, gids):
        """What the system knows."""
        for name, lines in (("passwd", passwd), ("group", group), ("gids", gids)):
            self.write(name, "".join(f"{it}\n" for it in lines))

    def write(self, name, text):
        """Writes a file of the room."""
        (self.room / name).write_bytes(text.encode(errors="surrogateescape"))
        return str(self.room / name)

    def run_script(self, *words, path=None, text=""):
        """Runs the script over the stand-ins, or with another path."""
        path = path or f"{self.room}/bin:{os.environ['PATH']}"
        how = {"capture_output": True, "timeout": SLOW, "input": text.encode(errors="surrogateescape")}
        how["env"] = {**os.environ, "PATH": path, "ROOM": str(self.room), "LC_ALL": "C.UTF-8"}
        ran = subprocess.run([SCRIPT, *words], **how)
        lines = [it.decode(errors="surrogateescape").split("\n")[:-1] for it in (ran.stdout, ran.stderr)]
        return ran.returncode, lines[0], [it.replace("accounts: ", "", 1) for it in lines[1]]

    def accounts(self, *listings):
        """The accounts for these listings, and what is said of whom they lack."""
        names = [self.write(f"listing{at}", it) for at, it in enumerate(listings)]
        status, lines, said = self.run_script(*names)
        self.assertEqual(status, 0, said)
        return lines, said

    def calls(self):
        """What getent was asked for, in order."""
        return (self.room / "calls").read_text().splitlines()

    def test_whom_a_listing_names_and_the_members_of_its_groups(self):
        lines, said = self.accounts(SHARE)
        self.assertEqual(lines, ACCOUNTS)
        self.assertEqual(said, ["user zoe is left out: the system doesn't know it"])

    def test_each_is_asked_for_once_and_nothing_is_listed_unasked(self):
        self.accounts(SHARE, SHARE)
        self.assertEqual(len(self.calls()), len(set(self.calls())))
        self.assertTrue(all(re.fullmatch(r"(passwd|group) -- \S+", it) for it in self.calls()), self.calls())

    def test_a_listing_comes_by_standard_input_too(self):
        self.assertEqual(self.run_script("-", text=SHARE)[:2], (0, ACCOUNTS))

    def test_names_are_as_the_system_has_them_where_getfacl_escapes_them(self):
        passwd = ["CORP\\alice:x:7:8::/:", "erin smith:x:9:8::/:", "m\u00fcller:x:10:8::/:", "not\udcfftext:x:11:8::/:", "a,b#c:x:12:8::/:"]
        names = [it.split(":")[0] for it in passwd]
        self.system(passwd, ["domain users:x:8:"], [f"{it}=8" for it in names])
        listing = "# file: # owner: x\n# owner: CORP\\134alice\n# group: domain\\040users\nuser::rw-\nuser:erin\\040smith:r--\nuser:m\u00fcller:r--\n"
        lines, said = self.accounts(listing + "user:not\udcfftext:r--\nuser:a\\054b\\043c:r--\t#effective:---\n")
        self.assertEqual((lines, said), ([*passwd, "domain users:x:8:"], []))
        for file, owner in (("# file: f", "CORP\\alice"), ("# File: # owner: x", "CORP\\\\alice")):
            lines, said = self.accounts(f"{file}\n# owner: {owner}\n# group: domain users\n")
            self.assertEqual((lines, said), ([passwd[0], "domain users:x:8:"], []), owner)

    def test_short_forms_and_entries_of_nfs4_lists(self):
        wanted = ["alice:x:1000:100::/home/alice:/bin/sh", "bob:x:1001:100::/:"]
        groups = ["staff:x:50:bob,zoe", "ops:x:60:alice", "users:x:100:", "4711:x:4711:alice"]
        for entries in ("u::rw,u:alice:r,g::r,g:staff:r,m::r,o::-", "A::OWNER@:r\nA::alice:r\nD:g:staff:w\nA::EVERYONE@:r", "  user:alice:r:-:allow\n group:staff:r:-:allow\n owner@:r:-:allow"):
            lines, _ = self.accounts(f"# file: f\n{entries}\n")
            self.assertEqual(lines, [*wanted, *groups], entries)

    def test_whom_accounts_cannot_hold_is_left_out(self):
        odd = {"-rf": "accounts can't hold its name", "+": "accounts can't hold its name", "#x": "accounts can't hold its name", "gone": "the system doesn't know it"}
        odd[" x"] = "accounts can't hold its name"
        odd |= {"short": "its line has another shape than that of an account", "huge": "its line has another shape than that of an account"}
        passwd = ["-rf:x:1:0::/:", "+:x:2:0::/:", "#x:x:3:0::/:", " x:x:6:0::/:", "short:x:4:0", "huge:x:4294967295:0::/:", "ok:x:4294967294:0::/:"]
        self.system(passwd, ["root:x:0:"], ["ok=0"])
        entries = "".join(f"# owner: {it}\n" for it in (*odd, "ok"))
        lines, said = self.accounts(entries.replace(" x", "\\040x"))
        self.assertEqual(lines, [passwd[-1], "root:x:0:"])
        self.assertEqual(sorted(said), sorted(f"user {it} is left out: {why}" for it, why in odd.items()))

    def test_a_number_that_is_nobodys_name_is_no_groups_only_member(self):
        self.system(["77:x:77:0::/:"], ["a:x:1:77", "b:x:2: 78,", "c:x:3:78,79"], ["77=0 1"])
        lines, _ = self.accounts("# file: f\n# group: a\n# group: b\n# group: c\n")
        self.assertEqual(lines, ["77:x:77:0::/:", "0:x:0:", "a:x:1:77", "b:x:2:", "c:x:3:78,79"])

    def test_what_is_no_name_is_not_asked_for(self):
        names = ["a\\072b", "a\\012b", "a\\000b", "x" * 256, ""]
        lines, said = self.accounts("".join(f"# owner: {it}\n" for it in names))
        self.assertEqual(lines, [])
        self.assertEqual(len(said), len(names))
        self.assertTrue(all(it.endswith("is left out: it is no name of an account") for it in said), said)
        self.assertFalse((self.room / "calls").exists())

    def test_a_user_whom_id_does_not_know_has_the_groups_that_list_it(self):
        self.system(PASSWD, GROUP, ["alice=100"])
        lines, said = self.accounts("# file: f\n# owner: alice\n# group: staff\n")
        self.assertEqual(lines, [PASSWD[1], PASSWD[2], "staff:x:50:bob,zoe", "users:x:100:"])
        self.assertEqual(said[1:], ["user bob has only the groups that list it: id doesn't know it"])

    def test_another_name_of_the_same_account(self):
        self.write("bin/getent", '#!/bin/sh\n[ "$1" = passwd ] && echo alice:x:1000:100::/: || exit 2\n')
        self.write("bin/id", "#!/bin/sh\necho 100\n")
        lines, _ = self.accounts("# file: f\n# owner: CORP\\134Alice\n# group: 100\n")
        self.assertEqual(lines, ["CORP\\Alice:x:1000:100::/:", "100:x:100:"])

    def test_what_cannot_be_read_or_told_leaves_no_accounts(self):
        listing = self.write("listing", SHARE)
        for name, why in (("none", "No such file or directory"), (".", "Is a directory")):
            self.assertEqual(self.run_script(listing, name), (1, [], [f"cannot read {name}: {why}"]))
        (self.room / "bad").touch()
        status, lines, said = self.run_script(listing)
        self.assertEqual((status, lines), (1, []))
        self.assertRegex(said[-1], r"^getent (passwd|group) -- \S+ ended with status 3$")
        (self.room / "bin/getent").unlink()
        (self.room / "bin/python3").symlink_to(sys.executable)
        status, lines, said = self.run_script(listing, path=str(self.room / "bin"))
        self.assertEqual((status, lines, said), (1, [], ["cannot run getent: No such file or directory"]))
        self.assertEqual(self.run_script()[0], 2)

    def test_an_output_that_is_full_is_told(self):
        listing = self.write("listing", SHARE)
        env = {**os.environ, "PATH": f"{self.room}/bin:{os.environ['PATH']}", "ROOM": str(self.room)}
        with open("/dev/full", "w") as full:
            ran = subprocess.run([SCRIPT, listing], stdout=full, stderr=subprocess.PIPE, env=env, text=True, timeout=SLOW)
        self.assertEqual(ran.returncode, 1)
        self.assertIn("accounts: cannot write the accounts: No space left on device", ran.stderr)

    def test_the_limits_are_those_of_the_crates(self):
        limits = "".join((TOP / f"crates/{it}/src/limits.rt").read_text() for it in ("acl_accounts", "acl_names"))
        numbers = dict(re.findall(r"pub const (\w+): \w+ = ([0-9_]+);", limits))
        for name, number in (("MAX_NAME_LEN", "MAX_ACCOUNT_NAME"), ("MAX_ID", "MAX_ID")):
            self.assertEqual(int(re.search(rf"^{name} = ([0-9_]+)$", SCRIPT.read_text(), re.M)[1]), int(numbers[number]))

    def test_the_accounts_of_this_host_are_those_of_getent(self):
        status, lines, _ = self.run_script("-", path=os.environ["PATH"], text="# file: f\n# owner: root\n# group: 0\n")
        self.assertEqual(status, 0)
        listed = subprocess.run(["getent", "passwd", "root"], capture_output=True, text=True, check=True).stdout
        self.assertEqual(f"{lines[0]}\n", listed)
        self.assertEqual({len(it.split(":")) for it in lines}, {7, 4})


if __name__ == "__main__":
    unittest.main()
