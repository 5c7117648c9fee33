"""bin/host-setup over databases of a getent that is a stand-in, and over this host's: what it
takes, what it leaves out, and what it says of that."""

import os
import re
import shutil
import subprocess
import sys
import tempfile
import tomllib
import unittest
from pathlib import Path

TOP = Path(__file__).resolve().parent.parent.parent
SCRIPT = TOP / "bin/host-setup"
# How many seconds a stand-in may take on the slowest machine.
SLOW = 600
GETENT = '#!/bin/sh\n[ ! -e "$ROOM/bad-$1" ] || exit 3\ncat "$ROOM/$1"\n'
NAME = re.compile(r"[A-Za-z_][A-Za-z0-9._-]*")
LIMIT = re.compile(r"pub const (\w+): \w+ = ([0-9_]+);")


def limits():
    """The limits of the crates, by their names."""
    files = (TOP / f"crates/{it}/src/limits.rt" for it in ("acl_names", "acl_lang"))
    rows = LIMIT.findall("".join(it.read_text() for it in files))
    return {name: int(number) for name, number in rows}


MOST = limits()


def faults(text):
    """What is wrong with a setup, by the rules of docs/PROFILE.md and docs/COMMANDS.md."""
    setup = tomllib.loads(text)
    users, groups, root = setup["user"], setup["group"], setup["root"]
    names = [it["name"] for it in groups]
    yield from ("too many" for it in users if len(it["groups"]) > MOST["MAX_GROUPS_OF_USER"])
    if len(users) > MOST["MAX_USERS"] or len(groups) > MOST["MAX_GROUPS"]:
        yield "too many"
    for kind, key in ((users, "uid"), (groups, "gid")):
        for it in kind:
            if not NAME.fullmatch(it["name"]) or len(it["name"]) > MOST["MAX_NAME_LEN"]:
                yield f"bad name {it['name']}"
            if not 0 <= it[key] <= MOST["MAX_ID"]:
                yield f"bad id {it[key]}"
        for it in ("name", key):
            if len({one[it] for one in kind}) < len(kind):
                yield f"repeated {it}"
    for it in users:
        if len(set(it["groups"])) < len(it["groups"]) or not set(it["groups"]) <= set(names):
            yield f"groups of {it['name']}"
    if root["owner"] not in [it["name"] for it in users] or root["group"] not in names:
        yield "root"
    if (root["mode"], root["style"], setup["umask"]) != ("755", "posix", "022"):
        yield "root's mode, root's style or umask"
    if len(text.encode()) > MOST["MAX_TEXT_LEN"]:
        yield "too long"


class HostSetup(unittest.TestCase):
    def setUp(self):
        self.room = Path(tempfile.mkdtemp(prefix="test-host-setup-")).resolve()
        self.addCleanup(shutil.rmtree, self.room)
        (self.room / "bin").mkdir()
        (self.room / "bin/getent").write_text(GETENT)
        (self.room / "bin/getent").chmod(0o755)

    def run_script(self, *words, path=None):
        """Runs the script over the stand-in, or with another path."""
        path = path or f"{self.room}/bin:{os.environ['PATH']}"
        how = {"capture_output": True, "text": True, "timeout": SLOW}
        how |= {"env": {**os.environ, "PATH": path, "ROOM": str(self.room)}}
        return subprocess.run([SCRIPT, *words], **how)

    def setup_of(self, passwd, group):
        """The setup of these databases, and the lines that say what was left out."""
        for name, lines in (("passwd", passwd), ("group", group)):
            text = "".join(f"{it}\n" for it in lines)
            (self.room / name).write_bytes(text.encode(errors="surrogateescape"))
        ran = self.run_script()
        self.assertEqual(ran.returncode, 0, ran.stderr)
        self.assertEqual([*faults(ran.stdout)], [])
        lines = [it.removeprefix("host-setup: ") for it in ran.stderr.splitlines()]
        return tomllib.loads(ran.stdout), lines

    def users(self, setup):
        """The users of a setup: a name, a uid and the groups of each."""
        return [(it["name"], it["uid"], it["groups"]) for it in setup["user"]]

    def test_the_primary_group_comes_first_and_the_others_by_their_gids(self):
        passwd = ["bob:x:1001:50::/:/bin/sh", "root:x:0:0::/:/bin/sh", "al.i-ce_:x:7:60::/:"]
        group = ["ops:x:60:bob,root,bob", "staff:x:50:bob", "lp:x:7:nobody,bob", "root:x:0:root"]
        setup, lines = self.setup_of(passwd, group)
        wanted = [("root", 0, ["root", "ops"]), ("al.i-ce_", 7, ["ops"])]
        self.assertEqual(self.users(setup), [*wanted, ("bob", 1001, ["staff", "lp", "ops"])])
        gids = [(it["name"], it["gid"]) for it in setup["group"]]
        self.assertEqual(gids, [("root", 0), ("lp", 7), ("staff", 50), ("ops", 60)])
        self.assertEqual((setup["root"]["owner"], setup["root"]["group"]), ("root", "root"))
        self.assertEqual((setup["domain"], lines), ("localdomain", []))

    def test_names_of_another_shape_are_left_out(self):
        odd = ["+", "", "7up", "-x", "a b", "domain\\user", "m\u00fcller", "x" * 33, "e\x1b[31m"]
        odd += ["not\udcfftext", 'q"', "pc$"]
        passwd = ["root:x:0:0", *(f"{it}:x:{at}:0" for at, it in enumerate(odd, 1))]
        group = ["root:x:0:", *(f"{it}:x:{at}:" for at, it in enumerate(odd, 1))]
        setup, lines = self.setup_of(passwd, group)
        self.assertEqual(self.users(setup), [("root", 0, ["root"])])
        why = "is left out: its name has another shape than a setup takes"
        both = [f"{kind} {ascii(it)} {why}" for kind in ("group", "user") for it in odd]
        self.assertEqual(lines, both)

    def test_ids_over_the_limit_are_left_out(self):
        ids = [MOST["MAX_ID"] + 1, 2**64, "-2", "", "0x1", "\u0663", "1" * 5000]
        passwd = [f"most:x:{MOST['MAX_ID']}:0", *(f"u{at}:x:{it}:0" for at, it in enumerate(ids))]
        group = [*(f"g{at}:x:{it}:" for at, it in enumerate(ids)), "root:x:0:"]
        setup, lines = self.setup_of(passwd, group)
        self.assertEqual(self.users(setup), [("most", MOST["MAX_ID"], ["root"])])
        why = f"is no number from 0 to {MOST['MAX_ID']}"
        both = [f"{it}{at} is left out: its id {ascii(str(number))} {why}"
                for it in ("group g", "user u") for at, number in enumerate(ids)]
        last = "no user of the setup has the uid 0, so most owns the root directory"
        self.assertEqual(lines, [*both, last])

    def test_of_what_is_repeated_the_first_stays(self):
        passwd = ["root:x:0:0", "toor:x:0:0", "eve:x:9:5", "eve:x:8:0", "eve:x:9:5"]
        group = ["root:x:0:", "wheel:x:0:eve", "five:x:5:", "root:x:6:"]
        setup, lines = self.setup_of(passwd, group)
        self.assertEqual(self.users(setup), [("root", 0, ["root"]), ("eve", 9, ["five", "root"])])
        wanted = ["group wheel is left out: its id 0 is repeated; root has it"]
        wanted += ["group root is left out: its name is repeated; the first one has the id 0"]
        wanted += ["user toor is left out: its id 0 is repeated; root has it"]
        wanted += 2 * ["user eve is left out: its name is repeated; the first one has the id 9"]
        self.assertEqual(lines, wanted)

    def test_a_user_without_one_of_the_groups_is_left_out(self):
        passwd = ["root:x:0:0", "bare:x:1:77", "odd:x:2:0", "high:x:3:0", "none:x:4", "ok:x:5:0"]
        group = ["root:x:0:", "domain users:x:8:odd", "high:x:4294967295:high", "two:x:0:ok"]
        setup, lines = self.setup_of(passwd, group)
        self.assertEqual(self.users(setup), [("root", 0, ["root"]), ("ok", 5, ["root"])])
        why = "is left out: the setup has no group of its gid"
        wanted = [f"user bare {why} 77", f"user odd {why} 8", f"user high {why} '4294967295'"]
        self.assertEqual(lines[3:], [*wanted, f"user none {why} ''"])

    def test_a_user_with_too_many_groups_is_left_out(self):
        most = MOST["MAX_GROUPS_OF_USER"]
        passwd = ["root:x:0:0", "many:x:1:0", "most:x:2:0"]
        group = ["root:x:0:", *(f"g{it}:x:{it}:many,most" for it in range(1, most))]
        setup, lines = self.setup_of(passwd, [*group, "one-more:x:500:many"])
        names = ["root", *(f"g{it}" for it in range(1, most))]
        self.assertEqual(self.users(setup), [("root", 0, ["root"]), ("most", 2, names)])
        why = f"it is in {most + 1} groups, and a setup takes {most}"
        self.assertEqual(lines, [f"user many is left out: {why}"])

    def test_too_many_users_and_groups_are_left_out(self):
        users, groups = MOST["MAX_USERS"], MOST["MAX_GROUPS"]
        passwd = [f"u{it}:x:{it}:0" for it in reversed(range(users + 1))]
        group = [f"g{it}:x:{it}:" for it in reversed(range(groups + 1))]
        setup, lines = self.setup_of(passwd, group)
        self.assertEqual((len(setup["user"]), len(setup["group"])), (users, groups))
        wanted = [f"group g{groups} is left out: a setup has at most {groups} groups"]
        wanted += [f"user u{users} is left out: a setup has at most {users} users"]
        self.assertEqual(lines, wanted)

    def test_the_setup_has_no_more_bytes_than_a_setup_may(self):
        users, most = MOST["MAX_USERS"], MOST["MAX_GROUPS_OF_USER"]
        long = [f"{'x' * 27}{it:05}" for it in range(users)]
        passwd = [f"{name}:x:{it}:0" for it, name in enumerate(long)]
        members = ",".join(long)
        setup, lines = self.setup_of(passwd, [f"{long[it]}:x:{it}:{members}" for it in range(most)])
        left = f"is left out: a setup has at most {MOST['MAX_TEXT_LEN']} bytes"
        count = len(setup["user"])
        self.assertEqual(lines, [f"user {it} {left}" for it in long[count:]])
        self.assertGreater(count, 800)

    def test_without_a_user_there_is_no_setup(self):
        for passwd, group in (("", "root:x:0:\n"), ("root:x:0:0\n", ""), ("a b:x:0:0\n", "a:x:0:")):
            (self.room / "passwd").write_text(passwd)
            (self.room / "group").write_text(group)
            ran = self.run_script()
            self.assertEqual((ran.returncode, ran.stdout), (1, ""))
            why = "host-setup: no user can be taken, and the root directory needs an owner"
            self.assertEqual(ran.stderr.splitlines()[-1], why)

    def test_without_getent_there_is_no_setup(self):
        (self.room / "group").write_text("root:x:0:\n")
        (self.room / "bad-passwd").touch()
        ran = self.run_script()
        self.assertEqual((ran.returncode, ran.stdout), (1, ""))
        self.assertEqual(ran.stderr, "host-setup: getent passwd ended with status 3\n")
        (self.room / "bin/getent").unlink()
        (self.room / "bin/python3").symlink_to(sys.executable)
        ran = self.run_script(path=str(self.room / "bin"))
        self.assertEqual((ran.returncode, ran.stdout), (1, ""))
        self.assertIn("host-setup: cannot run getent: No such file", ran.stderr)

    def test_a_domain_may_be_named(self):
        for name in ("passwd", "group"):
            (self.room / name).write_text("root:x:0:0\n")
        ran = self.run_script("--domain", "example.org")
        self.assertEqual(tomllib.loads(ran.stdout)["domain"], "example.org")
        for domain in ("", "Example.org", "a b", 'a"', "x" * (MOST["MAX_DOMAIN_LEN"] + 1)):
            ran = self.run_script("--domain", domain)
            self.assertEqual((ran.returncode, ran.stdout), (2, ""))

    def test_the_limits_are_those_of_the_crates(self):
        for name, number in re.findall(r"^(MAX_\w+) = ([0-9_]+)$", SCRIPT.read_text(), re.M):
            self.assertEqual(int(number), MOST[name], name)

    def test_the_setup_of_this_host_is_well_formed_and_the_same_each_time(self):
        """That the built program takes it is tried by tests/try-aclctl."""
        one, other = (self.run_script(path=os.environ["PATH"]) for _ in range(2))
        self.assertEqual(one.returncode, 0, one.stderr)
        self.assertEqual([*faults(one.stdout)], [])
        self.assertEqual((one.stdout, one.stderr), (other.stdout, other.stderr))


if __name__ == "__main__":
    unittest.main()
