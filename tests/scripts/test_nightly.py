"""bin/nightly over a getfacl and an aclctl that are stand-ins: what it tells and keeps, and that nothing is lost when files vanish,
a disk is full, a run is killed, or two run at once."""

import os
import resource
import shutil
import signal
import subprocess
import tempfile
import time
import unittest
from pathlib import Path

TOP = Path(__file__).resolve().parent.parent.parent
# How many seconds a stand-in may take on the slowest machine.
SLOW = 600
# Prints the listing of a file, says what stands in another, and ends with the status of a third. It waits for as long as it is told to.
GETFACL = """#!/bin/sh
echo "$*" >> "$ROOM/calls"
cat "$ROOM/share"
[ ! -e "$ROOM/wait-getfacl" ] || { touch "$ROOM/waits"; while [ -e "$ROOM/wait-getfacl" ]; do sleep 0.05; done; }
[ ! -e "$ROOM/said" ] || cat "$ROOM/said" >&2
exit "$(cat "$ROOM/ends" 2> /dev/null || echo 0)"
"""
# Tells of two listings as the program does, if no path has blanks: bob gains writing where a block has another text.
ACLCTL = """#!/bin/sh
echo "aclctl $*" >> "$ROOM/calls"
[ ! -e "$ROOM/wait-aclctl" ] || { touch "$ROOM/waits"; while [ -e "$ROOM/wait-aclctl" ]; do sleep 0.05; done; }
for after in "$@"; do before=${last-}; last=$after; done
awk 'BEGIN { RS = "" } FILENAME == ARGV[1] { old[$3] = $0; next }
    !($3 in old) { print "new " $3 } $3 in old && old[$3] != $0 { print "differ bob 5 6 - w " $3 } { seen[$3] = 1 }
    END { for (path in old) if (!(path in seen)) print "gone " path }' "$before" "$after"
[ ! -e "$ROOM/says" ] || cat "$ROOM/says" >&2
[ ! -e "$ROOM/unanswered" ] || { echo "aclctl: $after:1: bad-acl: x" >&2; exit 4; }
exit "$(cat "$ROOM/aclctl-ends" 2> /dev/null || echo 0)"
"""


def block(path, letters):
    """A block of a listing."""
    return f"# file: /srv/{path}\n# owner: 0\n# group: 0\nuser::{letters}\n\n"


class Nightly(unittest.TestCase):
    def setUp(self):
        self.room = Path(tempfile.mkdtemp(prefix="test-nightly-")).resolve()
        self.addCleanup(shutil.rmtree, self.room)
        (self.room / "bin").mkdir()
        shutil.copy(TOP / "bin/nightly", self.room / "bin/nightly")
        (self.room / "bin/reporting").symlink_to(TOP / "bin/reporting")
        for name, text in (("getfacl", GETFACL), ("aclctl", ACLCTL)):
            (self.room / "bin" / name).write_text(text)
            (self.room / "bin" / name).chmod(0o755)
        self.share(a="rwx", b="r--")
        self.state = self.room / "state"
        self.env = {**os.environ, "PATH": f"{self.room}/bin:{os.environ['PATH']}", "ROOM": str(self.room)}

    def share(self, **files):
        """What the share has from now on."""
        self.write("share", "".join(block(*it) for it in files.items()))

    def write(self, name, text=""):
        """Writes a file of the room."""
        (self.room / name).write_text(text)

    def remove(self, *names):
        """Takes files of the room away."""
        for it in names:
            (self.room / it).unlink(missing_ok=True)

    def start(self, *words, path="/srv", **how):
        """Starts the script."""
        words = [self.room / "bin/nightly", "--state", self.state, *words, *([path] if isinstance(path, (str, Path)) else path)]
        return subprocess.Popen(words, **{"stdout": subprocess.PIPE, "stderr": subprocess.PIPE, "env": self.env, "text": True, **how})

    def run_script(self, *words, **how):
        """Runs the script: its status, and its lines on both streams."""
        ran = self.start(*words, **how)
        out, said = ran.communicate(timeout=SLOW)
        return ran.returncode, (out or "").splitlines(), [it.replace("nightly: ", "", 1) for it in said.splitlines()]

    def first(self):
        """Makes the first listing."""
        told = 0, [], ["the first listing: there is nothing to compare it with"]
        self.assertEqual(self.run_script(), told)

    def nights(self):
        """The listings that are kept, in order."""
        return sorted(it.name for it in self.state.iterdir() if it.name != "lock")

    def until_it_waits(self):
        """Waits until a stand-in waits."""
        ends = time.monotonic() + SLOW
        while not (self.room / "waits").exists() and time.monotonic() < ends:
            time.sleep(0.02)
        self.assertTrue((self.room / "waits").exists())

    def told_once(self, lines):
        """That the next run tells these lines, and the one after it nothing."""
        status, told, said = self.run_script()
        self.assertEqual((status, sorted(told)), (5, sorted(lines)), said)
        self.assertEqual(self.run_script(), (0, [], []))

    def test_what_changed_is_told_once(self):
        self.first()
        self.assertEqual(self.run_script(), (0, [], []))
        before = self.nights()[-1]
        self.share(a="rwx", b="rw-", c="r--")
        status, lines, said = self.run_script("--accounts", "accounts")
        self.assertEqual((status, lines), (5, ["differ bob 5 6 - w /srv/b", "new /srv/c"]))
        self.assertEqual(said, [f"who reaches more or less, from {before} to {self.nights()[-1]}:"])
        self.assertEqual(self.run_script(), (0, [], []))
        calls = (self.room / "calls").read_text().splitlines()
        self.assertIn("-Rnp -- /srv", calls)
        self.assertRegex(calls[-3], rf"^aclctl impact --reach --all --accounts {os.getcwd()}/accounts {self.state}/{before}/listing ")

    def test_listings_and_what_was_told_are_kept_as_many_as_wanted(self):
        self.first()
        for number in range(4):
            self.share(a="rwx", **{f"n{number}": "r--"})
            self.assertEqual(self.run_script("--keep", "3")[0], 5)
        self.assertEqual(len(self.nights()), 3)
        last = self.state / self.nights()[-1]
        self.assertEqual((last / "listing").read_text(), (self.room / "share").read_text())
        self.assertEqual((last / "changes").read_text(), "new /srv/n3\ngone /srv/n2\n")
        self.assertEqual([it.stat().st_mode & 0o077 for it in (self.state, last, last / "listing")], [0, 0, 0])

    def test_a_clock_that_was_turned_back_hides_no_listing(self):
        self.first()
        (self.state / self.nights()[0]).rename(self.state / "2099-12-31T235959Z")
        self.share(a="rwx")
        self.told_once(["gone /srv/b"])
        self.assertEqual(self.nights()[:2], ["2099-12-31T235959Z", "2100-01-01T000000Z"])

    def test_files_that_vanish_are_told_and_no_fault(self):
        self.first()
        self.share(a="rwx")
        self.write("said", "getfacl: /srv/b: No such file or directory\ngetfacl: /srv/x\\012y\x1b: No such file or directory\n")
        self.write("ends", "1")
        status, lines, said = self.run_script()
        self.assertEqual((status, lines, said[1:]), (5, ["gone /srv/b"], ["vanished: /srv/b", "vanished: /srv/x\\012y\\033"]))
        self.assertEqual(self.run_script(), (0, [], said[1:]))
        self.assertEqual(self.run_script("--quiet"), (0, [], []))
        self.assertIn("/srv/b", (self.state / self.nights()[-1] / "vanished").read_text())

    def test_a_quiet_night_says_nothing(self):
        self.assertEqual(self.run_script("--quiet"), (0, [], []))
        self.write("said", "getfacl: /srv/x: No such file or directory\n")
        self.write("ends", "1")
        self.write("says", "aclctl: listing: 1 of 2 files name ids without an account, the first is 7 (line 2)\n")
        self.assertEqual(self.run_script("--quiet"), (0, [], []))
        status, _, said = self.run_script()
        self.assertEqual((status, said), (0, ["vanished: /srv/x"]))
        self.share(a="rw-", b="r--")
        status, lines, said = self.run_script("--quiet")
        self.assertEqual((status, len(lines), len(said)), (5, 1, 3))

    def test_ids_without_an_account_are_told_at_first(self):
        self.write("accounts", "root:x:0:0:::\nroot:x:0:\n")
        words = ("--quiet", "--accounts", str(self.room / "accounts"))
        strange = "# file: /srv/\x1bc\n# owner: 29990\n# group: 29991\nuser::rwx\n\n"
        for listing, said in (
            (strange, ["2 ids of the listing have no account, as the owner 29990 of /srv/\\033c: no change is reported for them"]),
            (strange.replace("29991", "0"), ["1 id of the listing has no account, as the owner 29990 of /srv/\\033c: no change is reported for it"]),
            (block("a", "rwx"), []),
        ):
            self.write("share", listing)
            self.assertEqual(self.run_script(*words), (0, [], said))
            self.assertEqual(self.run_script(*words), (0, [], []))
            shutil.rmtree(self.state)
        self.remove("accounts")
        self.assertEqual(self.run_script(*words), (1, [], [f"{self.room}/accounts: No such file or directory"]))
        self.assertEqual(self.nights(), [])

    def test_a_listing_that_is_not_whole_is_none(self):
        self.first()
        kept = self.nights()
        for said, ends in (("getfacl: /srv/b: Permission denied\n", "1"), ("getfacl: /srv: No such file or directory\n", "1"), ("", "1"), ("", "2"), ("odd\n", "0")):
            self.share(a="rw-")
            self.write("said", said)
            self.write("ends", ends)
            status, lines, told = self.run_script()
            self.assertEqual((status, lines), (1, []), said)
            self.assertEqual(told, [f"getfacl ended with status {ends}, and the listing isn't whole", *said.splitlines()])
            self.assertEqual(self.nights(), kept)
        self.remove("said", "ends")
        self.write("share")
        self.assertEqual(self.run_script(), (1, [], ["getfacl listed no file"]))
        self.share(a="rw-")
        self.told_once(["differ bob 5 6 - w /srv/a", "gone /srv/b"])

    def test_a_full_disk_loses_nothing(self):
        self.first()
        small = {"preexec_fn": lambda: resource.setrlimit(resource.RLIMIT_FSIZE, (4096, 4096))}
        files = {f"n{it}": "r--" for it in range(300)}
        self.share(a="rwx", b="r--", **files)
        status, lines, said = self.run_script(**small)
        self.assertEqual((status, lines), (1, []))
        self.assertRegex(said[0], r"^cannot write .*/listing: File too large$")
        self.assertEqual(len(self.nights()), 1)
        self.told_once([f"new /srv/{it}" for it in files])

    def test_answers_that_do_not_fit_lose_nothing(self):
        self.first()
        self.share(a="rw-", b="r--")
        self.write("aclctl-ends", "3")
        status, lines, said = self.run_script()
        self.assertEqual((status, lines, said), (1, [], ["aclctl ended with status 3"]))
        self.assertEqual(len(self.nights()), 1)
        self.remove("aclctl-ends")
        self.told_once(["differ bob 5 6 - w /srv/a"])

    def test_an_output_that_fails_is_told_by_the_next_run(self):
        self.first()
        self.share(a="rw-", b="r--")
        with open("/dev/full", "w") as full:
            status, _, said = self.run_script(stdout=full)
        self.assertEqual((status, said[-1]), (1, "cannot write what changed, which the next run tells: No space left on device"))
        self.share(a="rw-", b="r--", c="r--")
        status, lines, _ = self.run_script()
        self.assertEqual((status, lines), (5, ["differ bob 5 6 - w /srv/a", "new /srv/c"]))
        self.assertEqual(self.run_script(), (0, [], []))

    def test_a_run_that_is_killed_loses_nothing(self):
        self.first()
        self.share(a="rw-", b="r--")
        for name in ("getfacl", "aclctl"):
            for how in (signal.SIGKILL, signal.SIGTERM):
                self.write(f"wait-{name}")
                ran = self.start(start_new_session=True)
                self.until_it_waits()
                os.kill(ran.pid, how)
                ran.wait(timeout=SLOW)
                self.remove(f"wait-{name}", "waits")
                self.assertEqual((ran.stdout.read(), ran.stderr.read()), ("", ""))
                ran.stdout.close(), ran.stderr.close()
        self.told_once(["differ bob 5 6 - w /srv/a"])
        self.assertEqual([it for it in self.nights() if it.endswith(".new")], [])

    def test_of_two_at_once_the_second_gives_up(self):
        self.first()
        self.share(a="rw-", b="r--")
        self.write("wait-getfacl")
        ran = self.start()
        self.until_it_waits()
        self.assertEqual(self.run_script(), (1, [], [f"another run is at work in {self.state}"]))
        self.remove("wait-getfacl", "waits")
        out, _ = ran.communicate(timeout=SLOW)
        self.assertEqual((ran.returncode, out), (5, "differ bob 5 6 - w /srv/a\n"))
        self.assertEqual(self.run_script(), (0, [], []))

    def test_blocks_that_were_not_answered_are_told(self):
        self.first()
        self.write("unanswered")
        self.share(a="rw-", b="r--")
        status, lines, said = self.run_script()
        self.assertEqual((status, lines), (4, ["differ bob 5 6 - w /srv/a"]))
        self.assertEqual(said[1:], [f"aclctl: {self.state}/{self.nights()[-1]}/listing:1: bad-acl: x"])

    def test_listings_are_not_listed_themselves(self):
        for path in (self.room, self.state, "/"):
            self.assertEqual(self.run_script(path=path), (1, [], [f"{self.state} is in {path}: its listings would be new each night"]))
        self.assertFalse(self.state.exists())
        self.assertEqual(self.run_script(path=f"{self.state}s")[0], 0)

    def test_a_state_that_others_can_write_is_refused(self):
        self.state.mkdir()
        self.state.chmod(0o770)
        why = f"{self.state} is no folder that only its owner, who runs this, can write"
        self.assertEqual(self.run_script(), (1, [], [why]))
        self.state.rmdir()
        self.state.symlink_to(self.room / "bin")
        self.assertEqual(self.run_script(), (1, [], [why]))
        self.assertFalse((self.room / "bin/lock").exists())

    def test_nothing_is_listed_twice(self):
        self.run_script(path=["/srv/b/", "/home", "/srv", "/srv/b/../b", "/srv2", "/srv"])
        self.assertEqual((self.room / "calls").read_text(), "-Rnp -- /home /srv /srv2\n")

    def test_what_is_wanting_is_told(self):
        self.first()
        self.remove("bin/aclctl")
        path = f"{self.room}/bin:/usr/bin:/bin"
        env = {**self.env, "PATH": path}
        if not shutil.which("aclctl", path=path):
            self.assertEqual(self.run_script(env=env), (1, [], ["cannot find aclctl"]))
        self.assertEqual(self.run_script("--keep", "0")[0], 2)
        self.state = self.room / "none/state"
        self.assertEqual(self.run_script(), (1, [], [f"{self.state}: No such file or directory"]))


if __name__ == "__main__":
    unittest.main()
