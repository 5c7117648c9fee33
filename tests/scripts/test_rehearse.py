"""bin/rehearse over a getfacl, an aclctl and a mount namespace that are stand-ins: what it tells, keeps, applies and refuses."""

import os
import shutil
import signal
import subprocess
import tempfile
import time
import unittest
from pathlib import Path

from test_nightly import ACLCTL

TOP = Path(__file__).resolve().parent.parent.parent
# How many seconds a stand-in may take on the slowest machine.
SLOW = 600
# Lists files by their modes.
GETFACL = """#!/bin/sh
[ "$1 $2" = "-Rnp --" ] || exit 2
find "$3" -printf '# file: %p\\n# owner: %U\\n# group: %G\\nuser::%m\\n\\n'
"""
# In place of a mount namespace the folders change their places while the command runs.
UNSHARE = """#!/bin/sh
while [ "$1" != sh ]; do shift; done
shift 4
skeleton=$1 folder=$2
shift 2
[ "$skeleton" != "$folder" ] || exit 0
mv -- "$folder" "$folder.real" && mv -- "$skeleton" "$folder"
(cd -- "$1" && umask "$2" && shift 2 && "$@")
status=$?
mv -- "$folder" "$skeleton" && mv -- "$folder.real" "$folder"
exit "$status"
"""
# Waits until it is told to go on.
WAITS = """#!/bin/sh
touch "$ROOM/waits"
while [ -e "$ROOM/wait" ]; do sleep 0.05; done
"""


@unittest.skipUnless(os.geteuid() == 0, "it wants root")
class Rehearse(unittest.TestCase):
    def setUp(self):
        self.room = Path(tempfile.mkdtemp(prefix="test-rehearse-")).resolve()
        self.addCleanup(shutil.rmtree, self.room)
        (self.room / "bin").mkdir()
        shutil.copy(TOP / "bin/rehearse", self.room / "bin/rehearse")
        (self.room / "bin/reporting").symlink_to(TOP / "bin/reporting")
        for name, text in (("getfacl", GETFACL), ("aclctl", ACLCTL), ("unshare", UNSHARE), ("waits", WAITS)):
            (self.room / "bin" / name).write_text(text)
            (self.room / "bin" / name).chmod(0o755)
        self.share, self.kept = self.room / "share", self.room / ".aclctl-rehearse-share"
        (self.share / "in/deep").mkdir(parents=True)
        for name in ("one", "in/two", "in/deep/three"):
            (self.share / name).write_text("text")
        for it in [self.share, *self.share.rglob("*")]:
            it.chmod(0o755 if it.is_dir() else 0o600)
        self.env = {**os.environ, "PATH": f"{self.room}/bin:{os.environ['PATH']}", "ROOM": str(self.room)}

    def start(self, *words, **how):
        """Starts the script in the room."""
        how = {"stdout": subprocess.PIPE, "stderr": subprocess.PIPE, "env": self.env, "text": True, "cwd": self.room, **how}
        return subprocess.Popen([self.room / "bin/rehearse", *words], **how)

    def run_script(self, *words, **how):
        """Runs the script: its status, and its lines on both streams."""
        ran = self.start(*words, **how)
        out, said = ran.communicate(timeout=SLOW)
        return ran.returncode, out.splitlines(), [it.replace("rehearse: ", "", 1) for it in said.splitlines()]

    def modes(self):
        """The modes of the share."""
        return {str(it.relative_to(self.room)): it.stat().st_mode & 0o777 for it in [self.share, *self.share.rglob("*")]}

    def refused(self, why, *words, **how):
        """That the script refuses for this reason, and changes nothing."""
        before = self.modes()
        status, _, said = self.run_script(*words, **how)
        self.assertEqual((status, self.modes()), (1, before), said)
        self.assertIn(why, said[-1])

    def counts(self, *rows):
        """Lines of what bob gains, by paths in folders of the share."""
        return [f"{count} bob - w {self.share}{folder}" for count, folder in rows]

    def test_what_would_change_is_told_by_folders_and_nothing_changes(self):
        before = self.modes()
        status, lines, said = self.run_script("share", "--", "chmod", "-R", "a+w", "share")
        self.assertEqual((status, self.modes()), (0, before))
        self.assertEqual(lines, self.counts((3, ""), (3, "/in")))
        self.assertEqual(said, [f"what chmod does outside {self.share} is real", f"each path is in {self.kept}/1/impact"])
        self.assertEqual((self.kept / "1/impact").read_text().count("\n"), 6)
        self.assertEqual((self.share / "one").read_text(), "text")
        self.assertEqual(self.kept.stat().st_mode & 0o777, 0o700)

    def test_the_depth_of_folders(self):
        for depth, wanted in ((0, [(6, "")]), (2, [(3, ""), (2, "/in"), (1, "/in/deep")])):
            self.assertEqual(self.run_script("--new", f"--depth={depth}", "share", "--", "chmod", "-R", "a+w", "share")[1], self.counts(*wanted))

    def test_new_and_gone_paths(self):
        status, lines, _ = self.run_script("share", "--", "mv", "share/one", "share/in/ONE")
        self.assertEqual((status, sorted(lines)), (0, [f"1 gone {self.share}", f"1 new {self.share}/in"]))

    def test_a_command_is_rehearsed_over_those_before_and_all_are_applied(self):
        self.run_script("share", "--", "chmod", "g+w", "share/one", cwd=self.room)
        status, lines, _ = self.run_script(str(self.share), "--", "chmod", "-R", "g+w", "..", cwd=self.share / "in/deep")
        self.assertEqual((status, lines), (0, self.counts((1, ""), (3, "/in"))))
        status, lines, said = self.run_script("--apply", "share")
        self.assertEqual((status, lines), (0, self.counts((2, ""), (3, "/in"))))
        self.assertEqual({it & 0o20 for it in self.modes().values()}, {0, 0o20})
        self.assertEqual([it for it, mode in self.modes().items() if not mode & 0o20], ["share"])
        self.assertEqual(said[1:], ["runs chmod g+w share/one", "runs chmod -R g+w .."])
        kept = next(self.kept.glob("applied-*"))
        self.assertEqual(said[0], f"this undoes it: getfacl -Rnp {self.share} | aclctl restore {kept}/before - | setfacl --restore=-")
        self.assertIn("user::600", (kept / "before").read_text())
        self.assertEqual({it.name for it in self.kept.iterdir()}, {"lock", "impact", kept.name})
        self.refused("nothing was rehearsed", "--apply", "share")

    def test_it_is_applied_at_once(self):
        status, lines, _ = self.run_script("--apply", "share", "--", "chmod", "604", "share/one")
        self.assertEqual((status, lines, self.modes()["share/one"]), (0, self.counts((1, "")), 0o604))

    def test_the_mask_is_that_of_whoever_rehearsed(self):
        self.run_script("share", "--", "mkdir", "share/made", preexec_fn=lambda: os.umask(0o027))
        self.run_script("--apply", "share", preexec_fn=lambda: os.umask(0o077))
        self.assertEqual(self.modes()["share/made"], 0o750)

    def test_a_folder_that_changed_is_left_alone(self):
        self.run_script("share", "--", "chmod", "604", "share/one")
        (self.share / "in/two").chmod(0o640)
        why = f"{self.share} isn't as it was listed when it was first rehearsed: {self.share}/in/two differs; --new begins anew"
        self.refused(why, "--apply", "share")
        self.refused(why, "share", "--", "chmod", "606", "share/one")
        self.assertEqual(self.run_script("--new", "--apply", "share", "--", "chmod", "604", "share/one")[0], 0)
        self.assertEqual((self.modes()["share/one"], self.modes()["share/in/two"]), (0o604, 0o640))

    def test_a_command_that_fails_is_not_kept(self):
        self.run_script("share", "--", "chmod", "604", "share/one")
        self.refused("the command ended with status 3: it isn't kept", "share", "--", "sh", "-c", "chmod 777 share/one; exit 3")
        self.assertEqual(self.run_script("--apply", "share")[1], self.counts((1, "")))
        self.assertEqual(self.modes()["share/one"], 0o604)

    def test_commands_behind_one_that_fails_are_not_run(self):
        fails = "[ ! -e share.real ] && exit 3; true"
        self.run_script("share", "--", "sh", "-c", fails)
        self.run_script("share", "--", "chmod", "604", "share/one")
        self.refused("the command ended with status 3, and none was run behind it", "--apply", "share")
        self.assertTrue((next(self.kept.glob("applied-*")) / "before").exists())

    def test_another_result_than_was_rehearsed_is_told(self):
        self.run_script("share", "--", "sh", "-c", "[ -e share.real ] && chmod 604 share/one || chmod 640 share/one")
        status, _, said = self.run_script("--apply", "share")
        self.assertEqual((status, said[-1]), (4, f"{self.share} isn't as it was rehearsed: {self.share}/one differs"))

    def test_nothing_is_told_to_be_so(self):
        self.assertEqual(self.run_script("share", "--", "true")[1:], ([], [f"what true does outside {self.share} is real", "no user reaches more or less", f"each path is in {self.kept}/1/impact"]))

    def test_what_was_rehearsed_is_forgotten(self):
        self.run_script("share", "--", "chmod", "604", "share/one")
        self.assertEqual(self.run_script("--new", "share"), (0, [], []))
        self.refused("nothing was rehearsed", "--apply", "share")

    def test_a_run_that_is_killed_leaves_what_was_rehearsed_before(self):
        self.run_script("share", "--", "chmod", "604", "share/one")
        (self.room / "wait").touch()
        ran = self.start("share", "--", "sh", "-c", "chmod 777 share/one; waits")
        self.until_it_waits()
        self.assertEqual(self.run_script("share", "--", "true")[2], [f"another rehearsal is at work in {self.kept}"])
        os.kill(ran.pid, signal.SIGKILL)
        ran.wait(timeout=SLOW)
        (self.room / "wait").unlink()
        ran.communicate(timeout=SLOW)
        ends = time.monotonic() + SLOW
        while (self.room / "share.real").exists() and time.monotonic() < ends:
            time.sleep(0.02)
        self.assertEqual(self.run_script("--apply", "share")[:2], (0, self.counts((1, ""))))
        self.assertEqual(self.modes()["share/one"], 0o604)

    def until_it_waits(self):
        """Waits until the command waits."""
        ends = time.monotonic() + SLOW
        while not (self.room / "waits").exists() and time.monotonic() < ends:
            time.sleep(0.02)
        self.assertTrue((self.room / "waits").exists())

    def test_the_command_has_no_standard_input(self):
        status, lines, _ = self.run_script("share", "--", "sh", "-c", "read line || chmod 604 share/one", stdin=subprocess.PIPE)
        self.assertEqual((status, lines), (0, self.counts((1, ""))))

    def test_what_cannot_be_rehearsed_is_refused(self):
        (self.share / "fix").write_text("#!/bin/sh\n")
        (self.share / "fix").chmod(0o755)
        self.refused(f"share/fix is in {self.share}, whose skeleton has files with nothing in them", "share", "--", "share/fix")
        self.refused("none is no folder that has a skeleton", "none", "--", "true")
        self.refused("/ is no folder that has a skeleton", "/", "--", "true")
        self.refused(f"{self.share}/in is in {self.share}", "--room", "share/in", "share", "--", "true")
        for words in (["share"], ["--depth=-1", "share", "--", "true"], ["--", "true"], ["share", "true"]):
            self.assertEqual(self.run_script(*words)[0], 2, words)

    def test_a_room_that_others_can_write_is_refused(self):
        why = f"{self.kept} is no folder that root alone can write"
        self.kept.mkdir()
        for owner, mode in ((65534, 0o700), (0, 0o720), (0, 0o702)):
            os.chown(self.kept, owner, 0)
            self.kept.chmod(mode)
            self.refused(why, "--apply", "share")
        self.kept.rmdir()
        self.kept.symlink_to(self.room / "bin")
        self.refused(why, "share", "--", "true")
        self.kept.unlink()
        self.kept.write_text("")
        self.refused(why, "share", "--", "true")

    def test_without_a_mount_namespace_it_says_so(self):
        (self.room / "bin/unshare").write_text("#!/bin/sh\necho unshare: no >&2\nexit 1\n")
        self.refused("no mount namespace can be made here: unshare: no", "share", "--", "true")

    def test_without_root_it_says_so(self):
        for it in (self.room, *(self.room / "bin").iterdir()):
            it.chmod(0o755)
        (self.room / "bin/reporting").unlink()
        shutil.copytree(TOP / "bin/reporting", self.room / "bin/reporting", ignore=shutil.ignore_patterns("__pycache__"))
        become = lambda: os.setresuid(*[65534] * 3)
        path = "/usr/local/bin:/usr/bin:/bin"
        if shutil.which("python3", path=path):
            self.refused("it wants root", "share", "--", "true", preexec_fn=become, env={**self.env, "PATH": path})


if __name__ == "__main__":
    unittest.main()
