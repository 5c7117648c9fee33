"""bin/aclctl and dev/build-aclctl over a kit that is a stand-in: the order of the proofs,
what is said of them, what is left, and failures."""

import os
import shutil
import signal
import subprocess
import tempfile
import time
import unittest
from pathlib import Path

TOP = Path(__file__).resolve().parent.parent.parent
# How many seconds a stand-in may take on the slowest machine.
SLOW = 600
# It writes down when it begins and ends with a crate, and says how many functions are checked, as
# the kit does.
KIT = """#!/bin/sh
name=$(basename "$PWD")
echo "begin $name $*" >> "$ROOM/calls"
[ ! -e "$ROOM/slow-$name" ] || exec sleep 900
sleep 0.3
echo "so far: 0 of 7 functions checked; the verdict comes last"
echo "so far: 5 of 7 functions checked"
echo "checked $name::last, 7 of 7"
if [ -e "$ROOM/bad-$name" ]; then echo "fn $name::last: not proved"; exit 1; fi
[ "$1" != run ] || { mkdir -p out; cp "$ROOM/program" out/aclctl; }
echo "end $name" >> "$ROOM/calls"
"""
CRATES = """\
low: itoa
middle: low
second: low
ring:
engine may_wait=2: ring
other: low
service: low middle second engine
aclctl: service thiserror
"""


class Build(unittest.TestCase):
    def setUp(self):
        self.room = Path(tempfile.mkdtemp(prefix="test-build-")).resolve()
        self.addCleanup(shutil.rmtree, self.room)
        names = [it.split(":")[0].split()[0] for it in CRATES.splitlines()]
        folders = [f"crates/{it}/{part}" for it in names for part in ("src", "specs", "proofs")]
        for folder in ("bin", "dev", *folders):
            (self.room / folder).mkdir(parents=True)
        for name in ("bin/aclctl", "dev/build-aclctl", "dev/rt-beside"):
            shutil.copy(TOP / name, self.room / name)
        (self.room / "crates.txt").write_text(f"# crates\n{CRATES}")
        for name, text in (("bin/rt", KIT), ("program", '#!/bin/sh\necho "$@"\nexit 5\n')):
            (self.room / name).write_text(text)
            (self.room / name).chmod(0o755)
        path = f"{self.room}/bin:{os.environ['PATH']}"
        self.env = {**os.environ, "PATH": path, "ROOM": str(self.room), "RT_JOBS": "4"}

    def aclctl(self, *words):
        """Runs bin/aclctl."""
        how = {"capture_output": True, "text": True, "timeout": SLOW, "env": self.env}
        return subprocess.run([self.room / "bin/aclctl", *words], **how)

    def calls(self):
        """How the kit was called, in order."""
        calls = self.room / "calls"
        return calls.read_text().splitlines() if calls.exists() else []

    def test_lower_crates_come_first_and_all_processors_are_used(self):
        ran = self.aclctl("a", "b")
        self.assertEqual((ran.returncode, ran.stdout), (5, "a b\n"))
        calls = self.calls()
        self.assertEqual(sorted(calls[:2]), ["begin low lib --jobs 3", "begin ring lib --jobs 1"])
        self.assertIn("begin service lib --jobs 4", calls)
        self.assertTrue(calls[-2].startswith("begin aclctl run --jobs 4 -- decide "))
        order = ("low middle", "low second", "ring engine", "middle service", "second service", "engine service", "service aclctl")
        for low, high in map(str.split, order):
            begun = next(it for it, text in enumerate(calls) if text.startswith(f"begin {high} "))
            self.assertLess(calls.index(f"end {low}"), begun)
        self.assertFalse(any("other" in it for it in calls))

    def test_crates_on_one_base_are_proved_side_by_side(self):
        self.aclctl()
        calls = self.calls()
        begun = [next(it for it, text in enumerate(calls) if text.startswith(f"begin {name} ")) for name in ("middle", "second")]
        ended = [calls.index(f"end {name}") for name in ("middle", "second")]
        self.assertLess(max(begun), min(ended))

    def test_the_one_with_the_longest_way_gets_what_the_others_leave(self):
        (self.room / "crates/engine/proofs/Lemmas.antt").write_text("-- long\n" * 1000)
        (self.room / "crates/second/proofs/Lemmas.antt").write_text("-- short\n")
        self.aclctl()
        calls = self.calls()
        self.assertEqual(sorted(calls[:2]), ["begin low lib --jobs 1", "begin ring lib --jobs 3"])
        self.assertIn("begin middle lib --jobs 1", calls)
        self.assertIn("begin service lib --jobs 4", calls)

    def test_one_processor_proves_one_crate_at_a_time(self):
        self.env["RT_JOBS"] = "1"
        self.aclctl()
        calls = self.calls()
        kinds = [text.split()[0] for text in calls]
        self.assertEqual(kinds, ["begin", "end"] * (len(calls) // 2))

    def test_a_line_for_each_crate_where_there_is_no_terminal(self):
        lines = self.aclctl().stderr.splitlines()
        self.assertEqual(len(lines), 8)
        self.assertIn("only a proved program is built, so its 7 crates are proved first", lines[0])
        middle = "crate 2 of 7, middle: 7 of 7 functions, proved after 0 minutes"
        self.assertIn(f"bin/aclctl: {middle}", lines)
        self.assertTrue(lines[-1].startswith("bin/aclctl: crate 7 of 7, aclctl: "))

    def test_a_built_program_is_run_at_once(self):
        self.aclctl()
        count = len(self.calls())
        self.assertEqual((self.aclctl("x").stderr, len(self.calls())), ("", count))
        later = time.time() + 60
        (self.room / "crates/low/src/lib.rt").touch()
        os.utime(self.room / "crates/low/src/lib.rt", (later, later))
        self.aclctl("x")
        self.assertGreater(len(self.calls()), count)

    def test_the_checksum_of_what_was_built_is_left(self):
        left = self.room / "out/build/aclctl.sha256"
        (self.room / "bad-aclctl").touch()
        self.aclctl()
        self.assertFalse(left.exists())
        (self.room / "bad-aclctl").unlink()
        self.aclctl()
        how = {"cwd": self.room, "capture_output": True, "text": True}
        ran = subprocess.run(["sha256sum", "-c", left], **how)
        self.assertEqual(ran.stdout, "crates/aclctl/out/aclctl: OK\n")

    def test_a_failure_names_the_log_and_shows_its_end(self):
        (self.room / "bad-middle").touch()
        ran = self.aclctl()
        self.assertEqual((ran.returncode, ran.stdout), (125, ""))
        log = f"{self.room}/out/build/middle.log"
        self.assertIn(f"middle could not be built; {log} ends so:\nso far: 0 of 7", ran.stderr)
        self.assertIn("fn middle::last: not proved\n", ran.stderr)
        self.assertFalse(any("service" in it for it in self.calls()))

    def test_ended_in_the_middle_it_ends_the_kit_too(self):
        (self.room / "slow-middle").touch()
        words = [self.room / "dev/build-aclctl"]
        build = subprocess.Popen(words, stderr=subprocess.DEVNULL, env=self.env)
        while not any("middle" in it for it in self.calls()):
            time.sleep(0.1)
        build.send_signal(signal.SIGTERM)
        self.assertEqual(build.wait(timeout=SLOW), 128 + signal.SIGTERM)
        (self.room / "slow-middle").unlink()
        self.assertEqual(self.aclctl().returncode, 5)


if __name__ == "__main__":
    unittest.main()
