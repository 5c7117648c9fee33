"""dev/test over a kit, a clock and scripts that are stand-ins: what runs, in which order, and
when it ends."""

import os
import re
import shutil
import subprocess
import tempfile
import time
import unittest
from pathlib import Path

TOP = Path(__file__).resolve().parent.parent.parent
# How many seconds a stand-in may take on the slowest machine.
SLOW = 600
# Every stand-in writes down how it was called, and lets as many seconds go by as its name has in
# the folder takes/. It says what its name has in the folder says/, or its name with the first word.
STAND_IN = """#!/bin/sh
echo "$(basename "$0") $*" >> "$ROOM/calls"
now=$(cat "$ROOM/now")
echo $((now + $(cat "$ROOM/takes/$(basename "$0")"))) > "$ROOM/now"
says="$ROOM/says/$(basename "$0")"
[ ! -e "$says $1" ] || says="$says $1"
cat "$says"
"""
DATE = '#!/bin/sh\ncat "$ROOM/now"\n'
# It says how long it would let the command run, and ends it if the clock went further.
TIMEOUT = """#!/bin/sh
[ "$1 $2 $3" = "--foreground -k 10" ] || exit 125
left=$4
shift 4
echo "timeout $left" >> "$ROOM/calls"
ends=$(($(cat "$ROOM/now") + left))
"$@" > "$ROOM/said"
status=$?
[ "$(cat "$ROOM/now")" -le "$ends" ] || { echo "$ends" > "$ROOM/now"; exit 124; }
cat "$ROOM/said"
exit $status
"""
# How the parts are called before the wrong bodies are.
BEFORE = ["formatted ", "rt ci", "wrong-bodies --compile", "try-scripts ", "read-texts.py --check", "count-definitions "]
BEFORE += ["layout "]
BEFORE += ["try-aclctl ", "try-cases ", "try-compare ", "try-trees ", "try-listings ", "try-forms ", "try-kernel ", "try-accounts ", "try-delete ", "try-next ", "try-restore ", "try-changes ", "try-tutorial "]
BEFORE += ["try-report ", "try-desk ", "try-jobs ", "try-parallel ", "try-streams ", "try-capi ", "try-fuse "]
BEFORE += ["refused-growths "]
PARTS = {it.split()[0] for it in BEFORE}
# How they are called where nothing is proved.
QUICK = ["formatted ", "layout ", "count-definitions ", "read-texts.py --check", "wrong-bodies --apply"]
LOOKED_AT = ["look --version", "try-cases --program out/look/unproved-aclctl"]
PROVED = ["try-cases --program crates/aclctl/out/aclctl"]
# What all parts but the wrong bodies pass where each says so of 2 checks.
ALL = 2 * len(BEFORE)
DEAREST = " 455 acl_names a.f"
TRIED = """\
wrong bodies: 3 of 9 were tried; the others were not, for want of time
3 passed, 0 failed
"""


def place(name):
    """Where a part stands in a checkout."""
    if name in ("rt", "look"):
        return f"bin/{name}"
    return f"{'tests' if name.startswith(('try-', 'read-', 'refused-')) else 'dev'}/{name}"


class Whole(unittest.TestCase):
    def setUp(self):
        self.room = Path(tempfile.mkdtemp(prefix="test-whole-"))
        self.addCleanup(shutil.rmtree, self.room)
        for folder in ("bin", "dev", "tests", "takes", "says"):
            (self.room / folder).mkdir()
        shutil.copy(TOP / "dev/test", self.room / "dev/test")
        (self.room / "now").write_text("1000\n")
        for name in (*PARTS, "look"):
            self.write(place(name), STAND_IN)
            self.part(name, 0, "2 passed, 0 failed\n")
        self.part("wrong-bodies", 0, TRIED)
        (self.room / "says/wrong-bodies --compile").write_text("2 passed, 0 failed\n")
        self.write("dev/dearest", f"#!/bin/sh\necho '{DEAREST}'\n")
        self.write("bin/date", DATE)
        self.write("bin/timeout", TIMEOUT)

    def write(self, name, text):
        """Writes a program."""
        (self.room / name).write_text(text)
        (self.room / name).chmod(0o755)

    def part(self, name, seconds, says):
        """How long a part takes, and what it says."""
        (self.room / "takes" / name).write_text(f"{seconds}\n")
        (self.room / "says" / name).write_text(says)

    def run_test(self, *words):
        """Runs the whole test. Returns its status, the lines that it wrote, and how its parts
        were called."""
        path = f"{self.room}/bin:{os.environ['PATH']}"
        how = {"stdout": subprocess.PIPE, "stderr": subprocess.STDOUT}
        how |= {"text": True, "timeout": SLOW}
        how |= {"env": {**os.environ, "PATH": path, "ROOM": str(self.room)}}
        ran = subprocess.run([self.room / "dev/test", *words], **how)
        calls = self.room / "calls"
        called = calls.read_text() if calls.exists() else ""
        called = re.sub(r"--kept \S+/kept ?", "", called).splitlines()
        return ran.returncode, ran.stdout.splitlines(), called

    def test_without_minutes_nothing_is_ended_and_all_wrong_bodies_are_tried(self):
        status, lines, calls = self.run_test()
        self.assertEqual(status, 0)
        self.assertEqual(lines[-1], f"{ALL + 3} passed, 0 failed")
        self.assertEqual(sorted(calls), sorted([*BEFORE, "wrong-bodies "]))

    def test_the_wrong_bodies_begin_with_what_was_proved_before(self):
        kept = self.room / "crates/low/out/incremental/one/module"
        kept.parent.mkdir(parents=True)
        kept.write_text("proved\n")
        (self.room / "crates/high/out").mkdir(parents=True)
        self.write("bin/rt", '#!/bin/sh\nrm -rf crates/*/out/incremental\necho "1 passed, 0 failed"\n')
        self.write("dev/wrong-bodies", '#!/bin/sh\ncd "$2" && cat */*/module && ls && echo "1 passed, 0 failed"\n')
        _, lines, _ = self.run_test()
        at = lines.index("proved")
        self.assertEqual(lines[at : at + 3], ["proved", "low", "1 passed, 0 failed"])

    def test_with_minutes_wrong_bodies_come_last_and_fill_what_is_left(self):
        self.part("rt", 60 * 100, "2 passed, 0 failed\n")
        status, lines, calls = self.run_test("--minutes", "150")
        self.assertEqual(status, 0)
        self.assertEqual(lines[-3:], [DEAREST, TRIED.splitlines()[0], f"{ALL + 3} passed, 0 failed"])
        parts = [it for it in calls if not it.startswith("timeout")]
        self.assertEqual(parts, [*BEFORE, "wrong-bodies --minutes 48"])
        self.assertIn(f"timeout {60 * 150 - 90}", calls)

    def test_where_the_proofs_take_nearly_all_no_minute_is_given(self):
        self.part("rt", 60 * 148, "2 passed, 0 failed\n")
        status, _, calls = self.run_test("--minutes", "150")
        self.assertEqual((status, calls[-1]), (0, "wrong-bodies --minutes 0"))

    def test_proofs_that_take_longer_are_ended_and_fail(self):
        self.part("rt", 60 * 200, "2 passed, 0 failed\n")
        status, lines, calls = self.run_test("--minutes", "150")
        self.assertEqual(status, 1)
        self.assertTrue(any("rt ci was not done in 150 minutes" in it for it in lines))
        self.assertTrue(lines[-1].startswith(f"5 passed, {len(BEFORE) - 1} failed (within env RT_JOBS="))
        self.assertTrue(lines[-2].startswith("failed: within tests/refused-growths: "))
        self.assertEqual(calls[-1], "wrong-bodies --minutes 0")

    def test_the_end_comes_in_time_by_the_clock_too(self):
        """The stand-in of the proofs sleeps, two seconds before the time is over, under the
        machine's own timeout."""
        (self.room / "bin/timeout").unlink()
        self.write("bin/date", '#!/bin/sh\ncat "$ROOM/now"\necho 1508 > "$ROOM/now"\n')
        self.write("bin/rt", "#!/bin/sh\nexec sleep 900\n")
        begun = time.monotonic()
        status, lines, _ = self.run_test("--minutes", "10")
        self.assertLess(time.monotonic() - begun, SLOW)
        self.assertEqual(status, 1)
        self.assertTrue(any("rt ci was not done in 10 minutes" in it for it in lines))

    def test_a_part_that_fails_fails_the_whole(self):
        told = "failed: wrong body acl_names/one: NOT REFUSED"
        tried = "wrong bodies: 9 of 9 were tried"
        self.part("wrong-bodies", 0, f"{told}\n{tried}\n8 passed, 1 failed\n")
        status, lines, _ = self.run_test("--minutes", "150")
        last = f"{ALL + 8} passed, 1 failed (wrong body acl_names/one: NOT REFUSED)"
        self.assertEqual((status, lines[-3:]), (1, [tried, told, last]))

    def test_a_part_that_does_not_say_what_failed_is_named(self):
        self.part("layout", 0, "1 passed, 2 failed\n")
        status, lines, _ = self.run_test()
        told = "within dev/layout: 1 passed, 2 failed"
        self.assertEqual((status, lines[-2:]), (1, [f"failed: {told}", f"{ALL + 2} passed, 2 failed ({told})"]))

    def test_crates_that_the_kit_names_are_named(self):
        self.part("rt", 0, "rt: FAILED: acl_tree acl_c\n8 passed, 2 failed\n")
        status, lines, _ = self.run_test("--minutes", "150")
        last = f"{ALL + 9} passed, 2 failed (rt ci: acl_tree acl_c)"
        self.assertEqual((status, lines[-2:]), (1, ["failed: rt ci: acl_tree acl_c", last]))

    def test_quick_proves_nothing_and_counts_what_it_runs(self):
        self.part("wrong-bodies", 0, "5 passed, 0 failed\n")
        status, lines, calls = self.run_test("--quick")
        self.assertEqual((status, lines[-1]), (0, "17 passed, 0 failed"))
        self.assertEqual(calls, [*QUICK, *LOOKED_AT, "try-scripts "])

    def test_quick_tries_the_proved_program_unless_a_source_is_newer(self):
        program = self.room / "crates/aclctl/out/aclctl"
        for folder in ("src", "specs", "out"):
            (self.room / "crates/aclctl" / folder).mkdir(parents=True)
        for path in (self.room / "crates.txt", self.room / "crates/aclctl/src/main.rt"):
            path.write_text("")
        self.write(program.relative_to(self.room), "")
        self.assertEqual(self.run_test("--quick")[2], [*QUICK, *PROVED, "try-scripts "])
        (self.room / "calls").unlink()
        past = time.time() - 60
        os.utime(program, (past, past))
        self.assertEqual(self.run_test("--quick")[2], [*QUICK, *LOOKED_AT, "try-scripts "])

    def test_quick_fails_where_the_program_cannot_be_built(self):
        told = "bin/look: aclctl couldn't be built"
        self.write("bin/look", f"#!/bin/sh\necho \"{told}\" >&2\nexit 125\n")
        status, lines, calls = self.run_test("--quick")
        self.assertEqual((status, lines[-2]), (1, f"failed: try_cases: {told}"))
        self.assertEqual(calls, [*QUICK, "try-scripts "])

    def test_wrong_usage_runs_nothing(self):
        option = "--minutes"
        for words in ([option], [option, "x"], [option, ""], ["3"], [option, "3", "acl_broker"], ["--quick", "3"], ["--quick", option, "3"]):
            self.assertEqual(self.run_test(*words)[::2], (2, []))


if __name__ == "__main__":
    unittest.main()
