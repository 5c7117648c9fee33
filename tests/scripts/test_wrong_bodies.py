"""dev/wrong-bodies: how it reads code and what the kit says, in which order it tries, and how
it ends."""

import io
import subprocess
import sys
import tempfile
import time
import unittest
from contextlib import contextmanager, redirect_stdout
from pathlib import Path
from unittest.mock import patch

DEV = Path(__file__).resolve().parent.parent.parent / "dev"
sys.path.insert(0, str(DEV))

from wrong_bodies import compiling, crates, edits, functions, grouping, judging, lanes, prover
from wrong_bodies.clock import Clock, Ended
from wrong_bodies.edits import Edit
from wrong_bodies.functions import Function
from wrong_bodies.trying import Trial

# How many seconds what is ended at once may take on the slowest machine.
SLOW = 600
LOGS = Path(__file__).resolve().parent / "logs"
CODE = """\
/// A doc comment of fn one.
pub(crate) fn one(a: u8) -> u8
    ensures { result ≡ a }
{
    if a > 1 {
        return a;
    }
    a
}

impl<'a> Names<'a> {
    const fn two(&self) {}

    pub fn three(&self) -> u8 {
        3
    }
}

impl Drop for Names {
    fn drop(&mut self) {
        done();
    }
}

const FOUR: u8 = 4;
"""


class Functions(unittest.TestCase):
    def setUp(self):
        self.lines = CODE.split("\n")
        types = patch.object(functions, "modules_of_types", lambda crate: {"Names": "names"})
        self.enterContext(types)

    def around(self, text):
        """The function around the line that has this text."""
        at = next(it for it, line in enumerate(self.lines) if text in line)
        return functions.function_around("low", "src/places/here.rt", self.lines, at)

    def test_a_function_is_found_from_its_contract_and_from_its_body(self):
        for text in ("pub(crate) fn one", "ensures { result", "return a;", "    a"):
            own = self.around(text)
            self.assertEqual((own.name, own.first, own.last), ("one", 2, 9))
            self.assertEqual(own.proof, "proofs/places/here/one")
            self.assertEqual(own.path(), "places::here::one")

    def test_a_method_stands_below_the_module_of_its_type(self):
        own = self.around("        3")
        self.assertEqual((own.first, own.last, own.path()), (14, 16, "names::Names::three"))
        own = self.around("const fn two")
        self.assertEqual((own.first, own.last, own.path()), (12, 12, "names::Names::two"))

    def test_the_proof_of_a_traits_method_cannot_be_told(self):
        own = self.around("done();")
        self.assertEqual((own.name, own.proof, own.path()), ("drop", None, "places::here"))

    def test_what_is_outside_has_no_function(self):
        for text in ("const FOUR", "impl<'a> Names", "/// A doc comment"):
            self.assertIsNone(self.around(text))

    def test_the_root_of_a_crate_is_no_module(self):
        for name, module in (("lib", ""), ("main", ""), ("a/b", "a/b")):
            self.assertEqual(functions.module_of(f"src/{name}.rt"), module)


class Lines(unittest.TestCase):
    """What lines of a check say of a function."""

    def setUp(self):
        self.own = Function("src/names.rt", 10, 20, "is_domain", "proofs/names/is_domain")

    def test_a_place_inside_the_function(self):
        for line, is_named in (
            ("note: src/names.rt:10:1: it is not proved, since one goal is left", True),
            ("note: src/names.rt:20:5: `search` found no proof", True),
            ("note: src/names.rt:21:5: `search` found no proof", False),
            ("note: src/names.rt:9:1: it is not proved", False),
            ("note: src/other.rt:15:1: it is not proved", False),
            ("note: src/names.rt:15:1: it is proved", False),
        ):
            self.assertEqual(judging.is_named(self.own, line), is_named, line)

    def test_an_answer_of_its_proof(self):
        lacks = "no proof: expected answers in"
        for line, is_named in (
            ("proofs/names/is_domain/Answers.antt:7:3: error: two sides differ", True),
            ("./proofs/names/is_domain/Proof.antt:7:3: error: two sides differ", True),
            ("proofs/names/is_domain_too/Answers.antt:7:3: error: two sides differ", False),
            ("proofs/names/is_domain/Answers.antt:7:3: note: large solution", False),
            (f"fn low::names::is_domain: {lacks} proofs/names/is_domain/Answers.antt; it", True),
            (f"fn low::names::is_name: {lacks} proofs/names/is_name/Answers.antt; it", False),
        ):
            self.assertEqual(judging.is_named(self.own, line), is_named, line)

    def test_a_line_that_says_it_is_proved(self):
        for says in ("is_domain: proved", "is_domain: proved, may wait"):
            self.assertTrue(judging.is_proved_by(self.own, "low", f"fn low::names::{says}"), says)
        for says in ("is_domain: not proved", "is_domain_too: proved"):
            self.assertFalse(judging.is_proved_by(self.own, "low", f"fn low::names::{says}"), says)
        self.assertFalse(judging.is_proved_by(self.own, "top", "fn low::names::is_domain: proved"))
        of_a_trait = Function("src/names.rt", 1, 2, "f", None)
        self.assertFalse(judging.is_proved_by(of_a_trait, "low", "fn low::names: proved"))


class Logs(unittest.TestCase):
    """What the kit wrote of edits of acl_bridge, recorded. The lines are those of its code then."""

    PLACES = {
        "unlike_for": ("requests", 120, 140),
        "unlike_at": ("requests", 90, 115),
        "who_of": ("passes", 80, 98),
        "whole_request_difference": ("whole_requests", 1, 400),
    }

    def setUp(self):
        self.functions = {
            name: Function(f"src/{file}.rt", first, last, name, f"proofs/{file}/{name}")
            for name, (file, first, last) in self.PLACES.items()
        }

    def said(self, name):
        """The functions that a log names as unproved, and those of which it says that they are
        proved."""
        lines = (LOGS / f"{name}.log").read_text().splitlines()[1:]
        functions = self.functions.items()
        named = {it for it, own in functions if any(judging.is_named(own, line) for line in lines)}
        is_proved = lambda own: any(judging.is_proved_by(own, "acl_bridge", it) for it in lines)
        proved = {it for it, own in functions if is_proved(own)}
        return named, proved

    def test_edited_functions_are_named_and_one_that_only_calls_them_is_not(self):
        named, proved = self.said("two_wrong_bodies_and_a_comment")
        self.assertEqual((named, proved), ({"unlike_for", "who_of"}, {"unlike_at"}))

    def test_of_edits_that_turn_nothing_all_is_proved(self):
        named, proved = self.said("two_neutral_edits")
        self.assertEqual(named, set())
        self.assertLessEqual({"unlike_at", "whole_request_difference"}, proved)

    def test_a_wrong_goal_looks_like_a_refusal(self):
        """So a goal is tried on the right body first."""
        named, proved = self.said("a_goal_that_there_is_not")
        self.assertEqual(named, {"whole_request_difference"})
        self.assertNotIn("whole_request_difference", proved)


class Verdicts(unittest.TestCase):
    """What a check of one edit alone comes to."""

    def test_by_whether_all_is_proved_and_by_the_lines(self):
        left = "note: src/a.rt:3:1: it is not proved"
        gone = "proofs/a/f/Answers.antt:2:1: error: `b` is not in scope"
        unread, names = "src/a.rt:3:1: error: a type differs", "names what the edit took away"
        for is_proved, lines, is_refused, why in (
            (True, ["only=1 proved=1"], False, "NOT REFUSED"),
            (False, [left, "only=1 proved=0"], True, f"refused: {left}"),
            (False, ["only=1 proved=0"], True, "refused: only=1 proved=0"),
            (False, [unread, left], False, f"BAD EDIT: it did not reach the prover: {unread}"),
            (None, ["no memory"], False, "BAD EDIT: it did not reach the prover: no memory"),
            (False, [gone], True, f"refused, but only because a proof file {names}: {gone}"),
            (False, [gone, left], True, f"refused: {left}"),
        ):
            self.assertEqual(judging.verdict(is_proved, lines), (is_refused, why))


def edit(crate, name, file="src/lib.rt", line=1):
    """An edit of a function of its own."""
    own = Function(file, line, line + 1, name, f"proofs/{name}")
    path = f"wrong-bodies/one/{name}.edit"
    made = Edit(crate, name, [(file, "a", "b")], [own], path=path)
    made.apply = lambda texts: {file: "b"}
    return made


class Bad(unittest.TestCase):
    """An edit that can't be tried, of a crate with one function and an answer to one of its
    goals."""

    def why(self, old, *goals, **more):
        with tempfile.TemporaryDirectory() as room:
            for name, text in (("src/lib.rt", CODE), ("proofs/one/Answers.antt", "returns g c = x\n")):
                path = Path(room, "crates/names", name)
                path.parent.mkdir(parents=True, exist_ok=True)
                path.write_text(text)
            pair = ("src/lib.rt", old, "new")
            more = {"path": "wrong-bodies/lib/bent.edit", **more}
            functions = more.pop("functions", [])
            edit = Edit("names", "bent", [pair], functions, [*goals], **more)
            with patch.object(crates, "TOP", Path(room)):
                return edits.why_bad(edit)

    def test_an_old_text_has_to_stand_once(self):
        self.assertIn("stand once", self.why("no such text"))
        self.assertIn("stand once", self.why("fn"))
        self.assertIsNone(self.why("done();"))

    def test_its_file_may_be_gone(self):
        with tempfile.TemporaryDirectory() as room:
            path = Path(room, "crates/names/wrong-bodies/moved/bent.edit")
            path.parent.mkdir(parents=True)
            path.write_text("file: src/moved.rt\nold: a\nnew: b\n")
            says = io.StringIO()
            with patch.object(crates, "TOP", Path(room)), redirect_stdout(says):
                found = {"names": edits.edits_of("names")}
                self.assertEqual(edits.without_bad(found), 1)
        self.assertEqual(found, {"names": []})
        self.assertEqual(says.getvalue(), "wrong body names/bent: BAD EDIT: its file is gone\n")

    def test_it_stands_in_the_folder_of_its_file(self):
        why = self.why("done();", path="wrong-bodies/bent.edit")
        self.assertIn("wrong-bodies/lib", why)

    def test_a_goal_must_not_be_answered_already(self):
        goal = ("proofs/one", "returns", "g c")
        self.assertIn("proofs/one", self.why("done();", goal))
        self.assertIsNone(self.why("done();", ("proofs/one", "returns-else", "g c")))
        self.assertIsNone(self.why("done();", ("proofs/two", "returns", "g c")))
        self.assertIsNone(self.why("done();", goal, is_neutral=True))

    def test_a_goal_is_one_of_a_function_that_it_edits(self):
        goal = ("proofs/two", "returns", "g c")
        one = Function("src/lib.rt", 1, 2, "one", "proofs/one")
        self.assertIn("proofs/two", self.why("done();", goal, functions=[one]))
        two = Function("src/lib.rt", 1, 2, "two", "proofs/two")
        self.assertIsNone(self.why("done();", goal, functions=[one, two]))
        self.assertIsNone(self.why("done();", goal, functions=[None]))


class Compiling(unittest.TestCase):
    """Edits of two crates of which one stands on the other, by a front end that knows no name
    `gone`."""

    GONE = "src/lib.rt:7:5: error: cannot find value `gone`"

    def setUp(self):
        self.top = Path(self.enterContext(tempfile.TemporaryDirectory()))
        for it in ("low", "high"):
            (self.top / f"crates/{it}/src").mkdir(parents=True)
            (self.top / f"crates/{it}/src/lib.rt").write_text(CODE)
        self.enterContext(patch.multiple(crates, TOP=self.top, stands_on=lambda: {"low": [], "high": ["low", "itoa"]}))
        self.enterContext(patch.object(prover.Prover, "compiles", self.compiles))
        self.checks, self.stale = [], None

    def compiles(self, crate, texts):
        """Whether the front end knows each name, and what it says."""
        self.checks.append(crate)
        knows = crate != self.stale and not any("gone" in it for it in texts.values())
        return knows, ["only=0 proved=0"] if knows else ["logic: 16 libraries", self.GONE]

    def edits(self, crate, *pairs):
        """An edit of each pair of texts, named by its place."""
        return [Edit(crate, f"e{it}", [("src/lib.rt", *pair)]) for it, pair in enumerate(pairs)]

    def compile(self, **found):
        """How many edits were tried and how many compile, and what is printed."""
        says = io.StringIO()
        with redirect_stdout(says):
            counts = compiling.compile_all(Clock(), found)
        return counts, says.getvalue().splitlines()

    def test_edits_of_which_none_takes_anothers_text_away_are_compiled_at_once(self):
        found = self.edits("low", ("        3", "        4"), ("return a", "return 5"), ("done()", "begun()"))
        self.assertEqual(self.compile(low=found), ((3, 3), []))
        self.assertEqual(self.checks, ["low"])
        found += self.edits("low", ("done();", ""))
        self.assertEqual(self.compile(low=found), ((4, 4), []))
        self.assertEqual(self.checks, ["low"] * 3)

    def test_each_that_does_not_compile_is_named(self):
        found = self.edits("low", ("        3", "        gone"), ("return a", "return 5"), ("done()", "gone()"))
        says = [f"failed: wrong body low/{it}: BAD EDIT: it did not reach the prover: {self.GONE}" for it in ("e0", "e2")]
        self.assertEqual(self.compile(low=found), ((3, 1), says))

    def test_those_over_a_library_that_is_not_built_are_not_tried(self):
        found = {it: self.edits(it, ("return a", "return 5")) for it in ("low", "high")}
        self.assertEqual(self.compile(**found), ((1, 1), ["high stands on low, not built here"]))
        compiling.library("low").mkdir(parents=True)
        self.assertEqual(self.compile(**found), ((2, 2), []))

    def test_none_of_a_crate_that_does_not_compile_itself_is_tried(self):
        self.stale = "low"
        found = self.edits("low", ("return a", "return 5"), ("done()", "gone()"))
        says = "low doesn't compile over the libraries that are built here"
        self.assertEqual(self.compile(low=found), ((0, 0), [says]))


class Order(unittest.TestCase):
    def setUp(self):
        self.found = {
            "low": [edit("low", "old", "src/old.rt"), edit("low", "new", "src/new.rt")],
            "high": [edit("high", f"same{it}", "src/same.rt", 10 * it) for it in range(20)],
        }
        self.found["high"].append(edit("high", "newest", "src/newest.rt"))

    def names(self, changed, commit):
        """The names of the first edits of the groups, in order."""
        return [it.edits[0].name for it in grouping.in_turn(self.found, changed, commit)]

    def test_edits_of_changed_files_come_first_the_newest_before_the_others(self):
        changed = {"crates/high/src/newest.rt": 0, "README.md": 1, "crates/low/src/new.rt": 2}
        self.assertEqual(self.names(changed, "0")[:2], ["newest", "new"])

    def test_a_new_edit_of_an_old_file_comes_first_too(self):
        self.assertEqual(self.names({"crates/low/wrong-bodies/one/old.edit": 0}, "1")[0], "old")

    def test_the_others_begin_elsewhere_in_each_commit_and_none_is_left_out(self):
        orders = [self.names({}, commit) for commit in ("0", "1", "2", "ffff")]
        self.assertEqual(len({it[0] for it in orders[:3]}), 3)
        for it in orders:
            self.assertEqual(sorted(it), sorted(orders[0]))
        tried = [own.name for group in grouping.in_turn(self.found, {}, "2") for own in group.edits]
        every = [it.name for edits in self.found.values() for it in edits]
        self.assertEqual(sorted(tried), sorted(every))

    def test_without_commits_there_is_an_order_too(self):
        self.assertEqual(len(self.names({}, "")), 3)


@contextmanager
def no_copy(crate, texts):
    """In place of the copy of a crate: a folder with nothing in it."""
    with tempfile.TemporaryDirectory() as room:
        yield room


class Kit(Clock):
    """In place of the kit: it proves every crate, and refuses each edit of a check, by its place.
    Its time is over after so many checks."""

    def __init__(self, checks):
        super().__init__()
        self.checks = checks

    def run(self, words, folder):
        if "--only" not in words:
            return 0, "logic=proved functions=9\n"
        if self.checks == 0:
            self.end()
            raise Ended
        self.checks -= 1
        lines = [f"note: src/lib.rt:{it}:1: it is not proved" for it in range(1, 99)]
        return 1, "\n".join([*lines, "only=3 proved=2", ""])


class InTime(unittest.TestCase):
    """How many are tried where the time is over after so many checks, of four that are needed."""

    def setUp(self):
        below = {"low": [], "high": ["low", "itoa"]}
        self.enterContext(patch.object(crates, "stands_on", lambda: below))
        self.enterContext(patch.object(grouping, "TOGETHER", 1))
        kit = {"kit": lambda: Path("kit"), "copy_of": no_copy, "answers_of": lambda crate, edits: {}}
        self.enterContext(patch.multiple(prover, **kit))
        self.enterContext(patch.dict("os.environ", {"RT_JOBS": "1"}))

    def tried(self, checks, is_neutral=False):
        """How many of four edits were tried, and how many of them were as they should be."""
        edits = [edit(it, name, line=10) for it in ("low", "high") for name in ("one", "two")]
        for it in edits:
            it.is_neutral = is_neutral
        found = {"low": edits[:2], "high": edits[2:]}
        tries = grouping.in_turn(found, {}, "0")
        self.places = grouping.Places(tries, True)
        with tempfile.TemporaryDirectory() as room, patch("builtins.print"):
            for it in found:
                Path(room, it).mkdir()
            self.trial = Trial(prover.Prover(room, Kit(checks), found, self.places))
            return self.trial.run(tries)

    def test_those_of_checks_that_ended_in_time_are_counted_and_no_other(self):
        for checks in range(5):
            self.assertEqual(self.tried(checks), (checks, checks))
            self.assertEqual(self.trial.failures, [])

    def test_a_neutral_edit_that_is_refused_fails(self):
        self.assertEqual(self.tried(4, is_neutral=True), (4, 0))
        self.assertEqual(len(self.trial.failures), 4)
        self.assertTrue(self.trial.failures[0].startswith("neutral edit "))

    def test_a_crate_comes_before_the_first_check_that_needs_it_and_after_earlier_ones(self):
        self.tried(4)
        groups, check = self.places.tries, self.places.of_check
        order = [self.places.of_proof("low"), check(groups[0]), check(groups[1])]
        order += [self.places.of_proof("high"), check(groups[2]), check(groups[3])]
        self.assertEqual(order, sorted(order))


class Ending(unittest.TestCase):
    def test_what_runs_is_ended_with_all_that_it_started(self):
        clock, begun = Clock(), time.monotonic()
        clock.end_after(0.5)
        with tempfile.TemporaryDirectory() as room:
            with self.assertRaises(Ended):
                clock.run(["sh", "-c", "sleep 900 & echo $! > child; wait"], room)
            child = Path(room, "child").read_text().strip()
        self.assertLess(time.monotonic() - begun, SLOW)
        words = ["ps", "-o", "stat=", "-p", child]
        state = subprocess.run(words, capture_output=True, text=True).stdout.strip()
        self.assertIn(state[:1], ("", "Z"))

    def test_nothing_begins_once_it_has_ended(self):
        clock = Clock()
        clock.end()
        with self.assertRaises(Ended):
            clock.run(["true"], "/")
        with self.assertRaises(Ended):
            with lanes.Lanes(1, clock).lane(True, (0, 0)):
                self.fail("a lane was held")

    def test_a_command_that_was_killed_runs_once_more(self):
        with tempfile.TemporaryDirectory() as room:
            words = ["sh", "-c", "[ -e seen ] && exec echo well; touch seen; kill -9 $$"]
            self.assertEqual(Clock().run(words, room), (0, "well\n"))

    def test_who_waits_for_a_lane_is_told(self):
        clock, begun = Clock(), time.monotonic()
        full = lanes.Lanes(1, clock)
        full.busy = 1
        self.enterContext(patch.multiple(lanes, PAUSE=900, free_memory=lambda: 0))
        clock.end_after(0.3)
        with self.assertRaises(Ended):
            with full.lane(False, (0, 0)):
                self.fail("a lane was held")
        self.assertLess(time.monotonic() - begun, SLOW)

    def test_nothing_begins_on_a_full_disk(self):
        self.enterContext(patch.object(lanes, "has_disk", lambda: False))
        for is_proof in (True, False):
            with self.assertRaises(Ended):
                with lanes.Lanes(1, Clock()).lane(is_proof, (0, 0)):
                    self.fail("a lane was held")

    def test_another_kit_stops_it(self):
        with tempfile.TemporaryDirectory() as room:
            Path(room, "rt").write_text("#!/bin/sh\necho rattle-kit-99z logic 0\n")
            Path(room, "rt").chmod(0o755)
            how = {"capture_output": True, "text": True}
            how |= {"env": {"PATH": f"{room}:/usr/bin:/bin", "HOME": room}}
            ran = subprocess.run([sys.executable, DEV / "wrong-bodies", "acl_bridge"], **how)
        self.assertEqual(ran.returncode, 1)
        self.assertIn("this is rattle-kit-99z", ran.stderr)


if __name__ == "__main__":
    unittest.main()
