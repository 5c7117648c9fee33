"""Which contracts code has, and which definitions they cite."""

import tempfile
import unittest
from pathlib import Path

from contracts import CodeFile
from loading import script

CODE = """//! One.
ghost use Rattle.low.specs.Bits.{one, two};

/// A law.
pub fn one_laws()
    ensures first { one }
    ensures second { (n : N)
        -> two n }
{}

pub fn limits_in_numbers()
    ensures most { MOST = 64 }
{}

pub fn no_law()
    ensures { one }
{
    run()
}

pub struct Thing;

impl Thing {
    pub fn half(&self, n: u32) -> u32
        ensures value { result = two n }

        // Of no name.
        ensures { one }
    {
        if n == 0 { one() } else { n / 2 }
    }
}

impl Command for Thing {
    ghost meaning = { two };
}

pub trait Does {
    fn it(&self) -> bool
        ensures yes { one };
}
"""
BITS = "abbrev pub one : N\none = 1\n\nabbrev pub two : N -> N\ntwo n = n\n"


class Contracts(unittest.TestCase):
    def setUp(self):
        room = tempfile.TemporaryDirectory()
        self.addCleanup(room.cleanup)
        top = Path(room.name)
        for name, text in (("crates/low/specs/Bits.antt", BITS), ("one.rt", CODE)):
            (top / name).parent.mkdir(parents=True, exist_ok=True)
            (top / name).write_text(text)
        self.file = CodeFile(top / "one.rt", top)

    def cited(self, call, clause):
        """The names that a clause cites."""
        return {name for _, name in self.file.imports.cited_by(self.file.clauses(call)[clause])}

    def test_calls_methods_types_and_traits_have_texts(self):
        names = {"one_laws", "limits_in_numbers", "no_law", "Thing", "Thing::half", "Does", "Does::it"}
        self.assertEqual(set(self.file.texts), names)

    def test_a_law_runs_nothing(self):
        self.assertEqual(self.file.laws, ["one_laws", "limits_in_numbers"])

    def test_a_clause_cites_what_it_names(self):
        self.assertEqual(self.cited("one_laws", "first"), {"one"})
        self.assertEqual(self.cited("one_laws", "second"), {"two"})
        self.assertEqual(self.cited("Thing::half", "value"), {"two"})
        self.assertEqual(self.cited("Does::it", "yes"), {"one"})

    def test_without_a_name_the_whole_contract_counts_and_no_body(self):
        self.assertEqual(self.cited("Thing::half", ""), {"one", "two"})
        self.assertEqual(self.cited("no_law", ""), {"one"})
        self.assertEqual(self.cited("Thing", ""), {"one", "two"})
        self.assertNotIn("run", self.file.texts["no_law"])


class Page(unittest.TestCase):
    ROWS = "| acl_posix | Contract | Definition |\n|---|---|---|\n| It is. | %s | %s |\n"

    def faults(self, contract, definition):
        """What is wrong with a row, without the laws that lack one."""
        found = script("dev/count-definitions").faults_of_contracts(self.ROWS % (contract, definition))[1]
        return [it.partition(": ")[2] for it in found if it.startswith("docs/THEOREMS.md:")]

    def test_a_row_that_is_right(self):
        self.assertEqual(self.faults("`Acl::grants`: `value`", "`Access.grants`"), [])
        self.assertEqual(self.faults("`linux_laws`: `alike`; acl_nfs4 `Acl4::grants4`: `grants`", "`acl_nfs4.Evaluation.Grants`"), [])

    def test_a_call_a_clause_or_a_definition_that_isnt_there(self):
        self.assertEqual(self.faults("`Acl::grunts`", ""), ["acl_posix has no contract of Acl::grunts"])
        self.assertEqual(self.faults("`Acl::grants`: `worth`", ""), ["acl_posix Acl::grants has no clause worth"])
        self.assertEqual(self.faults("`Acl::grants`", "`Access.grunts`"), ["there is no definition Access.grunts"])

    def test_definitions_of_a_claim_and_of_a_definition(self):
        row = "| checks | `acl_wire.Check.check_of` | 0 | 0 | 0 |"
        found = script("dev/count-definitions").definitions_of(row, "acl_wire.Check.check_of")
        self.assertIn("check_of", [it for names in found.values() for it in names])
        self.assertEqual(script("dev/count-definitions").definitions_of(row, "checks"), found)
        self.assertEqual(script("dev/count-definitions").definitions_of(row, "acl_wire.Check.no_check"), {})
        self.assertEqual(script("dev/count-definitions").definitions_of(row, "acl_wire.Nowhere.check_of"), {})

    def test_a_definition_on_which_the_contract_doesnt_rest(self):
        self.assertEqual(self.faults("`Acl::mode`", "`Access.grants`"), ["the contract doesn't rest on Access.grants"])

    def test_each_law_has_a_row(self):
        self.assertIn("docs/THEOREMS.md has no row of acl_posix linux_laws", script("dev/count-definitions").faults_of_contracts("")[1])


if __name__ == "__main__":
    unittest.main()
