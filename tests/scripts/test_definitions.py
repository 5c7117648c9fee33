"""Which definitions one stands on."""

import tempfile
import unittest
from pathlib import Path

from definitions import reached

LOW = """-- Bits.
use Rattle.std.specs.Prelude.{ℕ}

infixl 70 ◌∩◌
abbrev pub ◌∩◌ : ℕ → ℕ → ℕ
a ∩ b = both a b

-- a table of records
abbrev pub table : List Row
table =
    record { bit = 1 }
    ∷ record { bit = 2 } ∷ []

abbrev pub unused : ℕ
unused = 0
"""

HIGH = """use Rattle.low.specs.Bits.{◌∩◌, unused}
use Rattle.low.specs.Bits as bits
use Rattle.low.specs.declared.row.Row.{Row}

pub record IsOne (n : ℕ) : Type 0 where
  -- a field
  pub is : n ∩ 1 ≡ 1

module _ (n : ℕ) where
  abbrev pub first : Type 0
  first = IsOne n

  abbrev pub second : List Row
  second = bits.table

abbrev pub alone : ℕ
alone = 1
"""


class Reached(unittest.TestCase):
    def reached(self, name):
        """The names that one of the upper file stands on, with their lines, by file."""
        with tempfile.TemporaryDirectory() as top:
            for crate, file, text in (("low", "Bits", LOW), ("high", "Is", HIGH)):
                path = Path(top, f"crates/{crate}/specs/{file}.antt")
                path.parent.mkdir(parents=True)
                path.write_text(text)
            found = reached(path, name, Path(top))
            return {it.stem: names for it, names in found.items()}

    def test_fields_belong_to_their_record(self):
        self.assertEqual(self.reached("IsOne"), {"Is": {"IsOne": 2}, "Bits": {"◌∩◌": 2}})

    def test_definitions_of_a_module_are_their_own(self):
        found = self.reached("first")
        self.assertEqual(found, {"Is": {"first": 2, "IsOne": 2}, "Bits": {"◌∩◌": 2}})

    def test_a_record_in_a_list_begins_nothing(self):
        self.assertEqual(self.reached("second"), {"Is": {"second": 2}, "Bits": {"table": 4}})

    def test_nothing_else_is_reached(self):
        self.assertEqual(self.reached("alone"), {"Is": {"alone": 2}})


if __name__ == "__main__":
    unittest.main()
