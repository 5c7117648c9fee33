"""dev/layout: which lines and files it finds fault with."""

import tempfile
import unittest
from pathlib import Path

import pages
from loading import script

LONG = "x" * 101
layout = script("dev/layout")


class Faults(unittest.TestCase):
    def numbers(self, name, suffix, *lines):
        """The numbers of the lines that are at fault."""
        return [it for it, _ in layout.faults_of(name, suffix, lines)]

    def test_a_file_begins_with_what_it_holds(self):
        self.assertEqual(self.numbers("one.rt", ".rt", "//! One.", "use two;"), [])
        self.assertEqual(self.numbers("one.rt", ".rt", "use two;"), [1])
        self.assertEqual(self.numbers("One.antt", ".antt", "use Two"), [1])
        self.assertEqual(self.numbers("Lib.antt", ".antt", "pub mod One"), [])

    def test_a_line_has_at_most_100_columns_and_not_bytes(self):
        self.assertEqual(self.numbers("one.rt", ".rt", "//! One.", LONG), [2])
        self.assertEqual(self.numbers("one.rt", ".rt", "//! One.", LONG[1:]), [])
        self.assertEqual(self.numbers("one.rt", ".rt", "//! One.", "\u2261" * 100), [])
        self.assertEqual(self.numbers("one.rt", ".rt", "//! One.", LONG[1:] + " }"), [])

    def test_a_text_may_be_longer(self):
        for text in ('    "' + LONG, 'b"' + LONG):
            self.assertEqual(self.numbers("one.rt", ".rt", "//! One.", text), [])
        self.assertEqual(self.numbers("one.rt", ".rt", "//! One.", 'f("' + LONG), [2])

    def test_a_docstring_stands_above_attributes(self):
        head, doc, attribute = "//! One.", "    /// Two.", "    #[inline]"
        self.assertEqual(self.numbers("one.rt", ".rt", head, doc, attribute, "fn two()"), [])
        self.assertEqual(self.numbers("one.rt", ".rt", head, attribute, doc, "fn two()"), [3])

    def test_a_value_for_the_proof_alone_has_a_remark(self):
        head, remark, value = "//! One.", "    // For the proof only.", "    let _two = two();"
        self.assertEqual(self.numbers("one.rt", ".rt", head, remark, value), [])
        self.assertEqual(self.numbers("one.rt", ".rt", head, "{", "    let _ = self;"), [])
        self.assertEqual(self.numbers("one.rt", ".rt", head, "    three();", value), [3])
        for call in ("let _ = end.close();", "let _three = two()?;", "let _ = self"):
            self.assertEqual(self.numbers("one.rt", ".rt", head, "    three();", call), [])

    def test_names_of_std_and_of_the_kit_come_first(self):
        std, kit, ours = (f"use Rattle.{it}.specs.One.{{one}}" for it in ("std", "clap", "acl_tree"))
        self.assertEqual(self.numbers("One.antt", ".antt", "-- One.", std, std, kit, ours, "", std), [])
        self.assertEqual(self.numbers("One.antt", ".antt", "-- One.", std, ours, kit, std), [4, 5])

    def test_a_ghost_name_is_used(self):
        head, use = "//! One.", "ghost use Some.place.{two, \u25cc\u2261\u25cc, lines};"
        self.assertEqual(self.numbers("one.rt", ".rt", head, use, "ensures { two \u2261 lines }"), [])
        self.assertEqual(self.numbers("one.rt", ".rt", head, use, "ensures { two lines }"), [2])
        self.assertEqual(self.numbers("one.rt", ".rt", head, use, "/// two \u2261 lines"), [2, 2, 2])
        self.assertEqual(self.numbers("one.rt", ".rt", head, use, "two \u2261 two_lines"), [2])
        renamed = "ghost use Some.place.{two as other};"
        self.assertEqual(self.numbers("one.rt", ".rt", head, renamed, "ensures { other }"), [])


class Constants(unittest.TestCase):
    FROM = "use Rattle.acl_tree.specs.declared.limits.TheConstants"

    def without(self, spec, *clauses):
        """The constants of a definition's text that have no number in these clauses of the code."""
        names = "".join(f"ghost {self.FROM}.{{{it}}};\n" for it in ("MOST", "LEAST"))
        numbered = layout.numbered_in(names + "pub fn numbers()\n" + "\n".join(clauses) + "\n{}\n")
        return [why.split()[6].rstrip(",") for _, why in layout.unnumbered_in(spec, numbered)]

    def test_a_constant_that_a_definition_cites_has_its_number_in_a_clause(self):
        spec = self.FROM + ".{MOST, LEAST}\n"
        self.assertEqual(self.without(spec), ["MOST", "LEAST"])
        self.assertEqual(self.without(spec, "ensures most { MOST \u2261 64 }"), ["LEAST"])
        self.assertEqual(self.without(spec, "ensures { MOST \u2261 0x4f }", "ensures l { LEAST \u2261 0 }"), [])

    def test_a_number_is_one_and_stands_in_a_clause(self):
        spec = self.FROM + ".{MOST}\n"
        for clause in ("requires { MOST \u2261 64 }", "// MOST \u2261 64", "ensures { MOST \u2261 LEAST }"):
            self.assertEqual(self.without(spec, clause), ["MOST"])
        self.assertEqual(self.without(spec, "ensures { MOST \u2264 64 }"), ["MOST"])

    def test_it_is_the_constant_of_that_module(self):
        spec = self.FROM.replace("limits", "path") + ".{MOST}\n"
        self.assertEqual(self.without(spec, "ensures { MOST \u2261 64 }"), ["MOST"])

    def test_however_it_is_cited(self):
        self.assertEqual(self.without("size = Rattle.acl_tree.specs.declared.limits.TheConstants.MOST"), ["MOST"])
        renamed = self.FROM + " as limits\nsize = limits.MOST + 1\n"
        self.assertEqual(self.without(renamed), ["MOST"])
        self.assertEqual(self.without(renamed, "ensures { MOST \u2261 64 }"), [])
        self.assertEqual(self.without(self.FROM + ".{MOST as most}\n"), ["MOST"])


class Version(unittest.TestCase):
    def test_each_place_names_the_version(self):
        with tempfile.TemporaryDirectory() as room:
            top = Path(room)
            for name, _ in layout.VERSIONED:
                (top / name).parent.mkdir(parents=True, exist_ok=True)
                (top / name).write_text((layout.TOP / name).read_text())
            version = (layout.TOP / "VERSION").read_text()
            (top / "VERSION").write_text(version)
            self.assertEqual([*layout.faults_of_version(top)], [])
            (top / "VERSION").write_text("9.9.9\n")
            self.assertEqual(len([*layout.faults_of_version(top)]), len(layout.VERSIONED))
            (top / "VERSION").write_text(version)
            (top / "CHANGELOG.md").write_text("# Changes\n")
            self.assertEqual([*layout.faults_of_version(top)], [(1, f"CHANGELOG.md doesn't name {version.strip()}")])


class Pages(unittest.TestCase):
    def numbers(self, *lines):
        """The numbers of the lines of a page that are at fault, beside a page with one heading."""
        with tempfile.TemporaryDirectory() as room:
            Path(room, "two.md").write_text("# The two, and `more`\n")
            page = Path(room, "one.md")
            page.write_text("\n".join(lines))
            return [it for it, _ in layout.faults_of_page(page)]

    def test_a_line_has_at_most_110_columns_outside_tables_and_code(self):
        long = "x" * 111
        self.assertEqual(self.numbers(long, "| " + long, "```sh", long, "```", long), [1, 6])

    def test_a_link_leads_somewhere(self):
        self.assertEqual(self.numbers("[a](two.md) [b](two.md#the-two-and-more) [c](https://x.y)"), [])
        self.assertEqual(self.numbers("[a](three.md)", "[b](two.md#three)", "# Me", "[c](#me)"), [1, 2])


class Words(unittest.TestCase):
    def numbers(self, *lines):
        """The numbers of the lines of a page that have words of the dialect."""
        return [it for it, _ in pages.dialect_in("\n".join(lines))]

    def test_words_that_plain_english_has_others_for(self):
        self.assertEqual(self.numbers("It tells who.", "It prints who.", "What was told"), [1, 3])
        self.assertEqual(self.numbers("A teller", "Telling", "hotels, untold, tell-tale"), [1, 2])
        self.assertEqual(self.numbers("Who there is", "uid 0 isn't asked about", "it is nobody's"), [1, 2, 3])

    def test_each_of_the_list_is_found(self):
        for it in ("told", "decided about", "said of", "nothing is said", "are nobody's", "who there is", "stands on"):
            self.assertEqual(self.numbers(f"So {it}."), [1], it)

    def test_words_of_two_lines(self):
        self.assertEqual(self.numbers("What is", "said", "of it"), [2])
        self.assertEqual(self.numbers("What is said", "", "of it"), [])

    def test_a_sentence_begins_with_its_subject(self):
        self.assertEqual(self.numbers("Of a file nothing is known.", "- Of each", "It is. Of two"), [1, 2, 3])
        self.assertEqual(self.numbers("The owner", "Of a file", "", "**Of several** faults"), [4])
        self.assertEqual(self.numbers("Of course. A list of a file"), [])

    def test_code_and_places_of_links_are_no_prose(self):
        self.assertEqual(self.numbers("`told`", "```sh", "told", "```", "[a](told.md)", "    told", "told"), [7])

    def top(self, room, **texts):
        """A top folder with pages of these names and numbers of words."""
        for name, count in texts.items():
            path = Path(room, *name.split("_")).with_suffix(".md")
            path.parent.mkdir(parents=True, exist_ok=True)
            path.write_text("word " * count + "| --- |\n")
        return Path(room)

    def test_a_page_has_its_number_of_words_and_a_tenth_more(self):
        with tempfile.TemporaryDirectory() as room:
            self.assertEqual(list(pages.too_long(self.top(room, README=935, docs_WORDS=385))), [])
            found = dict(pages.too_long(self.top(room, README=936, docs_WORDS=385)))
            self.assertEqual(found, {Path(room, "README.md"): "README.md have 936 words, and 850 are enough"})

    def test_pages_of_a_row_count_together(self):
        with tempfile.TemporaryDirectory() as room:
            top = self.top(room, crates_one_README=2000, crates_two_README=1301)
            self.assertEqual([it for it, _ in pages.too_long(top)], [Path(room, "crates/one/README.md")])

    def test_each_page_has_a_number(self):
        with tempfile.TemporaryDirectory() as room:
            top = self.top(room, README=1, docs_WORDS=1, docs_NEW=1, crates_one_OTHER=1)
            self.assertEqual(pages.without_target(top), [Path(room, "docs/NEW.md")])
