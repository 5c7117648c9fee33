"""How many words pages may have, and which ones they don't use: `dev/layout` asks it.

    python3 dev/pages.py PAGE..

prints the faults of these pages alone, and how many words each has.
"""

import re
import sys
from pathlib import Path

# How many words pages should have, those of a row together. So they stay short enough to be read: a page that grows says less.
TARGETS = (
    (("README.md",), 850),
    (("CONTRIBUTING.md",), 1000),
    (("CHANGELOG.md", "SECURITY.md"), 500),
    (("docs/README.md",), 200),
    (("docs/COMMANDS.md",), 4200),
    (("docs/TUTORIAL.md", "docs/MIGRATION.md", "docs/ONE_FUNCTION.md"), 1800),
    (("docs/WORDS.md",), 350),
    (("docs/PROFILE.md",), 2800),
    (("docs/THEOREMS.md",), 3250),
    (("docs/GAPS.md",), 1100),
    (("docs/ARCHITECTURE.md",), 1000),
    (("docs/DECISIONS.md",), 1900),
    (("docs/PERFORMANCE.md",), 900),
    (("examples/*.md",), 640),
    (("crates/*/README.md",), 3000),
)
# How many hundredths more are let through.
ROOM = 10
# Words by which a page says less than plain English does, and what to write.
DIALECT = (
    (r"tell|tells|told|tellers?|telling", "print, report, name or distinguish"),
    (r"(?:asked|decided|spoken) about", "evaluate, and who does it"),
    (r"(?:said|spoken) of", "say about, and who does it"),
    (r"nothing is said", "name what is silent"),
    (r"(?:is|are|was|were) nobody's", "belongs to no user"),
    (r"who there is", "users and groups"),
    (r"(?:stand|stands|stood) on", "depend on"),
    (r"(?:stand|stands|stood) behind", "come after"),
    (r"whomever|whomsoever", "anybody who"),
)
# The same where a sentence begins: its object before its subject.
FIRST = ((r"Of (?:an?|each|several|two|those|these|which)", "the subject first"),)
SENTENCE = r"(?:(?<=[.:;!?] )|(?<=\A)|(?<=\n\n)|(?<=- )|(?<=\| ))"
FOUND = (
    *((re.compile(rf"(?<![\w`-])(?:{it})(?![\w-])", re.IGNORECASE), why) for it, why in DIALECT),
    *((re.compile(rf"{SENTENCE}(?:\*\*)?{it}\b"), why) for it, why in FIRST),
)
WRAPPED = re.compile(r"(?<!\n)\n(?! *\n| *[-|#*] ?| *\d+\. )")
CODE = re.compile(r"^```.*?^```$|^ {4}\S.*?$|`[^`]+`|\]\([^)\s]*\)", re.DOTALL | re.MULTILINE)


def words_in(text):
    """How many words a text has: what blanks separate, if a letter or a digit is in it."""
    return sum(1 for it in text.split() if re.search(r"\w", it))


def prose_of(text):
    """The text of a page with blanks in place of its code and of what its links lead to, so that each line and column stays."""
    return CODE.sub(lambda it: re.sub(r"[^\n]", " ", it[0]), text)


def dialect_in(text):
    """The words of a page that plain English has others for, with the numbers of their lines."""
    prose = prose_of(text)
    # Where a line is wrapped there is a blank, and no sentence begins.
    flat = WRAPPED.sub(" ", prose)
    found = [(it.start(), it[0], why) for pattern, why in FOUND for it in pattern.finditer(flat)]
    for at, words, why in sorted(found):
        yield prose.count("\n", 0, at) + 1, f"'{words}': write {why}"


def pages_of(top, globs):
    """The pages of a row of targets that are there."""
    return [path for it in globs for path in sorted(top.glob(it))]


def too_long(top):
    """Those pages that have more words than they may, each row by its first page, and why."""
    for globs, target in TARGETS:
        pages = pages_of(top, globs)
        count = sum(words_in(it.read_text()) for it in pages)
        if 100 * count > (100 + ROOM) * target:
            yield pages[0], f"{' and '.join(globs)} have {count} words, and {target} are enough"


def without_target(top):
    """The pages of the top and of docs/ for which no number of words is chosen."""
    known = {path for globs, _ in TARGETS for path in pages_of(top, globs)}
    return [it for folder in ("", "docs/") for it in sorted(top.glob(f"{folder}*.md")) if it not in known]


def main():
    for name in sys.argv[1:]:
        text = Path(name).read_text()
        for number, why in dialect_in(text):
            print(f"{name}:{number}: {why}")
        print(f"{name}: {words_in(text)} words")


if __name__ == "__main__":
    main()
