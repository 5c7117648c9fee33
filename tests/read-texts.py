#!/usr/bin/env python3
"""Reads cut and bent texts of access control lists as docs/PROFILE.md says, apart from the code, and prints what each comes to.

    tests/read-texts.py [--check | --write]

The tests of hostile texts in crates/tests_lists hold these tables. A row is for one way to bend a
text: cut off at each place in turn, or with the byte at each place in turn replaced. A character
stands for one place: the number of entries that are read, or the fault of the first faulty piece
(S syntax, U unknown name, I inherit-only). Over a row stands the text, a column for each byte, with
| for a newline: in the tests as a comment, which --write writes over each row.

With --check it compares the texts, the rows and these comments that the tests hold with its own,
prints what differs and at last 'N passed, M failed', and ends with status 1 if something differs.
"""
import ast
import re
import sys
from pathlib import Path

from texts import SetupNames, entry, fields, pieces

USERS = {"root": 0, "alice": 1000, "bob": 1001, "carol": 1002}
GROUPS = {"root": 0, "staff": 50, "ops": 60, "guest": 70}
DOMAIN = b"example.org"
MODE_SET = b"A::OWNER@:rwatTcC,A::bob@example.org:rwa,A:g:ops@example.org:r,A::EVERYONE@:r"
LONG_FORMS = b"user : : rwx , g::r-x\nmask:rwx # all\nother:r"
# How a newline is shown where each byte of a text has a column.
NEWLINE = "|"
BYTES = (None, 0, ord(":"), ord(","), ord("#"), ord("\n"), 0x80)


def each_once(letters, table):
    return all(letters.count(it) == 1 and it in table for it in letters)


def ace(piece):
    parts = fields(piece)
    if len(parts) != 4:
        return "S"
    kind, flags, who, letters = parts
    if kind not in (b"A", b"D", b"U", b"L") or not each_once(flags, b"fdniSFg") or not each_once(letters, b"rwaxdDtTnNcCoy"):
        return "S"
    names = GROUPS if b"g" in flags else USERS
    if who in (b"OWNER@", b"GROUP@", b"EVERYONE@"):
        known = True
    else:
        found = SetupNames(names, DOMAIN).read(who)
        known = None if found == "S" else found != "U"
    if known is None:
        return "S"
    if not known:
        return "U"
    return "I" if b"i" in flags and b"f" not in flags and b"d" not in flags else ""


def entry_fault(piece):
    """The fault of a piece as a POSIX entry, if it has one."""
    read = entry(piece, SetupNames(USERS), SetupNames(GROUPS))
    return read if isinstance(read, str) else ""


def outcome(read, text):
    faults = [read(piece) for piece in pieces(text)]
    return next((fault for fault in faults if fault), str(len(faults)))


def row(read, text, byte):
    bent = (text[:i] if byte is None else text[:i] + bytes([byte]) + text[i + 1 :] for i in range(len(text)))
    return "".join(outcome(read, it) for it in bent)


TESTS = Path(__file__).resolve().parent.parent / "crates/tests_lists/src"
# The readers of both styles: how a piece is read, the folder of the tests, the text of this
# style, and that of the other.
STYLES = {
    "POSIX": (entry_fault, "posix", LONG_FORMS, MODE_SET),
    "NFSv4": (ace, "nfs4", MODE_SET, LONG_FORMS),
}


def shown(text):
    """A text with a column for each byte."""
    made = text.decode("latin-1").replace("\n", NEWLINE)
    if NEWLINE.encode() in text or not (made.isascii() and made.isprintable()):
        sys.exit(f"tests/read-texts.py: {text!r} has a byte for which there is no column")
    return made


def with_texts(code, text):
    """A file of tests with a text over each of its rows, so that each byte stands over the letter of its place."""

    def with_text(found):
        """The beginning of a row with the text over it, in place of the comments over it."""
        indent, opening = found.groups()
        column = len(f"{indent}{opening}".rpartition("\n")[2])
        return f"{f'{indent}//':{column}}{shown(text)}\n{indent}{opening}"

    return re.sub(r'^(?: *//.*\n)*( *)(\(\s*(?:None|Some\([^)]*\)),\s*")', with_text, code, flags=re.MULTILINE)


def comments_in(code):
    """The comments of a file of tests that have a line of their own, with their numbers."""
    lines = enumerate(code.split("\n"), 1)
    return [(number, line) for number, line in lines if re.match(r" *//(?![/!])", line)]


def print_tables():
    """Prints what each text comes to, for each reader and each way to bend the text."""
    for what, (read, *_) in STYLES.items():
        for text in (LONG_FORMS, MODE_SET):
            print(what, repr(text.decode()))
            print("        ", shown(text))
            for byte in BYTES:
                print("   ", "cut " if byte is None else f"{byte:#04x}", row(read, text, byte))


def byte_named(text):
    """The byte that the tests write as None, Some(0) or Some(b':')."""
    found = re.fullmatch(r"Some\((.*)\)", text)
    value = ast.literal_eval(found[1]) if found else None
    return value[0] if isinstance(value, bytes) else value


def rows_held(code):
    """The rows that a file of tests holds, by their bytes."""
    rows = re.findall(r'\(\s*(None|Some\([^)]*\)),\s*"([^"]*)",?\s*\)', code)
    return {byte_named(byte): row for byte, row in rows}


def bytes_that_leave_nothing(code):
    """The bytes with which a file of tests says that nothing is left of a text of the other
    style, whose first place is 0 then."""
    said = re.search(r"let nothing_left = (.*);", code)[1]
    named = {byte_named(it) for it in re.findall(r"Some\([^)]*\)", said)}
    return named | ({None} if "is_none" in said else set())


def comparisons():
    """What the tests hold, and what it should be, each with the words for it."""
    code = (TESTS / "bent.rt").read_text()
    for name, text in (("ENTRIES", LONG_FORMS), ("ACES", MODE_SET)):
        held = re.search(rf'const {name}: &str =\s*("[^"]*");', code)[1]
        yield f"the text {name}", ast.literal_eval(held), text.decode()
    for what, (read, folder, own, other) in STYLES.items():
        code = (TESTS / folder / "hostile.rt").read_text()
        yield f"the bytes of {what}", sorted(map(str, rows_held(code))), sorted(map(str, BYTES))
        for byte in BYTES:
            yield f"the row of {what} for {byte}", rows_held(code).get(byte), row(read, own, byte)
            first = "0" if byte in bytes_that_leave_nothing(code) else "S"
            held = first + "S" * (len(other) - 1)
            yield f"the other style's row of {what} for {byte}", held, row(read, other, byte)
        yield f"the texts over the rows of {what}", comments_in(code), comments_in(with_texts(code, own))


def write():
    """Writes the texts over the rows of the tests, and leaves all else as it is."""
    for _, folder, own, _ in STYLES.values():
        path = TESTS / folder / "hostile.rt"
        path.write_text(with_texts(path.read_text(), own))


def check():
    """Prints where the tests hold something else than is worked out here, and returns the status with which the script ends."""
    passed = failed = 0
    for what, held, wanted in comparisons():
        passed, failed = passed + (held == wanted), failed + (held != wanted)
        if held != wanted:
            print(f"FAILED {what}: the tests hold {held!r}, and it is {wanted!r}")
    print(f"{passed} passed, {failed} failed")
    return 1 if failed else 0


if __name__ == "__main__":
    ways = {(): print_tables, ("--check",): check, ("--write",): write}
    if tuple(sys.argv[1:]) not in ways:
        sys.exit("usage: tests/read-texts.py [--check | --write]")
    sys.exit(ways[tuple(sys.argv[1:])]())
