"""Names and paths as getfacl and the program write them, and as they are."""

import re

# A byte as it is escaped: a backslash by another, any other by its octal digits.
ESCAPED = re.compile(rb"\\(\\|[0-3][0-7]{2})")


def unescaped(raw):
    """A name or a path as it is, of one that is written so."""
    return ESCAPED.sub(lambda it: b"\\" if it[1] == b"\\" else bytes([int(it[1], 8)]), raw) if b"\\" in raw else raw


def name_text(raw):
    """A name as the program writes it."""
    return re.sub(rb"[\0-\x20\x7f\\]", lambda it: b"\\%03o" % it[0][0], raw)


def path_text(raw):
    """A path as the program writes it: without bytes that steer a terminal or end a line."""
    return re.sub(rb"[\0-\x1f\x7f\\]", lambda it: b"\\\\" if it[0] == b"\\" else b"\\%03o" % it[0][0], raw)
