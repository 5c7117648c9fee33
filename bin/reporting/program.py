"""The program that scripts ask, and what they say on standard error."""

import os
import shutil
import sys
from pathlib import Path

# How two listings are compared, as words of the program before those of accounts and listings: by what each user reaches.
COMPARISON = ("impact", "--reach", "--all")


class NoProgram(Exception):
    """Why the program can't be asked."""


def program_of(here):
    """The program: the one beside a script, or else the one on the path."""
    beside = here / "aclctl"
    found = str(beside) if beside.is_file() else shutil.which("aclctl")
    if not found:
        raise NoProgram("cannot find aclctl")
    return found


def tell(text):
    """Writes a line to standard error, after the name of the script, which it is installed by. Bytes are written as they are."""
    name = os.fsencode(Path(sys.argv[0]).name)
    raw = text if isinstance(text, bytes) else str(text).encode(errors="surrogateescape")
    sys.stderr.buffer.write(name + b": " + raw + b"\n")
    sys.stderr.buffer.flush()
