"""Listings of real files: made by getfacl, and compared by the program."""

import contextlib
import os
import re
import shutil
import stat
import subprocess
import threading

from reporting.program import COMPARISON

# What getfacl says of a file that was there when it read the folder, and no longer when it looked at the file.
VANISHED = re.compile(rb"getfacl: (.*): No such file or directory", re.DOTALL)
# The statuses of the program with which there is an answer.
ANSWERED = (0, 4)
# How many lines that another program says are told.
MOST_TOLD = 20


class NotWhole(Exception):
    """Why a listing isn't whole, or two weren't compared."""


def first_of(lines):
    """The first of these lines, each in a line of its own below another."""
    more = [f"and {len(lines) - MOST_TOLD} lines more"] if len(lines) > MOST_TOLD else []
    return "".join(f"\n{it}" for it in [*(line.decode(errors="surrogateescape") for line in lines[:MOST_TOLD]), *more])


def copied(stream, name):
    """Copies what comes to its end into a file, which is kept even if the power fails then."""
    try:
        with open(name, "wb") as out:
            shutil.copyfileobj(stream, out, 1 << 20)
            out.flush()
            os.fsync(out.fileno())
    except OSError as fault:
        raise NotWhole(f"cannot write {name}: {fault.strerror}") from None


def list_files(paths, name, front=()):
    """Writes what getfacl lists of these paths into a file; other words may stand in front of its own. Returns the paths of files that
    vanished meanwhile, as getfacl writes them. What else it has to say, and a path of these that isn't there, is a fault."""
    words = [*front, "getfacl", "-Rnp", "--", *paths]
    try:
        how = {"stdin": subprocess.DEVNULL, "stdout": subprocess.PIPE, "stderr": subprocess.PIPE, "env": {**os.environ, "LC_ALL": "C"}}
        asked = subprocess.Popen(words, **how)
    except OSError as fault:
        raise NotWhole(f"cannot run {words[0]}: {fault.strerror}") from None
    said = []
    listener = threading.Thread(target=lambda: said.extend(it.rstrip(b"\n") for it in asked.stderr))
    listener.start()
    try:
        copied(asked.stdout, name)
    finally:
        asked.stdout.close()
        status = asked.wait()
        listener.join()
        asked.stderr.close()
    given = {os.fsencode(it) for it in paths}
    vanished = [it[1] for it in map(VANISHED.fullmatch, said) if it and it[1] not in given]
    faults = [it for it in said if not (found := VANISHED.fullmatch(it)) or found[1] in given]
    if faults or status not in (0, 1) or status == 1 and not vanished:
        raise NotWhole(f"getfacl ended with status {status}, and the listing isn't whole{first_of(faults)}")
    if not os.path.getsize(name):
        raise NotWhole("getfacl listed no file")
    return vanished


def compare(program, accounts, before, after, changes):
    """Writes what the program tells of two listings into a file. Returns whether each block was answered, and what it says of those
    that weren't."""
    whom = ["--accounts", accounts] if accounts else []
    words = [program, *COMPARISON, *whom, str(before), str(after)]
    try:
        with open(changes, "wb") as out:
            ran = subprocess.run(words, stdin=subprocess.DEVNULL, stdout=out, stderr=subprocess.PIPE)
            os.fsync(out.fileno())
    except OSError as fault:
        raise NotWhole(f"cannot compare: {fault.filename or changes}: {fault.strerror}") from None
    if ran.returncode not in ANSWERED:
        raise NotWhole(f"aclctl ended with status {ran.returncode}{first_of(ran.stderr.splitlines())}")
    return ran.returncode == 0, ran.stderr


def is_own(folder):
    """Makes a folder, if it isn't there, and tells whether nobody but this user can write in it. Else another may have put there what is
    read or run, or a link in the way of what is written."""
    with contextlib.suppress(FileExistsError):
        os.mkdir(folder, 0o700)
    found = os.lstat(folder)
    return stat.S_ISDIR(found.st_mode) and found.st_uid == os.geteuid() and not found.st_mode & 0o022


def shown(raw):
    """Bytes for a message: those that would steer a terminal are escaped."""
    return re.sub(rb"[\0-\x1f\x7f]", lambda it: b"\\%03o" % it[0][0], raw)
