"""Runs the program, and keeps what it says of blocks that aren't answered."""

import os
import re
import shutil
import stat
import subprocess
import tempfile
import threading

# How many lines are kept that the program says on standard error.
MOST_KEPT = 200
# The end of what it says if not every block was answered.
NOT_ANSWERED = re.compile(rb"aclctl: (.*): ([0-9]+) of ([0-9]+) files were not answered$")
# What it says of ids without an account, which have a place of their own on the page.
STRANGERS = re.compile(rb"aclctl: .*: [0-9]+ of [0-9]+ files name ids without an account, .*")
# The statuses with which there is an answer.
ANSWERED = (0, 4)
# How much the pipe of an answer holds, if the system lets it.
PIPE = 1 << 20


class NoPage(Exception):
    """Why there is no page."""


def as_file(name, room):
    """A file of this name that can be read more than once, under a name that isn't like an option. What comes through a pipe is kept
    in the room meanwhile."""
    try:
        with open(0 if name == "-" else name, "rb", closefd=name != "-") as source:
            if name != "-" and stat.S_ISREG(os.fstat(source.fileno()).st_mode):
                return f"./{name}" if name.startswith("-") else name
            handle, path = tempfile.mkstemp(dir=room)
            with open(handle, "wb") as kept:
                shutil.copyfileobj(source, kept, 1 << 20)
            return path
    except OSError as fault:
        raise NoPage(f"cannot read {name}: {fault.strerror}") from None


class Said:
    """What the program says on standard error of listings: the first lines, and how many blocks aren't answered, by listing."""

    def __init__(self, names):
        # By the word that the program was given: how the page calls the listing.
        self.names = {word.encode(errors="surrogateescape"): name.encode(errors="surrogateescape") for word, name in names.items()}
        self.lines, self.more = [], 0
        self.unanswered = {}

    def read(self, stream):
        """Reads lines to their end."""
        for line in stream:
            line = line.rstrip(b"\n")
            if counted := NOT_ANSWERED.fullmatch(line):
                self.unanswered[self.called(counted[1])] = int(counted[2])
            elif STRANGERS.fullmatch(line):
                continue
            elif len(self.lines) < MOST_KEPT:
                self.lines.append(self.renamed(line))
            else:
                self.more += 1

    def add(self, other, listing):
        """Takes what was said another time, but for what was said of this listing then."""
        front = f"aclctl: {listing}:".encode(errors="surrogateescape")
        self.lines.extend(it for it in other.lines if not it.startswith(front))
        self.more += other.more
        self.unanswered = {**other.unanswered, **self.unanswered}

    def called(self, word):
        """How the page calls the listing of a word."""
        return self.names.get(word, word)

    def renamed(self, line):
        """A line that names listings as the page does."""
        for word, name in self.names.items():
            front = b"aclctl: " + word + b":"
            if line.startswith(front):
                return b"aclctl: " + name + line[len(front) - 1 :]
        return line


def ask(program, words, listing, names, read):
    """Runs the program with these words and the listing on standard input, and has its answer read. Returns what it said."""
    said = Said(names)
    try:
        with open(listing, "rb") as source:
            asked = subprocess.Popen([program, *words], stdin=source, stdout=subprocess.PIPE, stderr=subprocess.PIPE)
    except OSError as fault:
        raise NoPage(f"cannot run {program}: {fault.strerror}") from None
    widen(asked.stdout)
    listener = threading.Thread(target=said.read, args=(asked.stderr,))
    listener.start()
    try:
        read(asked.stdout)
    finally:
        asked.stdout.close()
        status = asked.wait()
        listener.join()
        asked.stderr.close()
    if status not in ANSWERED:
        told = "".join(f"\n{it.decode(errors='backslashreplace')}" for it in said.lines[:20])
        raise NoPage(f"aclctl {words[0]} ended with status {status}{told}")
    return said


def widen(pipe):
    """Lets a pipe hold more, where the system can."""
    try:
        import fcntl

        fcntl.fcntl(pipe.fileno(), getattr(fcntl, "F_SETPIPE_SZ", 1031), PIPE)
    except (ImportError, OSError):
        return
