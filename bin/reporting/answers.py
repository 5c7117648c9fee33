"""Answers of the program, read as they come: the lines about one path at once."""

import re

# How many bytes of an answer are read at once.
CHUNK = 1 << 20
# What stands before the path in lines of `who`, with `--via` and with permissions that were asked for, and how many words that is.
WHO = re.compile(rb"[r-][w-][x-] [^ \n]+"), lambda line: 2
VIA = re.compile(rb"[r-][w-][x-] [^ \n]+ (?:-|[a-z0-9:]+(?:,[a-z0-9:]+)*)"), lambda line: 3
GRANTED = re.compile(rb"[^ \n]+"), lambda line: 1
# The same of `impact`.
IMPACT = re.compile(rb"new|gone|differ(?: [^ \n]+){5}"), lambda line: 6 if line.startswith(b"differ ") else 1
# How many texts are kept in mind, and how many of the last are tried first.
MOST_KEPT = 20_000
MOST_RECENT = 8


class Unread(Exception):
    """A line that is none of the answers that are known."""

    def __str__(self):
        return f"aclctl answers in another form: {self.args[0][:200].decode(errors='backslashreplace').strip()}"


class Runs:
    """The runs of lines about one path: each its path and what stands before it in the lines, as one text.

    All lines of a run have one end, the path. Most runs have a text of those just before: these are tried first. Else the last line is
    looked for in a window that is a little longer than the run before, and then in a longer one, if the run goes on behind it."""

    def __init__(self, answer, form):
        self.answer, (self.shape, self.words) = answer, form
        self.all = re.compile(b"(?:(?:" + self.shape.pattern + b")\n)+")
        self.buffer, self.at, self.is_over = b"", 0, False
        self.window = 256
        # The texts there were, all of whose lines have the shape; and the last of them.
        self.texts, self.recent = {}, []

    def __iter__(self):
        while True:
            end = self.buffer.find(b"\n", self.at) + 1
            if not end and self.is_over:
                if self.at < len(self.buffer):
                    raise Unread(self.buffer[self.at :])
                return
            if not end:
                self.fill()
                continue
            yield self.repeated(end) or self.next(end)

    def repeated(self, end):
        """The next run, whose first line ends so, if it has one of the last texts; it is told then."""
        buffer, at = self.buffer, self.at
        for it in self.recent:
            if not buffer.startswith(it.first, at):
                continue
            tail = buffer[at + len(it.first) - 1 : end]
            after = at + it.size + it.count * len(tail)
            if not buffer.startswith(tail, after - len(tail)):
                continue
            # The run may go on.
            behind = buffer.find(b"\n", after) + 1
            if behind and not buffer.endswith(tail, after, behind) and buffer.startswith(it.lines.replace(b"\n", tail), at):
                self.at = after
                return tail[1:-1], it.text
        return None

    def next(self, end):
        """The next run, whose first line ends so; it is told then."""
        tail = self.tail(self.buffer[self.at : end])
        end = self.end(tail, end - self.at)
        told = self.buffer[self.at : end].replace(tail, b"\n")
        known = self.texts.get(told) or self.learn(told, tail)
        self.recent = [known, *(it for it in self.recent if it is not known)][:MOST_RECENT]
        length = known.size + known.count * len(tail)
        self.at += length
        self.window = length + length // 4 + 256
        return tail[1:-1], known.text

    def fill(self):
        """Reads more. What was told already is let go."""
        more = self.answer.read1(CHUNK)
        self.buffer, self.at, self.is_over = self.buffer[self.at :] + more, 0, not more

    def tail(self, line):
        """The end of a line, from the blank before its path."""
        words = self.words(line)
        parts = line.split(b" ", words)
        if len(parts) <= words:
            raise Unread(line)
        return b" " + parts[-1]

    def end(self, tail, first):
        """Where the last line ends that ends so, of those before which all lines may be of the next run."""
        while True:
            end = self.buffer.rfind(tail, self.at, self.at + max(first, self.window)) + len(tail)
            after = self.buffer.find(b"\n", end) + 1
            if not after and not self.is_over:
                self.fill()
            elif after and self.buffer.endswith(tail, end, after) and self.shape.fullmatch(self.buffer, end, after - len(tail)):
                self.window *= 2
            else:
                return end

    def learn(self, told, tail):
        """The text of a run, which has these lines, or the first of them: another path may end as its path does."""
        lines = told.split(b"\n")[:-1]
        count = len(lines)
        if not self.all.fullmatch(told):
            count = next((at for at, it in enumerate(lines) if not self.shape.fullmatch(it)), len(lines))
        if not count:
            raise Unread(lines[0] + tail)
        known = Known(lines[:count])
        if len(self.texts) >= MOST_KEPT:
            self.texts.clear()
        return self.texts.setdefault(known.lines, known)


class Known:
    """A text of a run: what stands before the path in each line; the lines so far, each with its end; the first, with the blank before
    the path; how many there are, and how many bytes."""

    def __init__(self, lines):
        self.text = b"\n".join(lines)
        self.lines, self.first = self.text + b"\n", lines[0] + b" "
        self.count, self.size = len(lines), sum(map(len, lines))
