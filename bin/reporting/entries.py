"""By which entries users reach files, as `who --via` names them, with the names of groups."""

from reporting.names import unescaped

# What each word of an entry is called; a group has its name.
WORDS = {b"owner": "owner", b"user": "by name", b"other": "anyone"}
# The sign of no entry, and a mask, which grants nothing.
NEITHER = (b"-", b"mask")


class Entries:
    """The ways in which something is granted: each by one entry or by some together, by numbers in the order of their first files."""

    def __init__(self, accounts):
        self.accounts = accounts
        # By its words, the number of a way; and of each its words.
        self.numbers, self.words = {}, []
        # By what the program says and by whom a block names, the number of the way.
        self.known = {}

    def number(self, via, named):
        """The number of a way that the program tells of a block, whose group is named first and then whom its NFSv4 entries name."""
        found = self.known.get((via, named))
        if found is None:
            words = tuple(sorted({self.word(it, named) for it in via.split(b",") if it not in NEITHER}))
            found = self.known[via, named] = self.numbers.setdefault(words, len(self.words))
            if found == len(self.words):
                self.words.append(words)
        return found

    def word(self, entry, named):
        """An entry: a word that is known, or the name of a group, which is bytes."""
        if entry.isdigit():
            entry = named[int(entry)] if int(entry) < len(named) else b"user"
        if entry == b"group":
            return 1, self.accounts.group(named[0])
        if entry.startswith(b"group:"):
            return 1, self.accounts.group(unescaped(entry[6:]))
        return 0, entry
