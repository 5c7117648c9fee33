"""What `impact --reach --all` answers, added up by user and by folder."""

from reporting.answers import IMPACT, Runs
from reporting.listing import folder_of, place_of

# How many changes, new paths and gone paths are named.
MOST_NAMED = 200
# How many kinds of changes are kept apart before they are added up, and how many of them in how many folders.
MOST_KINDS = 20_000
MOST_WAITING = 100_000


class UserChange:
    """In how many paths a user gains and loses something: of files that stayed, new ones and gone ones."""

    def __init__(self):
        self.lost = self.gained = self.lost_write = self.gained_write = self.new = self.gone = 0

    def add(self, lost, gained, became, times):
        """Adds what a user loses and gains on so many paths, which stayed or became new or gone."""
        if became:
            setattr(self, became, getattr(self, became) + times)
            return
        self.lost += times * (lost != b"-")
        self.gained += times * (gained != b"-")
        self.lost_write += times * (b"w" in lost)
        self.gained_write += times * (b"w" in gained)


class FolderChange:
    """How many paths in a folder changed, are new and are gone, and whom it concerns."""

    def __init__(self):
        self.differ = self.new = self.gone = 0
        self.names = set()


class Kind:
    """What is said of a path: whether it became new or gone, and who loses and gains what."""

    def __init__(self, lines):
        self.became = next((it[0].decode() for it in lines if len(it) == 1), "")
        self.differ = [it for it in lines if len(it) > 1]
        # Of how many paths this was said that aren't added up yet, and in which folders.
        self.times, self.folders = 0, set()


class Changes:
    """What changed between two listings."""

    def __init__(self):
        self.users, self.folders = {}, {}
        # By a line of an answer: its words, the path left out. By its text: what it says. How many of these wait to be added up, each
        # once for each folder.
        self.lines, self.kinds, self.waiting = {}, {}, 0
        self.named = {"differ": [], "new": [], "gone": []}
        self.counts = {"differ": 0, "new": 0, "gone": 0}

    def read(self, answer):
        """Reads an answer to its end."""
        for path, text in Runs(answer, IMPACT):
            self.put(path, self.kinds.get(text) or self.learn(text))
            if len(self.kinds) > MOST_KINDS or self.waiting > MOST_WAITING:
                self.add_up()
        self.add_up()

    def learn(self, text):
        """What a text says, by its lines, of which many stand in other texts too."""
        lines = text.split(b"\n")
        for it in lines:
            if it not in self.lines:
                words = it.split(b" ")
                self.lines[it] = words if len(words) == 1 else (words[1], *words[4:])
        self.kinds[text] = kind = Kind([self.lines[it] for it in lines])
        return kind

    def put(self, path, kind):
        """Takes down what is said of a path."""
        word = kind.became or "differ"
        self.counts[word] += 1
        if len(self.named[word]) < MOST_NAMED:
            self.named[word].append((path, kind.differ))
        place = place_of(path)
        over = folder_of(place)
        folder = self.folders.setdefault(place if over is None else over, FolderChange())
        setattr(folder, word, getattr(folder, word) + 1)
        kind.times += 1
        self.waiting += folder not in kind.folders
        kind.folders.add(folder)

    def add_up(self):
        """Adds up what was said of users."""
        for kind in self.kinds.values():
            names = {it[0] for it in kind.differ}
            for folder in kind.folders:
                folder.names |= names
            for name, lost, gained in kind.differ:
                self.users.setdefault(name, UserChange()).add(lost, gained, kind.became, kind.times)
        self.lines.clear()
        self.kinds.clear()
        self.waiting = 0
