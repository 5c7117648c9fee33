"""What `who` answers, added up by folder and user."""

import re
from array import array

from reporting.answers import GRANTED, VIA, WHO, Runs, Unread
from reporting.entries import Entries
from reporting.folders import BITS, COUNTS, READ, WRITE, sum_of
from reporting.listing import folder_of, named_by, place_of
from reporting.names import unescaped

# Entries that say of which block they are, by its group or by their numbers.
DEPENDING = re.compile(rb"(?:^|,)(?:group(?:,|$)|[0-9])")
# How many kinds of answers are kept apart before they are added up, and how many of them in how many folders.
MOST_KINDS = 20_000
MOST_WAITING = 100_000
# How many paths are named that a user in no group may write.
MOST_NAMED = 200


class Users:
    """The users who reach something, by their numbers: 0 is one whom no account, entry or group has."""

    ANYBODY = 0

    def __init__(self):
        self.names = [None]
        self.numbers = {}

    def number(self, name):
        """The number of a user."""
        if name not in self.numbers:
            self.numbers[name] = len(self.names)
            self.names.append(name)
        return self.numbers[name]


def bits_of(letters):
    """Letters as a number."""
    return sum(BITS[it] for it in (letters[:1], letters[1:2], letters[2:]) if it != b"-")


# By the letters of a user, what is counted of a file.
COUNTED = [(READ if bits & BITS[b"r"] else 0) + (WRITE if bits & BITS[b"w"] else 0) for bits in range(8)]


class Kind:
    """What is said of a path: the letters of users, by their numbers, each with the number of the way in which they are granted."""

    def __init__(self, letters):
        self.letters = letters
        # In which folders files are of which this was said and that aren't added up yet, and how many; and what it says of a folder.
        self.waiting, self.letters_of, self.ways_of = {}, None, {}

    def of_folder(self):
        """Of a folder: the letters by the numbers of users, and by the number of a way the users who have some in it, each a bit."""
        if self.letters_of is None:
            self.letters_of = bytearray(1 + max(self.letters)[0])
            for user, bits, way in self.letters:
                self.letters_of[user] |= bits
                self.ways_of[way] = self.ways_of.get(way, 0) | 1 << user
        return self.letters_of, self.ways_of

    def sum(self):
        """What a folder counts of a file."""
        counts = array(COUNTS, bytes(8 * (1 + max(self.letters)[0])))
        for user, bits, _ in self.letters:
            counts[user] = COUNTED[bits]
        return sum_of(counts)

    def ways(self):
        """By the number of a way the users who read or write a file in it, each a bit."""
        found = {}
        for user, bits, way in self.letters:
            if COUNTED[bits]:
                found[way] = found.get(way, 0) | 1 << user
        return found


class Opened:
    """The paths that a user in no group may write: folders in which that user may delete what others own, folders with the sticky bit,
    in which nobody may, and others."""

    KINDS = FOLDERS, OTHERS, BOXES = "folders", "others", "boxes"

    def __init__(self):
        self.counts = dict.fromkeys(self.KINDS, 0)
        self.named = {it: [] for it in self.KINDS}

    def put(self, path, folder, may_search):
        """Takes down a path, and the folder that it is, if it is one. Nothing is deleted in a folder that can't be searched."""
        kind = self.OTHERS if not folder or not may_search else self.BOXES if folder.is_sticky else self.FOLDERS
        self.counts[kind] += 1
        if len(self.named[kind]) < MOST_NAMED:
            self.named[kind].append(path)

    def count(self):
        """How many there are of all kinds."""
        return sum(self.counts.values())


class Sums:
    """What users reach in the folders of a tree."""

    def __init__(self, tree):
        self.tree, self.users, self.entries = tree, Users(), Entries(tree.accounts)
        # By a line of an answer: the user, the letters and by which entries; and each that is the same of different lines. By its text and
        # whom the block names: what it says. How many of these wait to be added up, each once for each folder.
        self.said, self.letters, self.kinds, self.waiting = {}, {}, {}, 0
        # By the numbers of a user and of a way: how many files are read and written in it, in one number. By that of a way: by how many
        # files somebody is let in by it.
        self.of_ways, self.files = {}, {}
        # What stood before the name of the file before, and the folder that it is in.
        self.front, self.folder = None, None

    def kind(self, text, body):
        """What a text says of a path, behind which this stands in its block."""
        named = named_by(body)
        kind = self.kinds.get((text, named))
        if not kind:
            said = [self.said.get(it) or self.learn(it) for it in text.split(b"\n")]
            self.kinds[text, named] = kind = Kind([it if len(it) == 3 else self.resolve(it, named) for it in said])
        return kind

    def resolve(self, said, named):
        """What a line says that depends on whom a block names."""
        user, bits, via, _ = said
        found = user, bits, self.entries.number(via, named)
        return self.letters.setdefault(found, found)

    def learn(self, line):
        """What a line says: the number of the user, the letters, and the number of the way in which they are granted, or, if that depends on
        whom a block names, what the program says of it, and nothing."""
        letters, name, via = line.split(b" ")
        of_user = self.users.number(name), bits_of(letters)
        self.said[line] = found = (*of_user, via, None) if DEPENDING.search(via) else (*of_user, self.entries.number(via, ()))
        return found

    def read(self, answer, asked):
        """Reads an answer to its end, about blocks that were asked about."""
        for path, text, body, times in answered(Runs(answer, VIA), asked):
            self.put(path, self.kind(text, body), times)
            if len(self.kinds) > MOST_KINDS or self.waiting > MOST_WAITING:
                self.add_up(self.kinds.values())
                self.kinds.clear()
        self.add_up(self.kinds.values())
        self.kinds.clear()

    def put(self, path, kind, times):
        """Takes down what is said of a path, and of others that are alike."""
        folder = self.home(path)
        if not folder:
            self.tree.at[place_of(path)].add_letters(*kind.of_folder())
            return
        waiting = kind.waiting
        self.waiting += folder not in waiting
        waiting[folder] = waiting.get(folder, 0) + times

    def home(self, path):
        """The folder that a file of this path is in; None if it is a folder itself. Most files are in the folder of the one before."""
        front, _, name = path.rpartition(b"/")
        if front == self.front and name and name != b"." and b"\\" not in name:
            return None if path in self.tree.at else self.folder
        place = place_of(path)
        if place in self.tree.at:
            return None
        folder = self.tree.home(folder_of(place))
        # Of such a front the path is a place as it is.
        self.front, self.folder = (front if place == path and front else None), folder
        return folder

    def add_up(self, kinds):
        """Adds up what waits of these kinds, which are all that wait."""
        for kind in kinds:
            if not kind.waiting:
                continue
            found, ways, times = kind.sum(), kind.ways(), sum(kind.waiting.values())
            for folder, count in kind.waiting.items():
                folder.sum += found * count
                for way, users in ways.items():
                    folder.add_way(way, users)
            for user, bits, way in kind.letters:
                self.of_ways[user, way] = self.of_ways.get((user, way), 0) + COUNTED[bits] * times
            for way, users in ways.items():
                self.files[way] = self.files.get(way, 0) + (times if users >> 1 else 0)
            kind.waiting.clear()
        self.waiting = 0

    def read_anybody(self, answer, asked):
        """Reads the answer about a user in no group."""
        kinds = [Kind([(Users.ANYBODY, bits, self.entries.number(b"other", ()))]) for bits in range(8)]
        for path, text, _, times in answered(Runs(answer, WHO), asked):
            self.put(path, kinds[bits_of(text[:3])], times)
        self.add_up(kinds)

    def read_opened(self, answer, opened):
        """Reads which paths a user in no group may write, and takes them down."""
        for path, _ in Runs(answer, GRANTED):
            folder = self.tree.at.get(place_of(path))
            opened.put(path, folder, folder and folder.cell(Users.ANYBODY)[0] & BITS[b"x"])


class Heirs:
    """What a user who gets an id without an account could write: by ids, how many folders and how many files."""

    # No account has a greater id.
    GREATEST = 4_294_967_294

    def __init__(self, strangers, tree):
        ids = dict.fromkeys(number for (role, number), _ in strangers if role != "group" and 0 < number <= self.GREATEST)
        self.tree, self.counts = tree, {it: [0, 0] for it in ids}

    def read(self, answer, asked):
        """Reads the answer to which of them may write what."""
        for path, text, _, times in answered(Runs(answer, GRANTED), asked):
            is_file = place_of(path) not in self.tree.at
            for it in text.split(b"\n"):
                self.counts[int(it)][is_file] += times


def answered(runs, asked):
    """Of each run of lines: the path, the text, what stands behind the path in its block, and for how many that stands."""
    for path, text in runs:
        place = unescaped(path)
        body, times = next(((body, times) for at, body, times in asked if at == place), (None, 0))
        if not times:
            raise Unread(path)
        yield path, text, body, times
