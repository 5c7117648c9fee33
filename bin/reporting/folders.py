"""The folders of a listing as a tree, and what is added up for each of them."""

import sys
from array import array

from reporting.listing import folder_of

# A file that a user may read and one that a user may write, added up in one number.
READ, WRITE = 1 << 32, 1
# Such numbers, and the order in which those of all users stand beside each other in one that has no end.
COUNTS, ORDER = "Q", 1 if sys.byteorder == "little" else -1
# The letters that a user has on a folder.
BITS = {b"r": 4, b"w": 2, b"x": 1}


class Folder:
    """A folder, or the whole listing."""

    def __init__(self, name, level):
        self.name, self.level = name, level
        # Who owns it, as bytes, and whether who may write there may delete only what is one's own.
        self.owner, self.is_sticky = b"", False
        self.inner = []
        self.files = 0
        # By the number of a user: the letters on the folder itself, and the files that are read and written. While these are added
        # up, those of all users are one sum.
        self.letters = bytearray()
        self.counts, self.sum = array(COUNTS), 0
        # By the number of a way: the users who have letters in it on the folder, or read or write what is in it, each a bit.
        self.ways = {}

    def add_way(self, way, users):
        """Adds users who reach something in a way."""
        self.ways[way] = self.ways.get(way, 0) | users

    def ways_of(self, user):
        """The ways in which a user reaches something of the folder."""
        return [way for way, users in self.ways.items() if users >> user & 1]

    def add_letters(self, letters, ways):
        """Adds letters on the folder, by the numbers of users, and the ways in which they have them."""
        self.letters.extend(bytes(max(0, len(letters) - len(self.letters))))
        for user, bits in enumerate(letters):
            if bits:
                self.letters[user] |= bits
        for way, users in ways.items():
            self.add_way(way, users)

    def take(self, folder):
        """Adds what is in a folder that is in this one."""
        self.files += folder.files
        self.sum += folder.sum
        for way, users in folder.ways.items():
            self.add_way(way, users)

    def close(self):
        """Takes the sum apart: nothing is added any more."""
        numbers = -(-self.sum.bit_length() // 64)
        self.counts, self.sum = array(COUNTS, self.sum.to_bytes(8 * numbers, sys.byteorder))[::ORDER], 0

    def cell(self, user):
        """The letters of a user on the folder, and how many files in it and below the user reads and writes."""
        bits = self.letters[user] if user < len(self.letters) else 0
        counted = self.counts[user] if user < len(self.counts) else 0
        return bits, counted // READ, counted % READ


class Tree:
    """The folders of a listing: those that it has blocks of. Before all is the listing as a whole."""

    def __init__(self, survey):
        self.accounts, self.owners, self.sticky = survey.accounts, survey.owners, survey.sticky
        self.whole = Folder(b"", 0)
        self.at = {}
        self.homes = {}
        for place in sorted(survey.listed, key=lambda it: it.split(b"/")):
            self.grow(place, survey.listed[place])
        for place, blocks in survey.inside.items():
            self.home(place).files += blocks
        for place in survey.listed:
            self.home(folder_of(place)).files -= 1 + survey.repeated.get(place, 0)

    def grow(self, place, path):
        """Puts a folder into the one above it."""
        over = self.home(folder_of(place))
        folder = Folder(path, over.level + 1)
        folder.owner, folder.is_sticky = self.accounts.owner(self.owners[place]), place in self.sticky
        over.inner.append(folder)
        self.at[place] = folder

    def home(self, place):
        """The folder of the listing that a place is, or is in."""
        found, below = self.at.get(place) or self.homes.get(place), []
        if found:
            return found
        while place is not None and place not in self.at and place not in self.homes:
            below.append(place)
            place = folder_of(place)
        found = self.whole if place is None else self.at.get(place) or self.homes[place]
        self.homes.update((it, found) for it in below)
        return found

    def in_order(self, folder=None):
        """A folder and those in it, each before what is in it."""
        waiting = [folder or self.whole]
        while waiting:
            folder = waiting.pop()
            yield folder
            waiting.extend(reversed(folder.inner))

    def add_up(self):
        """Adds to each folder what is in those in it."""
        for folder in reversed([*self.in_order()]):
            for inner in folder.inner:
                folder.take(inner)
                inner.close()
        self.whole.close()


def sum_of(counts):
    """The sum of these counts, which are by the number of a user."""
    return int.from_bytes(counts[::ORDER].tobytes(), sys.byteorder)
