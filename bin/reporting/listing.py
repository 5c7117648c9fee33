"""A listing as `getfacl -R` prints it: its blocks, its folders, and the ids that it names."""

import re
from collections import namedtuple

from reporting.names import unescaped

# A name that stands as it is behind a folder's path.
PLAIN = re.compile(rb"[^./\\\n][^/\\\n]*")
# The words for a file that a block may begin with, which are as long as each other.
HEADS = (b"# file: ", b"# File: ")
# How many bytes are read at once, and of how many one block may be.
CHUNK = 1 << 20
# How many texts of blocks are remembered, since most files of a share have one that others have.
REMEMBERED = 50_000
# How many different ids without an account are counted.
MOST_IDS = 10_000
# The ids from which one is taken that nobody has: the greatest that there are.
HIGH_IDS = range(4_294_967_294, 4_294_900_000, -1)
# The owner, the group, and whom an entry of an access or a default list names, by ids; and the same of an NFSv4 entry as
# nfs4_getfacl prints it, behind its flags.
ID_LINE = re.compile(rb"^(?:# (owner|group): |[ \t]*(?:default:)?(user|group|u|g):)([0-9]{1,10})(?::|$)", re.M)
ID_OF_NFS4 = re.compile(rb"^[ADUL]:([^:\n]*):([0-9]{1,10}):", re.M)
# What only a folder has: a default list, the sticky bit, or an NFSv4 entry, of either form, that files or folders in it inherit.
OF_FOLDER = re.compile(rb"^(?:default:|# flags: ..t|[ADUL]:[^:\n]*[fd]|[^#\n]*:[rwxpdDaARWcCos-]+:[inSFI-]*[fd][fdinSFI-]*:(?:allow|deny))", re.M)
ROLES = {b"owner": "owner", b"group": "group", b"user": "user", b"u": "user", b"g": "group"}

# The owner, with which what follows the path begins; and the flags of a file with the sticky bit.
OWNER = re.compile(rb"# owner: ([^\n]+)")
STICKY = re.compile(rb"^# flags: ..t", re.M)

GROUP = re.compile(rb"^# group: ([^\n]+)", re.M)
# Whom an NFSv4 entry names, as nfs4_getfacl prints it or as FreeBSD does.
WHOM = re.compile(rb"^(?:[ADUL]:([^:\n]*):([^:\n]+):|[ \t]*(user|group|owner@|group@|everyone@)(?::([^:\n]+))?:[rwxpdDaARWcCos-]+:[^:\n]*:(?:allow|deny))", re.M)

# What a block's text says besides its path: its ids without an account, whether only a folder can have it, whose it is, and whether it
# has the sticky bit.
Facts = namedtuple("Facts", "strangers is_folder owner is_sticky")


def blocks_of(listing):
    """The blocks of a listing: texts between empty lines."""
    rest = b""
    while True:
        chunk = listing.read(CHUNK)
        *blocks, rest = (rest + chunk).split(b"\n\n")
        if not chunk:
            blocks.append(rest)
        elif len(rest) > CHUNK:
            # No file has such a block. What it ends with says whether an empty line comes.
            rest = rest[:CHUNK] + rest[-1:]
        for block in blocks:
            block = block.strip(b"\n")
            if block:
                yield block
        if not chunk:
            return


def path_of(head):
    """The path that a block's first line gives; None if it gives none."""
    return head[len(HEADS[0]) :] if head.startswith(HEADS) and len(head) > len(HEADS[0]) else None


def place_of(path):
    """A path as it is, without the steps that lead nowhere: two paths with one place are those of one file, whatever of them is
    escaped."""
    path = unescaped(path)
    if b"/." in path or b"//" in path or path[:1] == b"." or path[-1:] == b"/":
        start = b"/" if path[:1] == b"/" else b""
        return start + b"/".join(it for it in path.split(b"/") if it not in (b"", b"."))
    return path


def folder_of(place):
    """The place of the folder that a place is in; None of a root."""
    cut = place.rfind(b"/")
    if cut > 0:
        return place[:cut]
    if cut == 0:
        return b"/" if len(place) > 1 else None
    return b"" if place else None


def named_by(body):
    """Whom a block names by what stands behind its path: its group, and the NFSv4 entries in their order."""
    group = GROUP.search(body)
    entries = map(whom_of, WHOM.finditer(body)) if b":allow" in body or b"\nA:" in body else ()
    return (group[1] if group else b"", *entries)


def whom_of(found):
    """Whom an NFSv4 entry names: `owner`, `group` of the file, `other` as everyone, or a group or a user by name or by id."""
    flags, who, tag, name = found.groups()
    if tag is None:
        special = {b"OWNER@": b"owner", b"GROUP@": b"group", b"EVERYONE@": b"other"}.get(who)
        return special or (b"group:" + who if b"g" in flags else b"user")
    if tag[-1:] == b"@":
        return {b"owner@": b"owner", b"group@": b"group"}.get(tag, b"other")
    return b"group:" + (name or b"") if tag == b"group" else b"user"


class Survey:
    """What a listing has, whoever may do something with it: how many blocks, which folders, how many
    blocks are in each, and which ids have no account."""

    def __init__(self, accounts):
        self.accounts = accounts
        self.blocks = 0
        # By the place of each folder that something is in: how many blocks are.
        self.inside = {}
        # By the place of each folder that has a block: as the listing writes it, and its owner; and the places of those with the
        # sticky bit.
        self.listed, self.owners, self.sticky = {}, {}, set()
        # How many blocks of a folder there are besides the first, which is no file either.
        self.repeated = {}
        # By (role, id): how many files, and the path of the first.
        self.strangers = {}
        self.high = set()
        self.facts = {}
        # What stood before the name in the path before, if that is the place of the folder, and that place; and how a block of another
        # name begins.
        self.front = self.folder = None
        self.word = b"\n"

    def read(self, listing, thinned=None):
        """Reads a listing to its end. One that is thinned meanwhile gets each block."""
        before, alike, files, inside, more = None, None, {}, self.inside, 0
        for block in blocks_of(listing):
            head, _, body = block.partition(b"\n")
            # Most files are like another of their folder.
            again = files.get(body)
            if again and head.startswith(self.word) and PLAIN.fullmatch(head, len(self.word)) and head[8:] not in inside:
                if alike:
                    thinned.counts[alike[0]] += 1
                alike, last, more = again, block, more + 1
                continue
            if alike:
                before = self.repeat(last, alike, more, thinned)
                alike, more = None, 0
            before = self.next(block, head, body, before, thinned)
            files = thinned.files if thinned else files
        if alike:
            self.repeat(last, alike, more, thinned)
        return self

    def repeat(self, block, alike, times, thinned):
        """Takes down so many files of the last folder, up to this block, which is like that of a number and of these facts. Returns its
        place, its path and its facts."""
        path = block[len(HEADS[0]) : block.index(b"\n")]
        self.blocks += times
        self.inside[self.folder] += times
        thinned.repeat(block, path, alike[0])
        return path, path, alike[1]

    def next(self, block, head, body, before, thinned):
        """Takes down a block, and the one before it. Returns its place, its path and its facts, if it has a path."""
        self.blocks += 1
        path, facts = path_of(head), self.facts.get(body) or self.learn(body)
        if path is None:
            before = self.folder = None
            self.turn_to(None)
        else:
            if facts.strangers:
                self.count_strangers(facts.strangers, path)
            before = self.put(path, facts, before, thinned)
        if thinned:
            is_file = self.front is not None and before[0] not in self.listed
            thinned.put(block, path, self.folder, is_file, body, facts)
        return before

    def turn_to(self, front):
        """That this stands before names from now on, if it is the place of a folder; no block begins with an end of a line."""
        self.front, self.word = front, HEADS[0] + front + b"/" if front else b"\n"

    def put(self, path, facts, before, thinned):
        """Counts a block in its folder. Returns its place, its path and its facts. The block before it is that of its folder, or of a
        file in that, or of what is deeper, if the listing is in order."""
        front, _, name = path.rpartition(b"/")
        if front == self.front and name[:1] not in (b"", b".") and b"\\" not in name:
            place, folder = path, front
        else:
            place = place_of(path)
            folder = folder_of(place)
            # Of such a front the path is a place as it is.
            self.turn_to(front if place == path and front else None)
        self.folder = folder
        if facts.is_folder or place in self.inside:
            if thinned and place in self.inside and place not in self.listed:
                thinned.is_behind()
            self.list(place, path, facts)
        if folder in self.inside:
            self.inside[folder] += 1
        else:
            self.inside[folder] = 1
            self.open(folder, before, thinned)
        return place, path, facts

    def open(self, folder, before, thinned):
        """Takes down that something is in a folder, of which the block before may be."""
        is_before = before and before[0] == folder
        if is_before and folder not in self.listed:
            self.list(*before)
        if thinned and is_before:
            thinned.is_folder()
        elif thinned:
            thinned.is_late(folder and folder_of(folder))

    def list(self, place, path, facts):
        """Takes down the block of a folder."""
        if place in self.listed:
            self.repeated[place] = self.repeated.get(place, 0) + 1
        else:
            self.listed[place], self.owners[place] = path, facts.owner
            if facts.is_sticky:
                self.sticky.add(place)

    def learn(self, body):
        """What a text says, kept for the next block that has it."""
        ids = {(ROLES[it[1] or it[2]], int(it[3])) for it in ID_LINE.finditer(body)}
        ids |= {("group" if b"g" in it[1] else "user", int(it[2])) for it in ID_OF_NFS4.finditer(body)}
        strangers = tuple(sorted(it for it in ids if not self.accounts.has(*it)))
        high = [number for role, number in ids if role != "group" and number in HIGH_IDS]
        self.high.update(high)
        owner = OWNER.match(body)
        facts = Facts(strangers, bool(OF_FOLDER.search(body)), owner[1] if owner else b"", bool(STICKY.search(body)))
        if len(self.facts) >= REMEMBERED:
            self.facts.clear()
        self.facts[body] = facts
        return facts

    def count_strangers(self, strangers, path):
        """Counts a file that names ids without an account."""
        for key in strangers:
            found = self.strangers.get(key)
            if found:
                found[0] += 1
            elif len(self.strangers) < MOST_IDS:
                self.strangers[key] = [1, path]

    def first_strangers(self, most):
        """The ids without an account that most files name, and what is known of each."""
        return sorted(self.strangers.items(), key=lambda it: (-it[1][0], it[0]))[:most]

    def nobody(self):
        """An id that neither an account nor the listing has: whoever has it is in no group."""
        return next(it for it in HIGH_IDS if it not in self.high and not self.accounts.has("user", it))
