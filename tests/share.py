"""A share as houses have it, what its administrators do with it in a week, and what its lists decide, worked out apart from the program.

Four teams have folders with the setgid bit and default lists, with plans in them; each user has a home; there are a folder that all read, a
drop box with the sticky bit and one that lacks it by mistake. Names hold blanks, newlines, backslashes, control bytes and bytes that are no
UTF-8. Some files are a user's who has no account, and some lists name one; some have masks that take something away.
"""

import re

from kernel import BASE
from model import linux_list, posix_grants

# Groups by their numbers here; everybody is staff.
STAFF, TEAMS = 0, {"finance": 10, "people": 11, "sales": 12, "press": 13}
NAMES = ("alice", "bob", "carol", "dora", "emil", "fay", "gus", "hal", "ida", "jon", "kim", "leo", "mia", "ned", "ora", "pia", "quinn")
NAMES += ("rosa", "CORP\\sam", "tom of it")
ROOT, GONE = 0, 990
# How many plans a team has, and how many files each of them.
PLANS, FILES = 4, 110
ODD = (b"two words", b"line\nline", b"back\\slash", b"\xff\xfe", b"caf\xc3\xa9", b"esc\x1b[1m", b"tab\t", b"=1+1", b"'quoted")
TAGS = {"u": "user", "g": "group", "m": "mask", "o": "other"}
LETTERS = "rwx"


class User:
    """Somebody who has an account: the name, the number, and the numbers of the groups, the first of which is staff."""

    def __init__(self, at, name):
        own = [gid for place, gid in enumerate(TEAMS.values()) if at % 4 == place or at % 5 == 0 and (at // 5) % 4 == place]
        self.name, self.number, self.groups = name.encode(), at + 1, (STAFF, *own)
        self.uid, self.gids = at + 1 + BASE, tuple(it + BASE for it in self.groups)


class Stranger:
    """Somebody in no group, whom no list names."""

    name, uid, gids = b"4294967294", 4294967294, ()


USERS = [User(at, name) for at, name in enumerate(NAMES)]
UIDS = {it.name.decode(): it.uid for it in USERS}


def accounts():
    """Who there is, as `getent passwd; getent group` prints it."""
    lines = [b"root:x:0:0:::", *(b"%s:x:%d:%d:::" % (it.name, it.uid, it.gids[0]) for it in USERS)]
    for name, gid in (("staff", STAFF), *TEAMS.items()):
        members = b",".join(it.name for it in USERS if gid in it.groups[1:])
        lines.append(b"%s:x:%d:%s" % (name.encode(), gid + BASE, members))
    return b"".join(it + b"\n" for it in lines)


def host_id(number):
    """The id here of a number of this share; the root is the host's."""
    return number + BASE if number != ROOT else 0


def letters(bits):
    """Three bits as letters."""
    return "".join(it for it, bit in zip(LETTERS, (4, 2, 1)) if bits & bit)


def list_of_mode(mode, named=()):
    """The list that a mode has, with these entries besides, under a mask that takes nothing from them."""
    found = [("u", "", letters(mode >> 6 & 7)), *named, ("g", "", letters(mode >> 3 & 7)), ("o", "", letters(mode & 7))]
    return masked(found) if named else found


def masked(entries):
    """The list with the mask that setfacl reckons for it."""
    left = [it for it in entries if it[0] != "m"]
    of_mask = {it for tag, name, perms in left if tag == "g" or name != "" for it in perms}
    return [*left, ("m", "", "".join(it for it in LETTERS if it in of_mask))]


def entry_text(entry):
    """An entry as getfacl prints it."""
    tag, name, perms = entry
    return f"{TAGS[tag]}:{name}:" + "".join(it if it in perms else "-" for it in LETTERS)


def in_order(entries):
    """The entries in the order in which getfacl prints them."""
    return sorted(entries, key=lambda it: ("ugmo".index(it[0]), it[1] != "", it[1] or 0))


def escaped(path):
    """A path as getfacl prints it."""
    return path.replace(b"\\", b"\\\\").replace(b"\n", b"\\012").replace(b"\r", b"\\015")


class Node:
    """A file or a folder: whose it is, its flags, its access list, and its default list."""

    def __init__(self, path, owner, group, mode, named=(), default=()):
        self.path, self.is_folder = path.rstrip(b"/"), path.endswith(b"/")
        self.owner, self.group, self.flags = host_id(owner), group + BASE, mode >> 9
        self.entries, self.default = list_of_mode(mode, named), list(default)

    def is_sticky(self):
        """Whether who may write in the folder may delete there only what is one's own."""
        return bool(self.flags & 1)

    def has(self, user, asked):
        """Whether its own list grants all of these letters at once."""
        return posix_grants(linux_list(self.entries), self.owner, self.group, user.uid, user.gids, set(asked))

    def chmod(self, mode):
        """What chmod does to it: the mask, if there is one, stands for the group."""
        self.flags = mode >> 9
        of_group = "m" if any(tag == "m" for tag, _, _ in self.entries) else "g"
        bits = {("u", ""): mode >> 6 & 7, (of_group, ""): mode >> 3 & 7, ("o", ""): mode & 7}
        self.entries = [(tag, name, letters(bits[tag, name]) if (tag, name) in bits else perms) for tag, name, perms in self.entries]

    def put(self, tag, name, perms):
        """What `setfacl -m` does to its access list."""
        self.entries = masked([*(it for it in self.entries if it[:2] != (tag, name)), (tag, name, perms)])

    def body(self):
        """Its block of a listing behind the path."""
        lines = [f"# owner: {self.owner}", f"# group: {self.group}"]
        lines += ["# flags: " + "".join(it if self.flags & bit else "-" for it, bit in zip("sst", (4, 2, 1)))] * bool(self.flags)
        lines += [entry_text(it) for it in in_order(self.entries)]
        lines += [f"default:{entry_text(it)}" for it in in_order(self.default)]
        return "".join(f"{it}\n" for it in lines).encode()


def created(folder, user, mode, umask):
    """The list and the group of what a user creates in a folder with this mode, as Linux makes them."""
    if not folder.default:
        entries = list_of_mode(mode & ~umask)
    else:
        of_group = "m" if any(tag == "m" for tag, _, _ in folder.default) else "g"
        bits = {("u", ""): mode >> 6 & 7, (of_group, ""): mode >> 3 & 7, ("o", ""): mode & 7}
        met = lambda key, perms: "".join(it for it in perms if key not in bits or it in letters(bits[key]))
        entries = [(tag, name, met((tag, name), perms)) for tag, name, perms in folder.default]
    return entries, folder.group if folder.flags & 2 else user.gids[0]


def name_of(number):
    """The name of a file: each tenth is odd."""
    return b"%03d" % number if number % 10 else b"%03d %s" % (number, ODD[number // 10 % len(ODD)])


class Share:
    """The files and folders by their paths, each folder before what is in it."""

    def __init__(self, top):
        self.top, self.nodes = top, {}
        # What was worked out already, by user and path: it is asked once the share is as it stays.
        self.known = {}
        self.add(b"", ROOT, STAFF, 0o755)
        for place, (team, gid) in enumerate(TEAMS.items()):
            self.add_team(team.encode() + b"/", gid, [it for it in USERS if gid in it.groups], place)
        for user in USERS:
            home = b"home/%d/" % user.number
            self.add_folders(b"home/", home, user.number, STAFF, 0o700)
            for at, mode in enumerate((0o644, 0o600, 0o666, 0o640)):
                self.add(home + b"note %d" % at, user.number, STAFF, mode)
        for folder, mode in ((b"public/", 0o755), (b"box/", 0o1777), (b"open/", 0o777)):
            self.add(folder, ROOT, STAFF, mode)
            for at in range(30):
                self.add(folder + name_of(at), USERS[at % len(USERS)].number, STAFF, 0o644)

    def add(self, path, *words, **more):
        """Adds a file, or a folder, whose path below the top ends with a slash."""
        node = Node(self.top + b"/" + path, *words, **more)
        self.nodes[node.path] = node
        return node

    def add_folders(self, over, folder, *words):
        """Adds a folder of the one above it, which may be new too."""
        if (self.top + b"/" + over).rstrip(b"/") not in self.nodes:
            self.add(over, ROOT, STAFF, 0o755)
        self.add(folder, *words)

    def add_team(self, folder, gid, members, place):
        """Adds a team's folder, which the press opens to all, and its plans. What is created in one of these anyone may read by its
        own list."""
        is_press = gid == TEAMS["press"]
        named = [("g", gid + BASE, "rwx")]
        self.add(folder, ROOT, gid, 0o2775 if is_press else 0o2770, default=list_of_mode(0o770, named))
        for plan in range(PLANS):
            inner = folder + b"plan %d/" % plan
            default = list_of_mode(0o775 if plan == 3 else 0o770, named)
            above = self.add(inner, members[plan % len(members)].number, gid, 0o2775 if plan == 3 else 0o2770, named, default)
            for at in range(FILES):
                owner = GONE if at % 50 == 49 else members[at % len(members)].number
                node = self.add(inner + name_of(at), owner, gid, 0o600)
                node.entries = created(above, members[0], 0o666, 0)[0]
                if at % 7 == 3:
                    node.put("u", UIDS["carol"], "rw")
                if at % 25 == 8:
                    node.put("u", GONE + 1 + BASE, "r")
                if at % 11 == 5:
                    node.put("u", USERS[(at + place) % len(USERS)].uid, "rwx")
                    node.chmod(0o640)

    def at(self, path):
        """The file or folder of a path below the top."""
        return self.nodes[(self.top + b"/" + path).rstrip(b"/")]

    def above(self, node):
        """The folders above a path, the nearest first."""
        path = node.path
        while (path := path[: path.rfind(b"/")]) in self.nodes:
            yield self.nodes[path]

    def is_reached(self, user, node):
        """Whether the user passes each folder above."""
        folder = next(self.above(node), None)
        return not folder or "x" in self.reach(user, folder)

    def reach(self, user, node):
        """The letters that the user has of a path by way of the folders above."""
        key = user.uid, user.gids, node.path
        if key not in self.known:
            self.known[key] = "".join(it for it in LETTERS if node.has(user, it)) if self.is_reached(user, node) else ""
        return self.known[key]

    def may_delete(self, user, node):
        """Whether the user may delete, rename or replace what is there. Of the top it isn't known."""
        folder = next(self.above(node), None)
        if not folder or not self.is_reached(user, node) or not folder.has(user, "wx"):
            return False
        return not folder.is_sticky() or user.uid in (folder.owner, node.owner)

    def folders(self):
        """The folders, in order."""
        return [it for it in self.nodes.values() if it.is_folder]

    def inside(self, folder):
        """The files in a folder and below."""
        return [it for it in self.nodes.values() if not it.is_folder and it.path.startswith(folder.path + b"/")]

    def listing(self):
        """What getfacl prints of it: each folder before all that is in it."""
        nodes = sorted(self.nodes.values(), key=lambda it: it.path.split(b"/"))
        return b"".join(b"# file: %s\n%s\n" % (escaped(it.path), it.body()) for it in nodes)

    def changes(self, later, users):
        """Where what users reach differs in a later share: (what, user, lost, gained, path), and the same of what is new or gone."""
        for path in (*later.nodes, *(it for it in self.nodes if it not in later.nodes)):
            if path not in self.nodes or path not in later.nodes:
                yield "new" if path in later.nodes else "gone", None, None, None, path
            for user in users:
                old, new = (it.reach(user, it.nodes[path]) if path in it.nodes else "" for it in (self, later))
                if old != new:
                    without = lambda one, other: "".join(it for it in one if it not in other) or "-"
                    yield "differ", user.name, without(old, new), without(new, old), path


def blocks_of(listing):
    """The blocks of a listing by their paths, without remarks on what a mask leaves."""
    found = {}
    for block in re.sub(rb"\t+#effective:...", b"", listing).split(b"\n\n")[:-1]:
        head, _, body = block.partition(b"\n")
        found[head.removeprefix(b"# file: ")] = body + b"\n"
    return found


# What is done in a week, to which path below the top: by which command, and to the share that is worked out. A home is opened; a user and a
# team get entries, of which one is behind a closed door; the sticky bit goes; one file comes, one goes, and one is another's.
WEEK = (
    (("chmod", "755"), b"home/4", lambda node: node.chmod(0o755)),
    (("setfacl", "-m", f"u:{UIDS['carol']}:rwx"), b"finance/plan 0", lambda node: node.put("u", UIDS["carol"], "rwx")),
    (("setfacl", "-m", f"g:{TEAMS['press'] + BASE}:rx"), b"people", lambda node: node.put("g", TEAMS["press"] + BASE, "rx")),
    (("chmod", "777"), b"box", lambda node: node.chmod(0o777)),
    (("chmod", "700"), b"public", lambda node: node.chmod(0o700)),
    (("chown", str(UIDS["bob"])), b"open/001", lambda node: setattr(node, "owner", UIDS["bob"])),
)
NEW, REMOVED = b"box/new\nfile", b"open/" + name_of(20)


def after_a_week(top):
    """The share after the week."""
    share = Share(top)
    for _, path, change in WEEK:
        change(share.at(path))
    share.add(NEW, ROOT, STAFF, 0o644)
    del share.nodes[top + b"/" + REMOVED]
    return share
