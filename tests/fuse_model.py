"""What a file server with NFSv4 lists has to answer: RFC 8881, sections 6.2 to 6.4, with the choices of docs/PROFILE.md, apart from the
code. Entries are (type, flags, mask, who); who is OWNER@, GROUP@, EVERYONE@, a uid or ("g", gid)."""

import struct

READ, WRITE, APPEND, READ_NAMED, WRITE_NAMED, EXECUTE, DELETE_CHILD = 1, 2, 4, 8, 0x10, 0x20, 0x40
READ_ATTRIBUTES, WRITE_ATTRIBUTES, DELETE, READ_ACL, WRITE_ACL, WRITE_OWNER = 0x80, 0x100, 0x10000, 0x20000, 0x40000, 0x80000
SYNCHRONIZE = 0x100000
BITS = (READ, WRITE, APPEND, READ_NAMED, WRITE_NAMED, EXECUTE, DELETE_CHILD, READ_ATTRIBUTES, WRITE_ATTRIBUTES, DELETE, READ_ACL, WRITE_ACL)
BITS += (WRITE_OWNER, SYNCHRONIZE)
FILE_INHERIT, DIRECTORY_INHERIT, NO_PROPAGATE, INHERIT_ONLY = 1, 2, 4, 8
INHERITANCE = 0xF
ALLOW, DENY = 0, 1
SPECIAL = ("OWNER@", "GROUP@", "EVERYONE@")
# What a mode speaks of.
OF_MODE = READ | WRITE | APPEND | EXECUTE
# What is the owner's whatever the list says; and what a file without a list gives the owner and everybody besides.
OWNERS = READ_ATTRIBUTES | WRITE_ATTRIBUTES | READ_ACL | WRITE_ACL
OWNER_BESIDE = OWNERS | READ_NAMED | WRITE_NAMED | WRITE_OWNER | SYNCHRONIZE
ALL_BESIDE = READ_ATTRIBUTES | READ_NAMED | READ_ACL | SYNCHRONIZE


def xdr(aces):
    """The bytes of system.nfs4_acl."""
    out = struct.pack(">I", len(aces))
    for kind, flags, mask, who in aces:
        name = str(who[1] if isinstance(who, tuple) else who).encode()
        flags |= 0x40 if isinstance(who, tuple) else 0
        out += struct.pack(">IIII", kind, flags, mask, len(name)) + name + b"\0" * (-len(name) % 4)
    return out


def bits_of(digit):
    """The bits that a digit of a mode stands for."""
    return (READ if digit & 4 else 0) | (WRITE | APPEND if digit & 2 else 0) | (EXECUTE if digit & 1 else 0)


def decides(ace):
    return ace[0] in (ALLOW, DENY) and not ace[1] & INHERIT_ONLY


def shown(aces):
    """The mode of a list, section 6.3.2."""
    mode = 0
    for who in SPECIAL:
        allowed, open_bits = 0, OF_MODE
        for kind, _, mask, whom in filter(decides, aces):
            if whom in (who, "EVERYONE@"):
                allowed |= open_bits & mask if kind == ALLOW else 0
                open_bits &= ~mask
        mode = mode << 3 | sum(it for it in (4, 2, 1) if bits_of(it) & ~allowed == 0)
    return mode


def with_mode(aces, mode):
    """A list with a mode set, section 6.4.1.1, with the least denials."""
    user, group, other = (bits_of(mode >> it & 7) for it in (6, 3, 0))
    named = dict.fromkeys(who for _, _, _, who in filter(decides, aces) if who not in SPECIAL)
    split, kept = [], []
    for kind, flags, mask, who in aces:
        if decides((kind, flags)) and flags & (FILE_INHERIT | DIRECTORY_INHERIT):
            split += [(kind, flags | INHERIT_ONLY, mask, who), (kind, flags & ~INHERITANCE, mask, who)]
        else:
            split.append((kind, flags, mask, who))
    for ace in split:
        kind, flags, mask, who = ace
        if decides(ace):
            mask &= ~OF_MODE if who in SPECIAL else ~(OF_MODE & ~group) if kind == ALLOW else ~0
        if mask or not decides(ace):
            kept.append((kind, flags, mask, who))
    front, behind = [(ALLOW, 0, user, "OWNER@"), (DENY, 0, OF_MODE & ~user, "OWNER@")], []
    for who in named:
        denied = [mask for kind, _, mask, whom in filter(decides, aces) if kind == DENY and whom == who]
        missing = other & ~group
        for mask in denied:
            missing &= ~mask
        behind.append((DENY, 0, missing, who))
    behind += [(ALLOW, 0, group, "GROUP@"), (DENY, 0, OF_MODE & ~group, "GROUP@"), (ALLOW, 0, other, "EVERYONE@")]
    return [it for it in front if it[2]] + kept + [it for it in behind if it[2]]


def inherited(aces, is_folder):
    """What is made in a folder has of its list, section 6.4.3."""
    found = []
    for kind, flags, mask, who in aces:
        files, folders, is_last = flags & FILE_INHERIT, flags & DIRECTORY_INHERIT, flags & NO_PROPAGATE
        if not is_folder and files or is_folder and folders and is_last:
            found.append((kind, flags & ~INHERITANCE, mask, who))
        elif is_folder and not is_last and (files or folders):
            below = (files | folders) | (0 if folders else INHERIT_ONLY)
            found.append((kind, flags & ~INHERITANCE | below, mask, who))
    return found


class Node:
    """A file or a folder: of no list the mode decides."""

    def __init__(self, is_folder, owner, group, mode, aces=None):
        self.is_folder, self.owner, self.group, self.mode, self.aces, self.is_named = is_folder, owner, group, mode, aces, False

    def says(self, who, bits):
        """Which of the bits are allowed to somebody, and which are denied."""
        if self.aces is None:
            kind = 6 if who.uid == self.owner else 3 if self.group in who.gids else 0
            beside = ALL_BESIDE | (OWNER_BESIDE if who.uid == self.owner else 0)
            allowed = bits_of(self.mode >> kind & 7) | beside
            return bits & allowed, bits & OF_MODE & ~allowed
        said = [0, 0]
        concerns = {"OWNER@": who.uid == self.owner, "GROUP@": self.group in who.gids, "EVERYONE@": True}
        for kind, _, mask, whom in filter(decides, self.aces):
            if whom[1] in who.gids if isinstance(whom, tuple) else concerns.get(whom, whom == who.uid):
                said[kind] |= bits & mask
                bits &= ~mask
        return tuple(said)

    def grants(self, who, bits):
        """Whether all of the bits are granted: to root all but to run what nobody may."""
        if who.uid == 0:
            return self.is_folder or not bits & EXECUTE or self.mode & 0o111 != 0
        if who.uid == self.owner:
            bits &= ~OWNERS
        return self.says(who, bits)[0] == bits

    def drops_ids(self, mode):
        """Whether setuid or setgid goes by a mode, and nothing else."""
        return mode != self.mode and mode | 0o6000 == self.mode | 0o6000 and not mode & ~self.mode

    def set_mode(self, mode, who):
        """chmod(2): whoever isn't in the file's group can't make it setgid. If setuid or setgid alone go, the list stays."""
        is_less = self.drops_ids(mode)
        if who.uid and self.group not in who.gids:
            mode &= ~0o2000
        self.mode = mode
        if self.aces is not None and not is_less:
            self.aces = with_mode(self.aces, mode & 0o777)


def deletes(who, folder, node):
    """Section 6.2.1.3.2."""
    if who.uid == 0:
        return True
    if not folder.grants(who, EXECUTE):
        return False
    own, above = node.says(who, DELETE), folder.says(who, DELETE_CHILD)
    if own[0] or above[0]:
        return True
    if own[1] or above[1] or not folder.says(who, WRITE)[0]:
        return False
    return not folder.mode & 0o1000 or who.uid in (folder.owner, node.owner)


class Model:
    """A tree of such nodes by path from the top, "", and what each operation makes of it: "ok", "no" or the name of another fault."""

    def __init__(self, top):
        self.nodes = {"": top}

    def parent(self, path):
        return self.nodes[path.rpartition("/")[0]]

    def reaches(self, who, path):
        """Whether somebody may search all folders above."""
        while path:
            path = path.rpartition("/")[0]
            if not self.nodes[path].grants(who, EXECUTE):
                return False
        return True

    def children(self, path):
        return [it for it in self.nodes if it and it.rpartition("/")[0] == path]

    def does(self, who, operation, path, *words):
        """What an operation answers."""
        if not self.reaches(who, path):
            return "no"
        return getattr(self, f"do_{operation}")(who, path, *words)

    def asked(self, who, path, bits):
        return "ok" if self.nodes[path].grants(who, bits) else "no"

    def made(self, who, path, is_folder, mode, umask):
        folder = self.parent(path)
        if not folder.grants(who, (APPEND if is_folder else WRITE) | EXECUTE):
            return "no"
        above = inherited(folder.aces or [], is_folder)
        node = Node(is_folder, who.uid, folder.group if folder.mode & 0o2000 else who.gids[0], mode)
        if above:
            node.aces = with_mode(above, mode)
        else:
            node.mode &= ~umask
        if is_folder:
            node.mode |= folder.mode & 0o2000
        self.nodes[path] = node
        return "ok"

    def do_create(self, who, path, mode, umask):
        return self.made(who, path, False, mode, umask)

    def do_mkdir(self, who, path, mode, umask):
        return self.made(who, path, True, mode, umask)

    def do_open(self, who, path, how):
        wanted = {"r": READ, "w": WRITE | APPEND, "rw": READ | WRITE | APPEND, "a": APPEND, "ra": READ | APPEND, "t": WRITE | APPEND}
        return self.asked(who, path, wanted[how])

    def do_access(self, who, path, digit):
        return self.asked(who, path, bits_of(digit))

    def do_list(self, who, path):
        return self.asked(who, path, READ)

    def do_truncate(self, who, path):
        return self.asked(who, path, WRITE | APPEND)

    def do_times(self, who, path, is_now):
        if self.asked(who, path, WRITE_ATTRIBUTES) == "ok":
            return "ok"
        return self.asked(who, path, WRITE | APPEND) if is_now else "no"

    def do_get(self, who, path):
        answer = self.asked(who, path, READ_NAMED)
        return answer if answer == "no" or self.nodes[path].is_named else "ENODATA"

    def do_put(self, who, path):
        answer = self.asked(who, path, WRITE_NAMED)
        self.nodes[path].is_named |= answer == "ok"
        return answer

    def do_readlist(self, who, path):
        return self.asked(who, path, READ_ACL)

    def do_setlist(self, who, path, aces):
        node = self.nodes[path]
        if not node.grants(who, WRITE_ACL):
            return "no"
        node.aces, node.mode = aces, node.mode & 0o7000 | shown(aces)
        return "ok"

    def do_droplist(self, who, path):
        node = self.nodes[path]
        if not node.grants(who, WRITE_ACL):
            return "no"
        answer = "ENODATA" if node.aces is None else "ok"
        node.aces = None
        return answer

    def do_chmod(self, who, path, mode):
        node = self.nodes[path]
        if not (node.grants(who, WRITE_ACL) or node.drops_ids(mode) and node.grants(who, WRITE | APPEND)):
            return "no"
        node.set_mode(mode, who)
        return "ok"

    def do_chown(self, who, path, uid, gid):
        node = self.nodes[path]
        is_theirs = uid in (-1, who.uid) and (gid in (-1, node.group) or gid in who.gids)
        if who.uid and not (is_theirs and node.grants(who, WRITE_OWNER)):
            return "no"
        node.owner = node.owner if uid == -1 else uid
        node.group = node.group if gid == -1 else gid
        return "ok"

    def do_unlink(self, who, path):
        if not deletes(who, self.parent(path), self.nodes[path]):
            return "no"
        if self.children(path):
            return "ENOTEMPTY"
        del self.nodes[path]
        return "ok"

    do_rmdir = do_unlink

    def do_rename(self, who, path, to):
        node, into = self.nodes[path], self.parent(to)
        if not self.reaches(who, to) or not deletes(who, self.parent(path), node):
            return "no"
        if not into.grants(who, (APPEND if node.is_folder else WRITE) | EXECUTE):
            return "no"
        if to in self.nodes and not deletes(who, into, self.nodes[to]):
            return "no"
        moved = {it: self.nodes.pop(it) for it in [*self.nodes] if it == path or it.startswith(f"{path}/")}
        self.nodes |= {to + it.removeprefix(path): node for it, node in moved.items()}
        return "ok"
