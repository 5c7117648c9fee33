"""How texts of access control lists are read, as docs/PROFILE.md says, and listings of real files, as docs/COMMANDS.md does, apart
from the code: what the scripts share that look at readers.
"""
import re

MAX_BLOCK = 65536
MAX_ENTRIES = 64
DEFAULT = b"default:"
# The words for a file that a block may begin with, which are as long as each other.
FILE_WORDS = (b"# file: ", b"# File: ")


def pieces(text):
    """The pieces of a text, one for each entry."""
    for line in text.split(b"\n"):
        line = line.split(b"#")[0].strip(b" \t")
        if line:
            yield from (piece.strip(b" \t") for piece in line.split(b","))


def fields(piece):
    """The fields of a piece."""
    return [field.strip(b" \t") for field in piece.split(b":")]


class SetupNames:
    """Ids by the names of a setup, as texts write both; names may stand in the domain, if there is one."""

    def __init__(self, ids, domain=None):
        self.ids, self.domain = ids, domain

    def read(self, text):
        """The id that a text writes: S if it is neither a decimal nor a name, and U if the name is unknown."""
        if re.fullmatch(rb"[0-9]{1,10}", text):
            return int(text) if int(text) <= 4294967294 else "S"
        name, at, domain = text.partition(b"@") if self.domain else (text, b"", b"")
        shaped = re.fullmatch(rb"[A-Za-z_][A-Za-z0-9._-]{0,31}", name) and (not at or re.fullmatch(rb"[a-z0-9.-]{1,255}", domain))
        if not shaped:
            return "S"
        return self.ids.get(name.decode(), "U") if not at or domain == self.domain else "U"


class AccountNames:
    """Ids by the names of accounts, as getfacl writes both: two backslashes are one, and one with three octal digits is that byte. If
    there is a domain, what stands in it is what stands before it."""

    def __init__(self, ids, domain=None):
        self.ids, self.domain = ids, domain

    def read(self, text):
        """The id that a text writes: S if it is neither a decimal nor a name, and U if the name is unknown."""
        text = text.removesuffix(b"@" + self.domain) if self.domain else text
        if re.fullmatch(rb"[0-9]*", text):
            return int(text) if 1 <= len(text) <= 10 and int(text) <= 4294967294 else "S"
        name = re.sub(rb"\\(\\|[0-3][0-7]{2})", lambda it: b"\\" if it[1] == b"\\" else bytes([int(it[1], 8)]), text)
        if not 1 <= len(name) <= 255 or b":" in name or b"\n" in name:
            return "S"
        return self.ids.get(name, "U")


def as_getfacl(name):
    """A name as getfacl writes it."""
    return b"".join(b"\\%03o" % it if it in b" \t\n\r:,\\" else bytes([it]) for it in name)


def entry(piece, users, groups):
    """The POSIX entry that a piece writes, as (tag, id, permissions), the tag its first letter; or S or U for its fault."""
    tag, *rest = fields(piece)
    named = {b"user": users, b"u": users, b"group": groups, b"g": groups}
    if tag in named and len(rest) == 2:
        whose = "" if rest[0] == b"" else named[tag].read(rest[0])
    elif tag in (b"mask", b"m", b"other", b"o") and (len(rest) == 1 or len(rest) == 2 and rest[0] == b""):
        whose = ""
    else:
        return "S"
    perms = rest[-1]
    if not re.fullmatch(rb"[rwx-]{1,3}", perms) or any(perms.count(it) > 1 for it in b"rwx"):
        return "S"
    return whose if whose in ("S", "U") else (tag.decode()[0], whose, perms.decode().replace("-", ""))


class Unread(Exception):
    """Why a block of a listing doesn't read: the word, how many of its lines stand before the one at fault, and which rule of lists is
    broken, if one is."""

    def __init__(self, word, before=0, rule=None):
        super().__init__(word)
        self.word, self.before, self.rule = word, before, rule


def blocks_of(listing):
    """The blocks of a listing, each with the number of its first line."""
    lines = listing.split(b"\n")
    if lines[-1] == b"":
        lines.pop()
    block = []
    for number, line in enumerate([*lines, b""], 1):
        if line:
            block.append(line)
        elif block:
            yield number - len(block), b"\n".join(block)
            block = []


def path_of(text):
    """The path that a block's first line gives, whether the block reads or not; None if there is none."""
    first = text.split(b"\n")[0]
    return first[8:] if first.startswith(FILE_WORDS) and 8 < len(first) <= MAX_BLOCK else None


def printed(path):
    """A path as answers print it: each control byte by its octal digits."""
    return b"".join(b"\\%03o" % it if it < 32 or it == 127 else b"%c" % it for it in path)


def steps_of(path):
    """Where a path begins, and its steps: empty parts and "." are none."""
    return path.startswith(b"/"), [it for it in path.split(b"/") if it not in (b"", b".")]


def is_above(folder, path):
    """Whether the path goes through the folder."""
    (start, steps), (of, more) = steps_of(folder), steps_of(path)
    return start == of and len(steps) < len(more) and more[:len(steps)] == steps


def is_folder_of(folder, path):
    """Whether the folder is the nearest above the path."""
    return is_above(folder, path) and len(steps_of(folder)[1]) + 1 == len(steps_of(path)[1])


def are_apart(one, other):
    """Whether both paths begin alike, and neither is above the other."""
    return one.startswith(b"/") == other.startswith(b"/") and not is_above(one, other) and not is_above(other, one)


class Ways:
    """The folders above each block of a listing in turn, the nearest first: (path, what was read of it). Once a way has begun
    above where another began, or below, or otherwise, none is known."""

    def __init__(self):
        self.folders, self.beginnings, self.begin_apart = [], [], True

    def to(self, path, read):
        """What was read of each folder above the path; None if that isn't known. The block itself comes onto the way then. Above a
        path that isn't told may be anything, and it may be above anything."""
        self.folders = [it for it in self.folders if None in (path, it[0]) or is_above(it[0], path)]
        if not self.folders:
            self.begin_apart &= path is not None and all(are_apart(it, path) for it in self.beginnings)
            self.beginnings.append(path)
        steps = [path, *(it[0] for it in self.folders)]
        pairs = zip(steps, steps[1:])
        is_known = all(None not in it and is_folder_of(it[1], it[0]) for it in pairs) and all(it[1] for it in self.folders)
        way = [it[1] for it in self.folders] if is_known and self.begin_apart else None
        self.folders.insert(0, (path, read))
        return way


def header_of(lines, users, groups):
    """The path of a block's first three lines, and the owner's and the group's ids, by these names."""
    heads = ((FILE_WORDS, lambda it: it or "S"), ((b"# owner: ",), users.read), ((b"# group: ",), groups.read))
    for before, (words, read) in enumerate(heads):
        line = lines[before] if before < len(lines) else b""
        value = read(line[len(words[0]):]) if line.startswith(words) else "S"
        if value == "S":
            raise Unread("bad-header", before)
        yield value


def file_of(text, users, groups, is_repeated=False):
    """The path, owner, group and entries that a block's text says, by these ids. Another block may have had its path before, where
    that counts."""
    if len(text) > MAX_BLOCK:
        raise Unread("too-long")
    lines = text.split(b"\n")
    path, *ids = header_of(lines, users, groups)
    if is_repeated:
        raise Unread("repeated-path")
    if "U" in ids:
        raise Unread("unknown-name", 1 + ids.index("U"))
    found = entries_of(lines, 3, users, groups, lambda line: b"" if line.startswith(DEFAULT) else line)
    if any(it.startswith(DEFAULT) for it in lines[3:]):
        # A default list decides nothing, and has to read all the same.
        entries_of(lines, 3, users, groups, lambda line: line[len(DEFAULT):] if line.startswith(DEFAULT) else b"")
    return path, *ids, found


def ids_of(text, users, groups):
    """The ids that a block names which reads, in their order: how many lines stand before each, its kind, u or g, and the id."""
    lines = text.split(b"\n")
    _, owner, group = header_of(lines, users, groups)
    yield from ((1, "u", owner), (2, "g", group))
    for at, line in enumerate(lines[3:], 3):
        for piece in pieces(line.removeprefix(DEFAULT)):
            tag, whose, _ = entry(piece, users, groups)
            if whose != "":
                yield at, tag, whose


def entries_of(lines, before, users, groups, text_of):
    """The entries of a list, which have to be one: what the lines behind so many have of it."""
    found = []
    for at, line in enumerate(lines[before:], before):
        for piece in pieces(text_of(line)):
            if len(found) == MAX_ENTRIES:
                raise Unread("too-many", at)
            read = entry(piece, users, groups)
            if isinstance(read, str):
                raise Unread("bad-acl" if read == "S" else "unknown-name", at)
            found.append(read)
    if rule := broken_rule([it[:2] for it in found]):
        raise Unread("invalid-acl", 0, rule)
    return found


def broken_rule(keys):
    """Which rule of access control lists entries of these keys break, if they break one."""
    for tag, rule in (("u", "no-owner"), ("g", "no-group"), ("o", "no-other")):
        if (tag, "") not in keys:
            return rule
    if len(set(keys)) < len(keys):
        return "twice"
    named = any(tag in "ug" and name != "" for tag, name in keys)
    return "no-mask" if named and ("m", "") not in keys else None


def shown(line):
    """A line as a fault shows it: its first 200 bytes, of which those that aren't printable by their octal digits."""
    return b"".join(bytes([it]) if 32 <= it <= 126 else b"\\%03o" % it for it in line[:200])


def guess_of(text):
    """What a listing may be of which no block reads, by its first block's text: of one that is too long, what is kept of it."""
    first, second = (text[:MAX_BLOCK + 1].split(b"\n") + [b""])[:2]
    if text.startswith(b"\x1f\x8b"):
        return "is it gzip?"
    if text.startswith((b"\xff\xfe", b"\xfe\xff")):
        return "is it UTF-16?"
    if first.endswith(b"\r"):
        return "has it carriage returns?"
    if first.startswith(b"# file: ") and second.startswith(b"USER"):
        return "is it tabular (getfacl -t)?"
    # The line of a file, however long it is.
    if len(first) > 8 and first.startswith(FILE_WORDS) and not second.startswith(b"# owner: ") or first.startswith(b"user::"):
        return "is it without owners (getfacl -c, nfs4_getfacl)?"
    return "is it a listing?"
