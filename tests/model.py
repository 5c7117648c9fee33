"""What access control lists decide, worked out from the standards' sentences, apart from the code: the model that the scripts
beside the program look at its answers with. Lists are random, over the ids of a small universe.
"""
import itertools
import re

UIDS = (1000, 1, 2, 3, 65534)
# whom no list names, if it names all others
STRANGER = 4
GIDS = (50, 60, 70, 80)
REQUESTERS = [(uid, gids) for uid in (*UIDS, STRANGER) for count in range(5) for gids in itertools.combinations(GIDS, count)]
REQUESTS = [set(it) for count in (1, 2, 3) for it in itertools.combinations("rwx", count)]
LETTERS = "rwaxdDtTnNcCoy"
# the same in the places in which FreeBSD writes them, by its own letters
FREEBSD = dict(zip("rwxpdDaARWcCos", "rwxadDtTnNcCoy"))
# the permission of a POSIX list that each bit of a mode stands for
MODE_BITS = {"r": "r", "w": "w", "a": "w", "x": "x"}


def posix_list(rng):
    """A valid list as entries (tag, id, permissions), in any order."""
    perms = lambda: "".join(it for it in "rwx" if rng.random() < 0.5) or "-"
    entries = [("u", "", perms()), ("g", "", perms()), ("o", "", perms())]
    named = [("u", uid, perms()) for uid in UIDS if rng.random() < 0.3] + [("g", gid, perms()) for gid in GIDS if rng.random() < 0.4]
    if named or rng.random() < 0.2:
        entries += named + [("m", "", perms())]
    rng.shuffle(entries)
    return entries


def posix_text(entries):
    return ",".join(f"{tag}:{name}:{perms}" for tag, name, perms in entries)


def posix_grants(entries, owner, group, uid, gids, asked):
    """1003.1e draft 17, section 23: the first kind of entry that speaks of the requester decides."""
    masked = [set(perms) for tag, _, perms in entries if tag == "m"]
    effective = lambda perms: set(perms) & masked[0] if masked else set(perms)
    of = lambda tag, name: [perms for its_tag, its_name, perms in entries if (its_tag, its_name) == (tag, name)]
    if uid == owner:
        return asked <= set(of("u", "")[0])
    if of("u", uid):
        return asked <= effective(of("u", uid)[0])
    groups = [perms for tag, name, perms in entries if tag == "g" and (group if name == "" else name) in gids]
    if groups:
        return any(asked <= effective(perms) for perms in groups)
    return asked <= set(of("o", "")[0])


def linux_list(entries):
    """The list that Linux looks at for a file: its own, or, if its mask is empty, that of its mode, in which the mask stands for the
    group."""
    if not any(tag == "m" and not set(perms) & set("rwx") for tag, _, perms in entries):
        return entries
    return [("g", "", "") if tag == "g" else (tag, "", perms) for tag, name, perms in entries if name == "" and tag != "m"]


def with_group_split(entries, group, rng):
    """The same list, the permissions of the file's group in two entries: each alone is granted alike, and a request of both isn't."""
    entries = [it for it in entries if it[:2] != ("g", group)]
    if not any(tag == "m" for tag, _, _ in entries):
        entries = [*entries, ("m", "", "rwx")]
    whole = next(it for it in entries if it[:2] == ("g", ""))
    letters = whole[2].replace("-", "")
    cut = rng.randint(0, len(letters))
    split = [it for it in entries if it != whole] + [("g", "", letters[:cut] or "-"), ("g", group, letters[cut:] or "-")]
    return entries, split


def nfs4_list(rng):
    """Entries (type, flags, who, letters), of which some have no effect on access."""
    whos = ["OWNER@", "GROUP@", "EVERYONE@", *UIDS, *(("g", gid) for gid in GIDS)]
    letters = lambda: "".join(it for it in LETTERS if rng.random() < 0.3) or rng.choice(LETTERS)
    flags = lambda: rng.choice(["", "", "", "f", "d", "fd", "fi", "di", "n"])
    return [(rng.choice("AADDU"), flags(), rng.choice(whos), letters()) for _ in range(rng.randint(0, 7))]


def nfs4_text(aces):
    return ",".join(f"{kind}:{flags}{'g' if isinstance(who, tuple) else ''}:{who[1] if isinstance(who, tuple) else who}:{letters}" for kind, flags, who, letters in aces)


def nfs4_allows(aces, owner, group, uid, gids, letter):
    """RFC 8881, section 6.2.1: the first entry for the requester that names the bit decides, and no entry refuses."""
    speaks = {"OWNER@": uid == owner, "GROUP@": group in gids, "EVERYONE@": True}
    for kind, flags, who, letters in aces:
        is_asked = who[1] in gids if isinstance(who, tuple) else speaks.get(who, who == uid)
        if kind in "AD" and "i" not in flags and is_asked and letter in letters:
            return kind == "A"
    return False


def nfs4_lines(aces, is_freebsd):
    """A list as nfs4_getfacl prints it, or as FreeBSD's getfacl does, an entry a line. Who is no user or group is OWNER@ or the like."""
    if not is_freebsd:
        return nfs4_text(aces).split(",")
    kinds = {"A": "allow", "D": "deny", "U": "audit"}
    tag = lambda who: f"group:{who[1]}" if isinstance(who, tuple) else who.lower() if isinstance(who, str) else f"user:{who}"
    places = lambda given, letters: "".join(it if letter in given else "-" for it, letter in letters.items())
    flags = {it: it for it in "fdinSFI"}
    return [f"{tag(who)}:{places(letters, FREEBSD)}:{places(its, flags)}:{kinds[kind]}" for kind, its, who, letters in aces]


def posix_via(entries, owner, group, uid, gids, asked):
    """Which entries let the requester do all that is asked, or any of r, w and x if that is None, in the order of their tags; and the
    mask, if one of these has more than it lets through."""
    entries = sorted(entries, key=lambda it: ("ugmo".index(it[0]), it[1] != "", it[1] or 0))
    mask = next((set(perms) for tag, _, perms in entries if tag == "m"), set("rwx"))
    of_owner = [("owner", perms) for tag, name, perms in entries if (tag, name) == ("u", "") and uid == owner]
    of_user = [("user", perms) for tag, name, perms in entries if tag == "u" and name == uid]
    of_groups = [("group" if name == "" else f"group:{name}", perms) for tag, name, perms in entries if tag == "g" and (group if name == "" else name) in gids]
    of_others = [("other", perms) for tag, _, perms in entries if tag == "o"]
    those = of_owner or of_user or of_groups or of_others
    limit = mask if those in (of_user, of_groups) else set("rwx")
    given = [(word, set(perms) & set("rwx")) for word, perms in those]
    given = [(word, perms) for word, perms in given if (perms & limit if asked is None else asked <= perms & limit)]
    return ",".join([word for word, _ in given] + ["mask"] * any(perms - limit for _, perms in given))


def nfs4_via(aces, owner, group, uid, gids, letters):
    """The numbers, from 1, of the entries that allow the requester these letters, each by the first entry that names it; or a hyphen."""
    numbers = set()
    for letter in letters:
        before = [nfs4_allows(aces[:count], owner, group, uid, gids, letter) for count in range(len(aces) + 1)]
        # What is allowed is allowed from its first entry on, and not before.
        numbers.add(before.index(True))
    return ",".join(map(str, sorted(numbers))) or "-"


class File:
    """Whose it is, its group, and its list."""

    def __init__(self, kind, entries, owner=1000, group=50):
        self.kind, self.entries, self.owner, self.group = kind, entries, owner, group
        self.text = posix_text(entries) if kind == "posix" else nfs4_text(entries)

    def allows(self, uid, gids, letter):
        if self.kind == "posix":
            return self.grants(uid, gids, {MODE_BITS[letter]})
        return nfs4_allows(self.entries, self.owner, self.group, uid, gids, letter)

    def grants(self, uid, gids, asked):
        """Whether permissions are granted at once: of an NFSv4 list each of the bits that they stand for."""
        if self.kind == "posix":
            return posix_grants(self.entries, self.owner, self.group, uid, gids, asked)
        return all(self.allows(uid, gids, letter) for letter, permission in MODE_BITS.items() if permission in asked)


def all_letters(file, uid, gids):
    """All letters that a file grants, each by itself, in FreeBSD's places: a POSIX list grants those of a mode alone."""
    decided = MODE_BITS if file.kind == "posix" else LETTERS
    return "".join(it if letter in decided and file.allows(uid, gids, letter) else "-" for it, letter in FREEBSD.items())


def via(file, uid, gids, asked, is_lettered):
    """Which entries of a file's list decide that the requester has the letters r, w and x, or all letters, or at once what is asked."""
    if file.kind == "posix":
        return posix_via(file.entries, file.owner, file.group, uid, gids, asked)
    letters = LETTERS if is_lettered else [it for it, permission in MODE_BITS.items() if file.grants(uid, gids, {permission})]
    if asked is not None:
        letters = [it for it, permission in MODE_BITS.items() if permission in asked]
    return nfs4_via(file.entries, file.owner, file.group, uid, gids, [it for it in letters if file.allows(uid, gids, it)])


def letters_of(first, second):
    kinds = {first.kind, second.kind}
    return "rwx" if kinds == {"posix"} else LETTERS if kinds == {"nfs4"} else "rwax"


def decided(first, second, uid, gids):
    """The letters that the requester loses and gains, each by itself."""
    both = [(it, first.allows(uid, gids, it), second.allows(uid, gids, it)) for it in letters_of(first, second)]
    return "".join(it for it, old, new in both if old and not new), "".join(it for it, old, new in both if new and not old)


def change_for(first, second, uid, gids):
    """What the requester loses and gains: letters by themselves, or else, between POSIX lists, the first whole request."""
    singly = decided(first, second, uid, gids)
    if singly != ("", "") or {first.kind, second.kind} != {"posix"}:
        return singly
    for asked in ("rw", "rx", "wx", "rwx"):
        old, new = (it.grants(uid, gids, set(asked)) for it in (first, second))
        if old != new:
            return (asked, "") if old else ("", asked)
    return "", ""


def is_alike(first, second, requesters=REQUESTERS):
    """Whether nobody in the universe loses or gains anything."""
    return all(change_for(first, second, *it) == ("", "") for it in requesters)


def requesters_about(*files):
    """The universe of files with POSIX lists: whom they name, and somebody whom none names, in up to three of the groups that they
    name; the root isn't among them but if they name it. Whoever asks is decided about as one of these is, if two groups are enough to tell two files apart."""
    uids = {it.owner for it in files} | {name for it in files for tag, name, _ in it.entries if tag == "u" and name != ""}
    gids = {it.group for it in files} | {name for it in files for tag, name, _ in it.entries if tag == "g" and name != ""}
    stranger = next(it for it in itertools.count(1) if it not in uids)
    return [(uid, them) for uid in (*uids, stranger) for count in range(4) for them in itertools.combinations(sorted(gids), count)]


def differ_line(name, uid, gids, change, path):
    """The line of `impact` that tells of one who loses and gains so."""
    lost, gained = (it or "-" for it in change)
    return f"differ {name} {uid} {','.join(map(str, gids)) or '-'} {lost} {gained} {path}"


def is_told(line, path, before, after, users, requesters=REQUESTERS):
    """Whether a line of `impact`, or none, tells what became of a path, where there are these users, in the order of their names:
    (name, uid, gids). The first of them who is decided about otherwise has a line of exactly these words. If it is none of them it
    may be anybody in at most two groups who is neither the root nor has the uid of a user, and who has to lose and gain what is
    told; and where nobody such in the universe does there is no line."""
    if before is None:
        return line == f"new {path}"
    known = {0, *(uid for _, uid, _ in users)}
    for name, uid, gids in users:
        change = change_for(before, after, uid, gids)
        if change != ("", ""):
            return line == differ_line(name, uid, gids, change, path)
    if is_alike(before, after, [it for it in requesters if it[0] not in known]):
        return line is None
    said = re.match(r"differ - ([0-9]+) (-|[0-9]+(?:,[0-9]+)?) ", line or "")
    if not said:
        return False
    uid, gids = int(said[1]), tuple(map(int, said[2].split(","))) if said[2] != "-" else ()
    change = change_for(before, after, uid, gids)
    return uid not in known and change != ("", "") and line == differ_line("-", uid, gids, change, path)
