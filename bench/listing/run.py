#!/usr/bin/env python3
"""Times `who` of a listing of a million files, and `impact` of two, for one user and for a thousand, and `restore` and `translate`, by
the built program, and tells the most memory that each took.

    bench/listing/run.py [TIMES [FILES]]

A listing is as `getfacl -R` prints it, some 120 bytes a file: files of folders that share one of some hundred lists, as on a share,
each folder in front of its files, and, as another listing, each file with a list that no other has; and both so with NFSv4 lists. For
`impact` every thousandth file of the first has another owner and list in a later one. Before a time is taken the answer is looked at: how many lines it has.
Each work is done TIMES times in turn (5, unless told), the listings read from files, and the least and the middle milliseconds and
the most MiB are printed, the start of the program among them.
"""
import os
import statistics
import subprocess
import sys
import tempfile
import time

TOP = os.path.dirname(os.path.dirname(os.path.dirname(os.path.realpath(__file__))))
PROGRAM = f"{TOP}/crates/aclctl/out/aclctl"
FILES_OF_FOLDER = 50
# Of how many files one is changed.
FILES_OF_CHANGE = 1000
# How many users there are at the most, and how many groups, of which each user is in two.
USERS, GROUPS = 1000, 64
# What entries grant.
PERMS = ("rwx", "rw-", "r--", "r-x", "---")
# What an NFSv4 list allows for these.
MASKS = {"rwx": "rwaxtcy", "rw-": "rwatcy", "r--": "rtcy", "r-x": "rxtcy", "---": "tcy"}
# A folder that everybody may search.
OPEN = "# owner: 0\n# group: 50\nuser::rwx\ngroup::r-x\nother::r-x\n\n"


def gids_of(place):
    """The groups of the user at the place."""
    return 50 + place % GROUPS, 50 + (place + 13) % GROUPS


def accounts_of(users):
    """Who there is, as `getent passwd; getent group` prints it."""
    lines = [f"u{1000 + it}:x:{1000 + it}:{gids_of(it)[0]}::/:\n" for it in range(users)]
    for gid in range(50, 50 + GROUPS):
        members = ",".join(f"u{1000 + it}" for it in range(users) if gids_of(it)[1] == gid)
        lines.append(f"g{gid}:x:{gid}:{members}\n")
    return "".join(lines)


def list_of(variant):
    """The owner of a file, and what its group, 50, and group 60 may do."""
    return 1000 + variant % 7, PERMS[variant % 5], PERMS[variant // 5 % 5]


def block(place, variant, id):
    """The block of a file, as `getfacl -Rn` prints it: of some 120 bytes. It names the user of this id."""
    owner, of_50, of_60 = list_of(variant)
    head = f"# file: srv/share/{place // FILES_OF_FOLDER}/report-{place}.txt\n# owner: {owner}\n# group: 50\n"
    return f"{head}user::rw-\nuser:{id}:r--\ngroup::{of_50}\ngroup:60:{of_60}\nmask::rwx\nother::---\n\n"


def nfs4_block(place, variant, id):
    """The same with an NFSv4 list, as `nfs4_getfacl` prints one."""
    owner, of_50, of_60 = list_of(variant)
    head = f"# file: srv/share/{place // FILES_OF_FOLDER}/report-{place}.txt\n# owner: {owner}\n# group: 50\n"
    entries = ("A::OWNER@:rwatTcCy", f"A::{id}:rtcy", f"A:g:GROUP@:{MASKS[of_50]}", f"A:g:60:{MASKS[of_60]}", "A::EVERYONE@:tcy")
    return head + "".join(f"{entry}\n" for entry in entries) + "\n"


def granted(variant, place):
    """Which requests a file grants the user at the place, who is none that its list names."""
    owner, of_50, of_60 = list_of(variant)
    gids = gids_of(place)
    of_groups = [perms for gid, perms in ((50, of_50), (60, of_60)) if gid in gids] or ["---"]
    entries = ["rw-"] if 1000 + place == owner else of_groups
    return [any(set(request) <= set(perms) for perms in entries) for request in ("r", "w", "x", "rw", "rx", "wx", "rwx")]


def write_listing(path, files, variant_of, id_of=lambda place: 5000, block=block):
    with open(path, "w") as file:
        file.write(f"# file: srv\n{OPEN}# file: srv/share\n{OPEN}")
        for start in range(0, files, FILES_OF_FOLDER):
            file.write(f"# file: srv/share/{start // FILES_OF_FOLDER}\n{OPEN}")
            places = range(start, min(files, start + FILES_OF_FOLDER))
            file.write("".join(block(place, variant_of(place), id_of(place)) for place in places))


def milliseconds(words):
    """How long the program takes."""
    begun = time.monotonic()
    subprocess.run([PROGRAM, *words], stdin=subprocess.DEVNULL, stdout=subprocess.DEVNULL, check=True)
    return (time.monotonic() - begun) * 1000


def most_memory(words):
    """The most memory that the program takes, in MiB, as the system tells it while the program runs."""
    most = 0
    asked = subprocess.Popen([PROGRAM, *words], stdin=subprocess.DEVNULL, stdout=subprocess.DEVNULL)
    while asked.poll() is None:
        with open(f"/proc/{asked.pid}/status") as status:
            most = max([most, *(int(it.split()[1]) for it in status if it.startswith("VmHWM:"))])
        time.sleep(0.01)
    return most / 1024


def lines_of(words):
    """How many lines the answer has."""
    asked = subprocess.Popen([PROGRAM, *words], stdin=subprocess.DEVNULL, stdout=subprocess.PIPE)
    count = sum(piece.count(b"\n") for piece in iter(lambda: asked.stdout.read(1 << 20), b""))
    return count if asked.wait() == 0 else -1


def main():
    times = int((sys.argv[1:] + ["5"])[0])
    files = int((sys.argv[2:] + ["1000000"])[0])
    with tempfile.TemporaryDirectory() as folder:
        one, many = f"{folder}/one.accounts", f"{folder}/many.accounts"
        shared, each, later, nfs4, nfs4_each = (f"{folder}/{it}" for it in ("shared", "each", "later", "nfs4", "nfs4-each"))
        for name, users in ((one, 1), (many, USERS)):
            with open(name, "w") as file:
                file.write(accounts_of(users))
        folder_of = lambda place: place // FILES_OF_FOLDER
        write_listing(shared, files, folder_of)
        write_listing(each, files, lambda place: place, lambda place: 5000 + place)
        write_listing(nfs4, files, folder_of, block=nfs4_block)
        write_listing(nfs4_each, files, lambda place: place, lambda place: 5000 + place, nfs4_block)
        # Another variant has another owner: so the one before, in no groups, may no longer read or write.
        write_listing(later, files, lambda place: folder_of(place) + (place % FILES_OF_CHANGE == 0))
        changed = len(range(0, files, FILES_OF_CHANGE))
        concerned = sum(
            granted(folder_of(place), user) != granted(folder_of(place) + 1, user)
            for place in range(0, files, FILES_OF_CHANGE)
            for user in range(USERS)
        )
        folders = 2 + len(range(0, files, FILES_OF_FOLDER))
        # The files of which the one user has a letter; everybody has those of a folder.
        with_letters = lambda variant_of: folders + sum(any(granted(variant_of(place), 0)) for place in range(files))
        who = lambda accounts, *options: ("who", "--accounts", accounts, *options)
        works = {
            "one user: files of a folder with one list, letters": (with_letters(folder_of), *who(one), shared),
            "the same, `--perms w`": (None, *who(one, "--perms", "w"), shared),
            "the same, `--reach --perms w`": (None, *who(one, "--reach", "--perms", "w"), shared),
            "one user: each file with a list of its own, letters": (with_letters(lambda place: place), *who(one), each),
            f"{USERS} users: files of a folder with one list, `--perms w`": (None, *who(many, "--perms", "w"), shared),
            f"{USERS} users: the same, `--reach --perms w`": (None, *who(many, "--reach", "--perms", "w"), shared),
            f"{USERS} users: each file with a list of its own, `--perms w`": (None, *who(many, "--perms", "w"), each),
            f"`impact` of two listings, {changed} files changed, one user": (changed, "impact", "--accounts", one, shared, later),
            f"`impact --all` of the same, {USERS} users": (concerned, "impact", "--all", "--accounts", many, shared, later),
            # Everybody may search each folder, so that by reach the same lines are reported.
            f"`impact --reach --all` of the same, {USERS} users": (concerned, "impact", "--reach", "--all", "--accounts", many, shared, later),
            "`restore` of the same": (10 * changed, "restore", shared, later),
            "one user: NFSv4 lists, those of a folder alike, letters": (with_letters(folder_of), *who(one), nfs4),
            "one user: each file with an NFSv4 list of its own, letters": (with_letters(lambda place: place), *who(one), nfs4_each),
            "`translate` of files of a folder with one list": (None, "translate", shared),
            "`translate`, each file with a list of its own": (None, "translate", each),
        }
        for name, (lines, *words) in works.items():
            if lines is not None and lines_of(words) != lines:
                sys.exit(f"bench/listing: {name}: another number of lines than {lines}")
        taken = {name: [] for name in works}
        for _ in range(times):
            for name, (_, *words) in works.items():
                taken[name].append(milliseconds(words))
        size = os.path.getsize(shared) / 1e6
        print(f"{files} files, {size:.0f} MB a listing; milliseconds, least and middle of {times}; the most MiB")
        for name, its in taken.items():
            most = most_memory(works[name][1:])
            print(f"| {name} | {min(its):.1f} | {statistics.median(its):.1f} | {most:.1f} |")


if __name__ == "__main__":
    main()
