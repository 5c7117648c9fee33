#!/usr/bin/env python3
"""Times the questions of a whole tree, by the built program: `list` and `dump` of 4096 nodes, `who` of that listing by 1024 users,
and `impact` of what becomes of it if a session gives 40 of the nodes other lists, beside the runs of the sessions alone.

    bench/audit/run.py [TIMES]

Before a time is taken each answer is looked at: how many lines it has, and which nodes `impact` tells. Each work is done TIMES times
in turn (7, unless told), and the least and the middle milliseconds are printed, the start of the program among them.
"""
import os
import statistics
import subprocess
import sys
import tempfile
import time

TOP = os.path.dirname(os.path.dirname(os.path.dirname(os.path.realpath(__file__))))
PROGRAM = f"{TOP}/crates/aclctl/out/aclctl"
USERS, DIRECTORIES, FILES, CHANGED = 1024, 63, 64, 40


def write(path, lines):
    with open(path, "w") as file:
        file.write("".join(f"{it}\n" for it in lines))
    return path


def setup_lines():
    yield 'domain = "example.org"'
    yield 'umask = "022"'
    yield 'root = { owner = "u0", group = "g0", mode = "755", style = "posix" }'
    for user in range(USERS):
        yield f'[[user]]\nname = "u{user}"\nuid = {1000 + user}\ngroups = ["g{user % 32}", "g{32 + user % 16}"]'
    for group in range(48):
        yield f'[[group]]\nname = "g{group}"\ngid = {100 + group}'


def accounts_lines():
    for user in range(USERS):
        yield f"u{user}:x:{1000 + user}:{100 + user % 32}:::"
    for group in range(48):
        members = [f"u{user}" for user in range(USERS) if 32 + user % 16 == group]
        yield f"g{group}:x:{100 + group}:{','.join(members)}"


def path_of(place):
    return f"/d{place // FILES}/f{place % FILES}"


def session_lines():
    """63 directories with 64 files each and the root are 4096 nodes; every fourth file has an NFSv4 list."""
    for directory in range(DIRECTORIES):
        yield f"create dir /d{directory} u{directory} 755"
    for place in range(DIRECTORIES * FILES):
        yield f"create file {path_of(place)} u{place % USERS} 640"
        if place % 4 == 3:
            yield f"set {path_of(place)} nfs4 A::OWNER@:rwa,D:g:g{place % 48}:w,A:g:g{place % 32}:rwa,A::u{place % 97}:r,A::EVERYONE@:r"
        else:
            yield f"set {path_of(place)} access u::rw,u:u{place % 97}:rw,g::r,g:g{place % 48}:rw,m::rw,o::-"


def change_lines():
    for number in range(CHANGED):
        yield f"set {path_of(number * 100)} access u::r,g::r,g:g{number % 48}:r,m::r,o::-"


def count_with_letters():
    """Of how many nodes and users who may do something with the node: everybody with the root, a directory and a file that has an
    NFSv4 list; with any other file its owner, whom its list names, and who is in its group, which is the owner's first, or in the
    group that its list names."""
    count = (1 + DIRECTORIES) * USERS
    for place in range(DIRECTORIES * FILES):
        owner, named, groups = place % USERS, place % 97, {place % USERS % 32, place % 48}
        if place % 4 == 3:
            count += USERS
        else:
            count += sum(user in (owner, named) or not groups.isdisjoint((user % 32, 32 + user % 16)) for user in range(USERS))
    return count


def run(*words):
    ran = subprocess.run([PROGRAM, *words], stdin=subprocess.DEVNULL, capture_output=True)
    if ran.returncode != 0 or ran.stderr:
        sys.exit(f"bench/audit: {' '.join(words)}: status {ran.returncode}: {ran.stderr.decode()}")
    return ran.stdout


def milliseconds(words):
    begun = time.monotonic()
    subprocess.run([PROGRAM, *words], stdin=subprocess.DEVNULL, stdout=subprocess.DEVNULL, check=True)
    return (time.monotonic() - begun) * 1000


def main():
    times = int((sys.argv[1:] + ["7"])[0])
    with tempfile.TemporaryDirectory() as folder:
        setup, session = write(f"{folder}/setup.toml", setup_lines()), write(f"{folder}/session", session_lines())
        change, both = write(f"{folder}/change", change_lines()), write(f"{folder}/both", [*session_lines(), *change_lines()])
        accounts = write(f"{folder}/accounts", accounts_lines())
        listing, later = (write(f"{folder}/{name}.listing", run("list", "--setup", setup, it).decode().splitlines()) for name, it in (("before", session), ("after", both)))
        works = {
            "run of the session": ("run", "--setup", setup, session),
            "list of it": ("list", "--setup", setup, session),
            "who of it, letters": ("who", "--accounts", accounts, listing),
            "who of it, --perms w": ("who", "--accounts", accounts, "--perms", "w", listing),
            "dump of it": ("dump", "--setup", setup, session),
            "run of both sessions": ("run", "--setup", setup, both),
            "impact of the second": ("impact", "--accounts", accounts, listing, later),
            "impact of nothing": ("impact", "--accounts", accounts, listing, listing),
        }
        nodes = 1 + DIRECTORIES + DIRECTORIES * FILES
        told = run(*works["impact of the second"]).decode().splitlines()
        changed = {path_of(number * 100) for number in range(CHANGED)}
        counts = (run(*works["who of it, letters"]).count(b"\n"), {it.rpartition(" ")[2] for it in told}, run(*works["impact of nothing"]))
        if counts != (count_with_letters(), changed, b""):
            sys.exit(f"bench/audit: other answers: {counts[0]} lines of who, {len(counts[1])} nodes of impact")
        taken = {name: [] for name in works}
        for _ in range(times):
            for name, words in works.items():
                taken[name].append(milliseconds(words))
        print(f"{nodes} nodes, {USERS} users, {CHANGED} nodes changed; milliseconds, least and middle of {times}")
        for name, its in taken.items():
            print(f"| {name} | {min(its):.1f} | {statistics.median(its):.1f} |")


if __name__ == "__main__":
    main()
