"""What scripts ask the kernel, user by user, beside what the built program tells: users of nobody here, their accounts, and which
letters each has; and whether files with lists can be made here."""

import os
import re
import shutil
import subprocess

TOP = os.path.dirname(os.path.dirname(os.path.realpath(__file__)))
PROGRAM = f"{TOP}/crates/aclctl/out/aclctl"
# Ids that are nobody's on this host: the model's small numbers, each with this added.
BASE = 61000
# Name, uid and gids, the first of which is the primary one. The kernel gives each process a group, so
# each user has one.
USERS = [("al", 1000, (50,)), ("bea", 1, (70, 50)), ("CORP\\cy", 2, (80,)), ("dot@corp.example", 3, (60, 50))]
USERS += [("ed of it", 4, (80, 60, 70)), ("flo", 5, (50, 60, 70, 80, *range(500, 800))), ("gus", 65534, (60,)), ("hal", 6, (90,))]
# Of one uid with another user, and in other groups.
USERS += [("twin", 1000, (70, 90))]
GROUPS = (50, 60, 70, 80, 90)
LETTERS = (("r", os.R_OK), ("w", os.W_OK), ("x", os.X_OK))


def why_no_lists(room):
    """Why no files of other owners with lists can be made in this folder, or None."""
    if os.geteuid() != 0:
        return "it wants root, to change owners"
    for it in ("setfacl", "getfacl"):
        if not shutil.which(it):
            return f"{it} isn't there"
    ran = subprocess.run(["setfacl", "-m", f"u:{BASE}:r", room], capture_output=True, text=True)
    return ran.stderr.strip() if ran.returncode else None


def read_name(text):
    """The name that getfacl printed."""
    return re.sub(rb"\\(\\|[0-7]{3})", lambda it: b"\\" if it[1] == b"\\" else bytes([int(it[1], 8)]), text)


def group_name(gid):
    """The name of a group, with a blank."""
    return f"domain g{gid}"


def accounts():
    """Who there is, as `getent passwd; getent group` prints it. Of two users with one uid the first is whom its number means."""
    lines = [f"{name}:x:{uid + BASE}:{gids[0] + BASE}:::" for name, uid, gids in USERS]
    # What root makes for them has an account, too.
    lines += ["root:x:0:0:::", "root:x:0:"]
    for gid in sorted({it for _, _, gids in USERS for it in gids} | {*GROUPS}):
        members = ",".join(name for name, _, gids in USERS if gid in gids[1:])
        lines.append(f"{group_name(gid)}:x:{gid + BASE}:{members}")
    return "\n".join(lines) + "\n"


def told_by_program(folder, listing, options):
    """What the program tells of the listing, asked with these options: letters by user's name and file's path, and what it told
    besides."""
    words = [PROGRAM, "who", "--accounts", f"{folder}/accounts", *options, "-"]
    ran = subprocess.run(words, input=listing, capture_output=True)
    told, others = {}, []
    if ran.returncode or ran.stderr:
        others.append(f"status {ran.returncode}: {ran.stderr.decode(errors='replace')}")
    for line in ran.stdout.split(b"\n")[:-1]:
        letters, name, path = line.split(b" ", 2)
        told[name, read_name(path)] = letters.decode()
    return told, others


def become(uid, gids):
    """Makes this process one of the user."""
    os.setgroups([it + BASE for it in gids])
    os.setresgid(*[gids[0] + BASE] * 3)
    os.setresuid(*[uid + BASE] * 3)


def told_by_kernel(files, paths, uid, gids):
    """What access(2) answers a process of this user about each of the files, as letters; None if no process may become one."""
    source, sink = os.pipe()
    child = os.fork()
    if child == 0:
        try:
            os.chdir(files)
            become(uid, gids)
            with os.fdopen(sink, "w") as answers:
                for path in paths:
                    answers.write("".join(letter if os.access(path, bit) else "-" for letter, bit in LETTERS))
        except OSError:
            os._exit(1)
        os._exit(0)
    os.close(sink)
    with os.fdopen(source) as answers:
        letters = answers.read()
    if os.waitpid(child, 0)[1] != 0:
        return None
    return [letters[at:at + 3] for at in range(0, len(letters), 3)]
