"""A checkout that is small: the scripts that build and install, and what they install, of a
program and over a kit that are stand-ins."""

import os
import re
import shutil
import subprocess
from pathlib import Path

TOP = Path(__file__).resolve().parent.parent.parent
# How many seconds a stand-in may take on the slowest machine.
SLOW = 600
# The scripts that are installed beside the program, and those that build, install and release.
BESIDE = ("accounts", "host-setup", "nightly", "rehearse", "report", "table")
SCRIPTS = ("bin/aclctl", "dev/build-aclctl", "dev/rt-beside", "bin/install", "dev/release", "dev/debian.py", *(f"bin/{it}" for it in BESIDE))
# What the scripts share and the parts of bin/report, and the manual pages of section 1.
PARTS = sorted(it.name for it in (TOP / "bin/reporting").iterdir() if it.suffix in (".py", ".css", ".js"))
COMPLETIONS = {"aclctl.bash": "bash-completion/completions/aclctl", "_aclctl": "zsh/site-functions/_aclctl"}
COMPLETED = ("nightly", "rehearse", "report", "table")
COMPLETIONS |= {it.replace("aclctl", f"aclctl-{name}"): to.replace("aclctl", f"aclctl-{name}") for it, to in COMPLETIONS.items() for name in COMPLETED}
PAGES = ("aclctl.1", *(f"aclctl-{it}.1" for it in BESIDE))
FILES = (*SCRIPTS, *(f"bin/reporting/{it}" for it in PARTS))
FILES += (*(f"docs/{it}" for it in PAGES), *(f"completions/{it}" for it in COMPLETIONS))
FILES += ("include/meardwyn.h", "include/meardwyn.map", "docs/meardwyn.3")
EXAMPLES = [it for folder in ("capi", "fuse") for it in (TOP / "examples" / folder).iterdir() if it.suffix or it.name == "Makefile"]
EXAMPLES = sorted(f"{it.parent.name}/{it.name}" for it in EXAMPLES)
FILES += (*(f"examples/{it}" for it in EXAMPLES),)
FILES += ("README.md", "LICENSE-APACHE", "LICENSE-MIT", "CHANGELOG.md", "VERSION")
# It builds the program, unless it is told not to, and writes down that it was called.
KIT = """#!/bin/sh
echo "$*" >> "$ROOM/calls"
[ ! -e "$ROOM/bad" ] || exit 1
mkdir -p out
cp "$ROOM/program" out/aclctl
"""
# It builds the C library, which needs that of C, unless it is told not to.
LIBRARY = """#!/bin/sh
cd "$(dirname "$0")/.."
[ ! -e "$ROOM/bad" ] || exit 1
mkdir -p out/capi out/build
echo static > out/capi/libmeardwyn.a
printf '\\0libmeardwyn.so.0\\0libc.so.6\\0GLIBC_2.14\\0shared\\n' > out/capi/libmeardwyn.so.0
sha256sum out/capi/* > out/build/capi.sha256
"""
GLIBC = re.search(r"glibc ([0-9.]*[0-9])", (TOP / "README.md").read_text())[1]
VERSION = (TOP / "VERSION").read_text().strip()


class SmallCheckout:
    """Such a checkout, in a folder of its own in `room`."""

    def __init__(self, room):
        self.room, self.top = room, room / "checkout"
        self.program = self.top / "crates/aclctl/out/aclctl"
        for name in FILES:
            (self.top / name).parent.mkdir(parents=True, exist_ok=True)
            shutil.copy(TOP / name, self.top / name)
        for part in ("src", "specs", "proofs"):
            (self.top / "crates/aclctl" / part).mkdir(parents=True)
        (self.top / "crates.txt").write_text("aclctl: thiserror\n")
        (self.top / ".gitignore").write_text("out/\n__pycache__/\n")
        (self.top / "crates/aclctl/src/main.rt").write_text("")
        (room / "bin").mkdir()
        self.write("bin/rt", KIT)
        self.write("checkout/dev/build-capi", LIBRARY)
        # It needs as much of glibc as the program does, and libgcc.
        self.write("program", f'#!/bin/sh\necho "aclctl {VERSION}"\nexit 0\nGLIBC_2.17 GLIBC_{GLIBC}\n\0libgcc_s.so.1\0libc.so.6\0\n')
        path = f"{room}/bin:{os.environ['PATH']}"
        self.env = {**os.environ, "PATH": path, "ROOM": str(room), "GIT_CONFIG_GLOBAL": "/dev/null"}
        self.env.pop("DESTDIR", None)

    def write(self, name, text):
        """Writes a program of the room."""
        (self.room / name).write_text(text)
        (self.room / name).chmod(0o755)

    def run(self, *words, **env):
        """Runs a command at the top of the checkout, under a mask that would hide what it makes."""
        how = {"capture_output": True, "text": True, "timeout": SLOW, "cwd": self.top}
        return subprocess.run(words, env={**self.env, **env}, umask=0o077, **how)

    def script(self, name, *words, **env):
        """Runs a script of the checkout."""
        return self.run(next(it for it in map(self.top.joinpath, SCRIPTS) if it.name == name), *words, **env)

    def builds(self):
        """How often the kit was called."""
        calls = self.room / "calls"
        return len(calls.read_text().splitlines()) if calls.exists() else 0
