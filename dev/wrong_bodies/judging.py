"""What the kit says of an edit, read by its wording: the one place that knows the words of a kit."""

import re
import subprocess
import sys

# The kits whose wording is known here.
KITS = ("rattle-kit-13b", "rattle-kit-13f")
# What a check says of a proof: that an answer is refused, or that one is wanting.
TOLD = re.compile(r"(?:\./)?(proofs/\S+)/\w+\.antt:\d+:\d+: error: |fn \S+: no proof: expected answers in (?:\./)?(proofs/\S+)/Answers\.antt;")
# Why a proof file may be refused that names what an edit took away.
NAMES = re.compile(r"has no field|is not in scope|has no `|was not admitted")


def stop_on_another_kit():
    """Stops if the kit isn't one whose wording is known here."""
    said = subprocess.run(["rt", "version"], capture_output=True, text=True, check=True).stdout
    if said.partition(" ")[0] not in KITS:
        sys.exit(
            f"dev/wrong-bodies knows the words of {' and '.join(KITS)}, and this is {said.strip()}: "
            "look at dev/wrong_bodies/judging.py, and at its tests"
        )


def is_reached(status, lines):
    """Whether a check that ended with a status and wrote these lines came as far as the proofs."""
    return status in (0, 1) and lines[-1].startswith(("only=", "logic="))


def unread(lines):
    """The first line of a check that refuses what a source or a definition says, before any proof, or None."""
    return next((it for it in lines if re.match(r"(?:\./)?(?:src|specs)/\S+: error", it)), None)


def why_unread(lines):
    """What is said of an edit of which a check didn't come as far as the proofs."""
    return f"BAD EDIT: it did not reach the prover: {(unread(lines) or lines[0])[:160]}"


def is_named(own, line):
    """Whether a line of a check says that a function isn't proved: at its place, or at an answer of its proof."""
    if at := re.match(r"note: (src/\S+?):(\d+):\d+: (?:it is not proved|`search` found no proof)", line):
        return at[1] == own.file and own.first <= int(at[2]) <= own.last
    at = TOLD.match(line)
    return bool(at and own.proof) and own.proof in at.groups()


def is_proved_by(own, crate, line):
    """Whether a line of a check of a crate says that a function is proved."""
    proved = f"fn {crate}::{own.path()}: proved"
    return bool(own.proof) and (line == proved or line.startswith(f"{proved}, "))


def refusal(edit, lines):
    """The first line of a check that refuses one of the functions that an edit changes, and isn't about a name that is gone."""
    own = [it for it in edit.functions if it]
    told = (it for it in lines if not NAMES.search(it) and any(is_named(one, it) for one in own))
    return next(told, None)


def is_all_proved(edit, lines):
    """Whether lines of a check say of each of the functions that an edit changes that it is proved."""
    is_proved = lambda own: any(is_proved_by(own, edit.crate, it) for it in lines)
    return all(edit.functions) and all(map(is_proved, edit.functions))


def verdict(is_proved, lines):
    """Whether a check of one edit alone refuses it, and why, by whether all is proved (None if it wasn't read) and by its lines."""
    if is_proved is None or unread(lines):
        return False, why_unread(lines)
    if is_proved:
        return False, "NOT REFUSED"
    told = [it for it in lines if re.match(r"note: src/\S+:\d+:\d+: |(\./)?proofs/\S+: error: ", it)]
    first = next((it for it in told if not NAMES.search(it)), None)
    if told and first is None:
        return True, f"refused, but only because a proof file names what the edit took away: {told[0][:160]}"
    return True, f"refused: {(first or lines[-1])[:160]}"
