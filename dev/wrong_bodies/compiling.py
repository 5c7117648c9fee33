"""Whether edits compile: the kit's front end alone tells, so that all of them take minutes."""

import tempfile
from concurrent.futures import ThreadPoolExecutor
from pathlib import Path

from wrong_bodies import crates, judging
from wrong_bodies.clock import Ended
from wrong_bodies.prover import Prover


def library(crate):
    """Where a library of the repository stands once it is built."""
    return crates.folder(crate) / f"out/rlib/{crate}.rlib"


def together(edits):
    """Puts edits of a crate together of which none takes another's text away."""
    found = []
    for edit in edits:
        fit = next((it for it in found if edit.apply(texts_of(it)) is not None), None)
        if fit:
            fit.append(edit)
        else:
            found.append([edit])
    return found


def texts_of(edits):
    """The texts that such edits make."""
    made = {}
    for edit in edits:
        made |= edit.apply(made)
    return made


def uncompiled(prover, edits):
    """Why those edits of a crate don't compile that don't, a line for each: it halves them until each is told."""
    compiles, lines = prover.compiles(edits[0].crate, texts_of(edits))
    if compiles:
        return []
    if len(edits) == 1:
        return [f"{edits[0].kind()}: {judging.why_unread(lines)}"]
    half = len(edits) // 2
    return uncompiled(prover, edits[:half]) + uncompiled(prover, edits[half:])


def tried(prover, edits):
    """How many edits of a crate were compiled in time, and why those don't compile that don't. Of a crate that doesn't compile by
    itself, over libraries of other sources, say, none is."""
    crate = edits[0].crate
    try:
        if prover.compiles(crate, texts_of(edits))[0]:
            return len(edits), []
        if not prover.compiles(crate, {})[0]:
            print(f"{crate} doesn't compile over the libraries that are built here", flush=True)
            return 0, []
        return len(edits), uncompiled(prover, edits)
    except Ended:
        return 0, []


def built(found):
    """The edits of those crates that stand on built libraries alone; prints which don't."""
    ready = []
    for crate, edits in found.items():
        lack = [it for it in crates.below(crate) if not library(it).is_dir()]
        if edits and lack:
            print(f"{crate} stands on {', '.join(lack)}, not built here", flush=True)
        elif edits:
            ready += together(edits)
    return ready


def compile_all(clock, found):
    """Compiles the edits of crates whose libraries are built, prints which don't, and returns how many were tried and how many do."""
    tries = built(found)
    with tempfile.TemporaryDirectory(prefix="wrong-bodies-") as room, ThreadPoolExecutor(len(tries) + 1) as pool:
        for it in crates.stands_on():
            Path(room, f"{it}.rlib").symlink_to(library(it))
        prover = Prover(room, clock, {}, None)
        results = [*pool.map(lambda edits: tried(prover, edits), tries)]
    failures = [it for _, lines in results for it in lines]
    for it in failures:
        print(f"failed: {it}")
    count = sum(it for it, _ in results)
    return count, count - len(failures)
