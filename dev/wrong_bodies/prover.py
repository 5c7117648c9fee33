"""How the kit is called: proofs of crates, and checks of edits over them."""

import shutil
import subprocess
from functools import cache
from pathlib import Path

from wrong_bodies import crates, judging
from wrong_bodies.copies import answers_of, copy_of, link
from wrong_bodies.lanes import Lanes, lane_count

# How a check of edits is run: it leaves the processors to the proofs, for which further ones wait.
LAST = ["nice", "-n", "19"]


@cache
def kit():
    """Where the kit stands: the folder of the page that `rt doc` names."""
    return Path(subprocess.run(["rt", "doc"], capture_output=True, text=True, check=True).stdout.strip()).parent


class Prover:
    """Proves crates, and checks groups of their edits over what it proved, in a folder of its own."""

    def __init__(self, folder, clock, found, places):
        """Makes a prover of crates with the edits that were found, for as long as a clock has time."""
        self.folder, self.clock, self.lanes = Path(folder), clock, Lanes(lane_count(), clock)
        self.places, self.proofs, self.answers = places, {}, {}
        for crate, edits in found.items():
            self.answers[crate] = answers_of(crate, [it for it in edits if not it.is_neutral])

    def words(self, verb, crate):
        """The words of a command about a crate over the libraries that were built."""
        words = [kit() / "bin/rattle", verb, "--crate-name", crate, crates.root(crate), "--links", f"{crate}=", "--jobs", "1"]
        words += ["--antt-project", kit() / "rattle/logic/antt-project.json", "--logic-built", kit() / "logic_built"]
        for name in ["std", *crates.stands_on()[crate]]:
            made = self.folder if name in crates.stands_on() else kit() / "rlibs"
            words += ["--extern", f"{name}={made}/{name}.rlib"]
        return [*words, "-L", f"dependency={self.folder}", "-L", f"dependency={kit()}/rlibs"]

    def begin(self, pool, needed):
        """Begins to prove these crates, of which none stands on a later one, in the threads of a pool."""
        for it in needed:
            self.proofs[it] = pool.submit(self.prove, it)

    def is_proved(self, crate):
        """Waits for the proof of a crate that was begun, and returns whether the crate is proved."""
        return self.proofs[crate].result()

    def prove(self, crate):
        """Proves a crate after those below it, keeps its proofs, and returns whether it could."""
        if not all([self.is_proved(it) for it in crates.stands_on()[crate] if it in crates.stands_on()]):
            return False
        kept = ["--incremental", self.folder / crate]
        is_library = (crates.folder(crate) / "src/lib.rt").is_file()
        words = [*self.words("build", crate), "-o", self.folder / f"{crate}.rlib"]
        if not is_library:
            words = self.words("check", crate)
        lane = self.lanes.lane(True, self.places.of_proof(crate))
        with lane, copy_of(crate, self.answers.get(crate, {})) as room:
            status, text = self.clock.run([*words, *kept], room)
        if status:
            print(f"{crate} is not proved without an edit: {text[-400:]}", flush=True)
        return status == 0

    def compiles(self, crate, texts):
        """Returns whether a crate with these texts in it compiles, of which nothing is proved, and the lines."""
        with self.lanes.lane(False, -crates.rank(crate)), copy_of(crate, texts) as room:
            status, text = self.clock.run([*self.words("check", crate), "--only", ""], room)
        lines = text.rstrip("\n").split("\n")
        return judging.is_reached(status, lines) and not judging.unread(lines), lines

    def check(self, group, texts, paths):
        """Checks a group's crate with these texts in it, and returns whether all was proved (None if it wasn't read), and the lines."""
        # Without paths that name what to look at, all is looked at.
        crate, only = group.crate(), [word for it in paths for word in ("--only", it)]
        lane = self.lanes.lane(False, self.places.of_check(group))
        with lane, copy_of(crate, {**self.answers[crate], **texts}) as room:
            shutil.copytree(self.folder / crate, f"{room}/out", copy_function=link)
            words = [*LAST, *self.words("check", crate), "--incremental", f"{room}/out", *only]
            status, text = self.clock.run(words, room)
        lines = text.rstrip("\n").split("\n")
        return (status == 0 if judging.is_reached(status, lines) else None), lines
