"""The copy of a crate that a check is of."""

import os
import re
import shutil
import tempfile
from contextlib import contextmanager
from pathlib import Path

from wrong_bodies import crates

# What a crate is made of.
PARTS = ("src", "specs", "proofs")


def link(kept, copy):
    """Gives what was kept of a proof a second place: the prover writes anew what it changes, and nothing into what is there."""
    try:
        os.link(kept, copy)
    except OSError:
        shutil.copy2(kept, copy)


def answers_of(crate, edits):
    """The files of answers of a crate with the prover's search for each goal at which one of these edits is refused."""
    texts = {}
    for folder, name, parameters in sorted({it for edit in edits for it in edit.goals}):
        path = crates.folder(crate) / folder / "Answers.antt"
        text = texts.get(f"{folder}/Answers.antt") or (path.read_text() if path.is_file() else "")
        if not re.search(r"^use .*\brules\b", text, re.MULTILINE):
            text = f"use Rattle.std.proofs.Common.{{rules}}\n{text}"
        if " as goal\n" not in text:
            text += f"use Rattle.{crate}.{folder.replace('/', '.')}.Goals as goal\n"
        texts[f"{folder}/Answers.antt"] = f"{text}\npub {name} : goal.{name}\n{name} {parameters} = search rules\n"
    return texts


def without_main(text):
    """The root of a program without its main function, so that it is checked as a library, and no linking takes longer than its proofs."""
    return re.sub(r"^fn main\(.*?^}\n", "", text, flags=re.DOTALL | re.MULTILINE)


@contextmanager
def copy_of(crate, texts):
    """A copy of a crate without a main function, with these texts in place of its own or beside them, in a folder that goes afterwards."""
    with tempfile.TemporaryDirectory(prefix="wrong-body-") as room:
        for part in PARTS:
            if (crates.folder(crate) / part).is_dir():
                shutil.copytree(crates.folder(crate) / part, f"{room}/{part}")
        for file, text in texts.items():
            Path(room, file).parent.mkdir(parents=True, exist_ok=True)
            Path(room, file).write_text(text)
        if (program := Path(room, "src/main.rt")).is_file():
            program.write_text(without_main(program.read_text()))
        yield room
