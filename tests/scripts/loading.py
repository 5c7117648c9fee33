"""A script of this repository as a module, though its name has no ending."""

import importlib.machinery
import importlib.util
from pathlib import Path

TOP = Path(__file__).resolve().parent.parent.parent


def script(place):
    """The script at this place below the top, such as `dev/layout`."""
    loader = importlib.machinery.SourceFileLoader(Path(place).name.replace("-", "_"), str(TOP / place))
    made = importlib.util.module_from_spec(importlib.util.spec_from_loader(loader.name, loader))
    loader.exec_module(made)
    return made
