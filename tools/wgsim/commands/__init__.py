"""The commands of the tool: each module of this folder is one, of the module's name.

A command has
    HELP               what it does, in a line
    BY_PROGRAM         whether the proved program can answer it
    add_words(parser)  its words, for argparse; an input that may be standard input is `file`, `other`, `script` or `report`
    test(words, wrong) what is asked of the words together, if anything is: `wrong` is called with why they are not as they should be
    act(words)         does it, and returns the exit status
Its first docstring is its help. What it takes long to read is imported where it acts.
"""

from __future__ import annotations

import importlib
import pathlib
from types import ModuleType


def found() -> dict[str, ModuleType]:
    """Each command by its name."""
    names = sorted(path.stem for path in pathlib.Path(__file__).parent.glob("*.py") if path.stem != "__init__")
    return {name: importlib.import_module(f"{__name__}.{name}") for name in names}
