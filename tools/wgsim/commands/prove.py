"""Proves and builds the program, and tells how far it is."""

from __future__ import annotations

import argparse

from wgsim import exit_status
from wgsim.program import building, release

HELP = "proves and builds the program"
BY_PROGRAM = False


def add_words(parser: argparse.ArgumentParser) -> None:
    """It takes none."""


def act(words: argparse.Namespace) -> int:
    if release.is_one():
        raise exit_status.End(exit_status.NOT_BUILT, "a release has its program, and no sources to prove")
    if building.is_built():
        building.say("the proved program is built from these sources already")
    else:
        building.build()
    return exit_status.SAME
