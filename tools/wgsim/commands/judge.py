"""Runs each script NAME.json of a folder, and compares it with NAME.expected, or, where it was recorded, with what the browser answered:
agrees, differs or outside, call by call."""

from __future__ import annotations

import argparse

from wgsim import inputs
from wgsim.program.program import Program

HELP = "each script of a folder, beside what is expected of it"
BY_PROGRAM = True


def add_words(parser: argparse.ArgumentParser) -> None:
    parser.add_argument("--json", action="store_true", help="for a machine: an object for each script, in a line")
    parser.add_argument("folder", metavar="FOLDER", help="where the scripts are")


def act(words: argparse.Namespace) -> int:
    from wgsim.matching import judged

    return judged.judge(words.folder, words.json, lambda: Program(words.is_unproved), inputs.write)
