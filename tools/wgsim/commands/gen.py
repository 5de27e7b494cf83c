"""Plays a generated script of N iterations in one lane, or in each of L lanes at once, and writes what the program counts.

N is from 1 to 8000, L to 64, and N times L to 8000.
"""

from __future__ import annotations

import argparse

from wgsim.program.program import Program

HELP = "what the program counts of a generated script"
BY_PROGRAM = True


def add_words(parser: argparse.ArgumentParser) -> None:
    parser.add_argument("count", metavar="N", help="how many iterations")
    parser.add_argument("lanes", nargs="?", metavar="L", help="how many lanes")


def act(words: argparse.Namespace) -> None:
    program = Program(words.is_unproved)
    program.ready()
    program.become(["gen", words.count, *([] if words.lanes is None else [words.lanes])])
