"""Writes the generated script that `gen N L` plays, as text."""

from __future__ import annotations

import argparse

from wgsim import exit_status, inputs

HELP = "the generated script of `gen`, as text"
BY_PROGRAM = False


def add_words(parser: argparse.ArgumentParser) -> None:
    parser.add_argument("count", metavar="N", help="how many iterations")
    parser.add_argument("lanes", nargs="?", default="1", metavar="L", help="how many lanes")


def act(words: argparse.Namespace) -> int:
    from wgsim.reading import generated

    count, lanes = generated.number(words.count), generated.number(words.lanes)
    if count is None or lanes is None or not generated.fits(count, lanes):
        raise exit_status.End(exit_status.WORDS, "N is from 1 to 8000, L from 1 to 64, and N times L at most 8000")
    inputs.write(generated.text(count, lanes))
    return exit_status.SAME
