"""The number of "VERTEX|COPY_DST", or the words of a number: usages, stages, map modes."""

from __future__ import annotations

import argparse

from wgsim import exit_status, inputs

HELP = "the number of some words, or the words of a number"
BY_PROGRAM = False


def add_words(parser: argparse.ArgumentParser) -> None:
    parser.add_argument("bits", metavar="WORDS", help="words with | between them, or a number")


def act(words: argparse.Namespace) -> int:
    from wgsim.reading import bits

    inputs.write("".join(line + "\n" for line in bits.lines_of(words.bits)))
    return exit_status.SAME
