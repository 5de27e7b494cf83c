"""The report for each order of turns that there can be, by the second reading, which is not proved."""

from __future__ import annotations

import argparse

from wgsim import exit_status, inputs

HELP = "the report for each order of turns that there can be"
BY_PROGRAM = False


def add_words(parser: argparse.ArgumentParser) -> None:
    parser.add_argument("file", nargs="?", default=inputs.STANDARD, metavar="FILE", help="a script")


def act(words: argparse.Namespace) -> int:
    from wgsim.matching import orders, second

    data, name = inputs.read(words.file)
    second.say()
    for text in orders.outcomes(data, name):
        inputs.write(text)
    return exit_status.REFUSED if text.startswith("bad script ") else exit_status.SAME
