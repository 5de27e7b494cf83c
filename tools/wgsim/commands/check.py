"""Whether the barriers of a report, or of a trace of your own, are enough: agrees, differs with the two steps and the barrier that is
missing, or bad trace with what is wrong."""

from __future__ import annotations

import argparse

from wgsim import inputs

HELP = "whether the barriers of a trace are enough"
BY_PROGRAM = True


def add_words(parser: argparse.ArgumentParser) -> None:
    parser.add_argument("--json", action="store_true", help="for a machine: an object in a line")
    parser.add_argument("--script", metavar="SCRIPT", help="the script whose report it is, for its names and calls")
    parser.add_argument("file", nargs="?", default=inputs.STANDARD, metavar="TRACE", help="a report, or a trace")


def act(words: argparse.Namespace) -> int:
    from wgsim.matching import checked

    said, status = (checked.check_json if words.json else checked.check)(*inputs.trace_of(words))
    inputs.write(said)
    return status
