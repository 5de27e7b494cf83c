"""The report in words, beside the script: which call, why, and what a driver has to do."""

from __future__ import annotations

import argparse

from wgsim import inputs

HELP = "the report in words: which call, why, and what a driver has to do"
BY_PROGRAM = True


def add_words(parser: argparse.ArgumentParser) -> None:
    parser.add_argument("--json", action="store_true", help="for a machine: an object for each fault, promise and entry, in a list")
    parser.add_argument("--report", metavar="REPORT", help="of a report that is there and not of a new play")
    parser.add_argument("file", nargs="?", default=inputs.STANDARD, metavar="FILE", help="a script")


def act(words: argparse.Namespace) -> int:
    from wgsim.matching import explained, fault_objects

    text, status = (fault_objects.explained if words.json else explained.explain)(*inputs.script_of(words))
    inputs.write(text)
    return status
