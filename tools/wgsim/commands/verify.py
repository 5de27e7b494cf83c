"""Whether a report is one that the script can have; if not, its first wrong line, and why. By the second reading, which is not proved."""

from __future__ import annotations

import argparse

from wgsim import inputs

HELP = "whether a report is one that its script can have"
BY_PROGRAM = False


def add_words(parser: argparse.ArgumentParser) -> None:
    parser.add_argument("file", metavar="SCRIPT", help="the script")
    parser.add_argument("other", metavar="REPORT", help="the report")


def act(words: argparse.Namespace) -> int:
    from wgsim.matching import second, verified

    text, status = verified.verify(inputs.read(words.file), inputs.read(words.other))
    second.say()
    inputs.write(text)
    return status
