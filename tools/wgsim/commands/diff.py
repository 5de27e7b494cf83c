"""Compares two reports, entry by entry and step by step; a script in the place of a report is played first."""

from __future__ import annotations

import argparse

from wgsim import inputs

HELP = "two reports, entry by entry and step by step"
BY_PROGRAM = True


def add_words(parser: argparse.ArgumentParser) -> None:
    parser.add_argument("--script", metavar="FILE", help="the script of the reports, for its names")
    parser.add_argument("file", metavar="A", help="a report, or a script")
    parser.add_argument("other", metavar="B", help="another")


def act(words: argparse.Namespace) -> int:
    from wgsim.matching import differences

    script = inputs.read(words.script) if words.script else None
    text, status = differences.compare([inputs.read(words.file), inputs.read(words.other)], script, words.is_unproved)
    inputs.write(text)
    return status
