"""The trace as one HTML page: steps, barriers, clears and releases. With --check the same of a trace, with what `check` finds marked in
it."""

from __future__ import annotations

import argparse
from typing import Callable

from wgsim import inputs

HELP = "the trace as one HTML page"
BY_PROGRAM = True


def add_words(parser: argparse.ArgumentParser) -> None:
    parser.add_argument("--report", metavar="REPORT", help="of a report that is there and not of a new play")
    parser.add_argument("--check", action="store_true", help="of a trace, which is checked")
    parser.add_argument("--script", metavar="SCRIPT", help="with --check: the script whose report the trace is")
    parser.add_argument("file", nargs="?", default=inputs.STANDARD, metavar="FILE", help="a script, or with --check a trace")


def test(words: argparse.Namespace, wrong: Callable[[str], None]) -> None:
    if (words.report if words.check else words.script) is not None:
        wrong("picture takes --script with --check alone, and --report without it")


def act(words: argparse.Namespace) -> int:
    from wgsim.pages import marked_trace, picture

    text, status = marked_trace.picture(*inputs.trace_of(words)) if words.check else picture.picture(*inputs.script_of(words))
    inputs.write(text)
    return status
