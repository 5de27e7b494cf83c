"""Plays a script and writes the program's report, byte for byte, with the program's own exit status.

With --callers it is the report for this order of turns, by the second reading, which is not proved.
"""

from __future__ import annotations

import argparse

from wgsim import inputs
from wgsim.program.program import Program

HELP = "the program's report of a script, byte for byte"
BY_PROGRAM = True


def callers_in(word: str) -> list[int]:
    """The callers of a list as `0,1,0`, which may be empty."""
    callers = word.split(",") if word else []
    if not all(caller.isascii() and caller.isdigit() and len(caller) < 9 for caller in callers):
        raise argparse.ArgumentTypeError(f"callers are numbers of lanes with commas between them, as 0,1,0, and not {word}")
    return [int(caller) for caller in callers]


def add_words(parser: argparse.ArgumentParser) -> None:
    parser.add_argument("--callers", metavar="0,1,0", type=callers_in, help="the order of turns: a caller for each entry")
    parser.add_argument("file", nargs="?", default=inputs.STANDARD, metavar="FILE", help="a script")


def act(words: argparse.Namespace) -> int:
    if words.callers is not None:
        return forced(words)
    file = inputs.opened(words.file)
    program = Program(words.is_unproved)
    if not program.is_unproved:
        program.become(["run"], file)
    status, out = program.ask(file.read())
    inputs.write(out)
    return status


def forced(words: argparse.Namespace) -> int:
    from wgsim.matching import orders, second

    status, text = orders.forced(*inputs.read(words.file), words.callers)
    second.say()
    inputs.write(text)
    return status
