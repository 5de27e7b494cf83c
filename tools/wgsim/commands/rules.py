"""What rule N asks, or all rules."""

from __future__ import annotations

import argparse
from typing import Callable

from wgsim import exit_status, inputs

HELP = "what a rule asks, or all rules"
BY_PROGRAM = False


def number(word: str) -> int:
    if not (word.isascii() and word.isdigit()):
        raise argparse.ArgumentTypeError(f"a rule has a number, and not {word}")
    return int(word)


def add_words(parser: argparse.ArgumentParser) -> None:
    parser.add_argument("--page", action="store_true", help="the text of docs/rules.md, which is made from docs/rules.json")
    parser.add_argument("number", nargs="?", type=number, metavar="N", help="the number of a rule")


def test(words: argparse.Namespace, wrong: Callable[[str], None]) -> None:
    if words.page and words.number is not None:
        wrong("rules --page takes no further word")


def act(words: argparse.Namespace) -> int:
    from wgsim.reading import rules

    text = rules.page() if words.page else rules.all_shown() if words.number is None else rules.shown(words.number)
    if text is None:
        raise exit_status.End(exit_status.WORDS, f"there is no rule {words.number}; `wgsim rules` has all")
    inputs.write(text)
    return exit_status.SAME
