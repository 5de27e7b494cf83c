"""Writes what a shell has to be told so that it completes the words of the tool.

For bash `source <(./wgsim completion bash)`, for zsh `source <(./wgsim completion zsh)`, for fish `./wgsim completion fish | source`.
"""

from __future__ import annotations

import argparse

from wgsim import commands, completion, exit_status, inputs

HELP = "what a shell needs to complete these words"
BY_PROGRAM = False


def add_words(parser: argparse.ArgumentParser) -> None:
    parser.add_argument("shell", choices=sorted(completion.SHELLS), help="which shell")


def act(words: argparse.Namespace) -> int:
    from wgsim import words as command_line

    found = commands.found()
    parser, each = command_line.parser_of(found)
    told = completion.commands_of(parser, each, {name: module.HELP for name, module in found.items()})
    inputs.write(completion.SHELLS[words.shell](told))
    return exit_status.SAME
