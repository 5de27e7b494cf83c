"""What commands read and write: files or standard input, and standard output."""

from __future__ import annotations

import argparse
import os
import sys
from typing import TYPE_CHECKING, BinaryIO

from wgsim import exit_status
from wgsim.program import building, program
from wgsim.reading import places

if TYPE_CHECKING:
    from wgsim.matching.given import Asked

# The word for standard input, and its name as places show it.
STANDARD, ITS_NAME = "-", "<standard input>"


def opened(name: str, what: str = "a script") -> BinaryIO:
    """An input as an open file of bytes."""
    if name == STANDARD:
        if sys.stdin is None:
            raise exit_status.End(exit_status.UNREAD, "standard input is closed")
        if sys.stdin.isatty():
            building.say(f"reading {what} from the terminal; end it with control and D")
        return sys.stdin.buffer
    try:
        if os.path.isdir(name):
            raise exit_status.End(exit_status.UNREAD, f"{name} is a folder")
        return open(name, "rb")
    except OSError as error:
        raise exit_status.End(exit_status.UNREAD, f"{name}: {error.strerror}") from None


def read(name: str, what: str = "a script") -> tuple[bytes, str]:
    """The bytes of an input, and its name as places show it."""
    with opened(name, what) as file:
        try:
            return file.read(), ITS_NAME if name == STANDARD else name
        except OSError as error:
            raise exit_status.End(exit_status.UNREAD, f"{name}: {error.strerror}") from None


def write(data: bytes | str) -> None:
    """Writes bytes, or a text, to standard output."""
    sys.stdout.buffer.write(data if isinstance(data, bytes) else data.encode("utf-8", "backslashreplace"))
    sys.stdout.buffer.flush()


def trace_of(words: argparse.Namespace) -> tuple[bytes, str, program.Program, places.Text | None]:
    """A trace with its name, the program that judges it, and the script whose report it is, if that is known."""
    data, name = read(words.file, "a report or a trace")
    text = places.Text(*read(words.script)) if words.script is not None else None
    return data, name, program.Program(words.is_unproved), text


def script_of(words: argparse.Namespace) -> tuple[places.Text, bytes, Asked]:
    """A script, its bytes, and what is asked about it: the program, or a report that is there."""
    data, name = read(words.file)
    text = places.Text(data, name)
    if words.report is None:
        return text, data, program.Program(words.is_unproved)
    from wgsim.matching import given

    return text, data, given.Given(*read(words.report), text)
