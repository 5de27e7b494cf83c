"""What lies beside a script that was recorded: NAME.answers.json, what the browser answered, and NAME.calls.json, where in the page each
call is."""

from __future__ import annotations

import json
import pathlib
import re
from typing import TYPE_CHECKING, Any, TypedDict

from wgsim import exit_status

if TYPE_CHECKING:
    from wgsim.reading.script import Call, Script

ANSWERS, CALLS = ".answers.json", ".calls.json"
# A name with its label, if it has one, and its place in the script.
NAMED = re.compile(r'"(\w+)"(?: "(?:[^"\\]|\\.)*")? \(\d+:\d+\)')


class Answer(TypedDict, total=False):
    """What a browser answered to a call: an error that it told or threw, or how it settled a promise; and what a script cannot say of the
    call."""

    call: int
    error: str
    caught: str
    message: str
    throws: str
    settle: str
    left: list[str]


class Passed(Answer, total=False):
    """A call that no script has, before the call of a number."""

    before: int
    do: str
    outside: str
    detail: str
    at: str


class Note(TypedDict, total=False):
    """What happened beside the calls, before the call of a number: a shader that was refused, what a call threw, what the page threw, a
    loss of the device, or an error of no call."""

    before: int
    at: str
    do: str
    shader: str
    message: str
    thrown: str
    lost: str
    stray: str
    page: str


def is_beside(name: str) -> bool:
    """Whether a file belongs to a recording, and is no script."""
    return name.endswith((ANSWERS, CALLS))


def is_recorded(path: pathlib.Path) -> bool:
    """Whether what a browser answered lies beside a script."""
    return path.suffix == ".json" and not is_beside(path.name) and path.with_name(path.stem + ANSWERS).is_file()


def read(path: pathlib.Path) -> dict[str, Any]:
    """A file of a recording, of the form that is known here."""
    try:
        found = json.loads(path.read_text(encoding="utf-8"))
    except OSError as error:
        raise exit_status.End(exit_status.UNREAD, f"{path}: {error.strerror}") from None
    except ValueError:
        found = None
    if not isinstance(found, dict) or found.get("form") != 1:
        raise exit_status.End(exit_status.UNREAD, f"{path} is no part of a recording")
    return found


class Pages:
    """The places in the page of the calls of a script; none where the script was not recorded."""

    def __init__(self, name: str) -> None:
        path = pathlib.Path(name)
        beside = path.with_name(path.stem + CALLS) if path.suffix == ".json" and not is_beside(path.name) else None
        self.calls = read(beside).get("calls", []) if beside is not None and beside.is_file() else []

    def told(self, call: Call) -> dict[str, Any]:
        """What is told of a call."""
        phase, lane, number = call.place
        found = self.calls[number] if (phase, lane) == (0, 0) and number < len(self.calls) else {}
        return found if isinstance(found, dict) else {}

    def of(self, call: Call) -> list[str]:
        """The place of a call and those from which that was called, or none."""
        told = self.told(call)
        return [told["at"], *told.get("by", [])] if "at" in told else []

    def word(self, call: Call) -> str:
        """What the page called, where a call of the script stands for one that no script has."""
        return self.told(call).get("standsFor", call.word)

    def at(self, call: Call) -> str | None:
        """The place of a call, or None."""
        found = self.of(call)
        return found[0] if found else None

    def said(self, call: Call) -> list[str]:
        """The same in words, in a line or none."""
        found = self.of(call)
        by = f", called from {', '.join(found[1:])}" if len(found) > 1 else ""
        stands = f": {self.word(call)}, for which this {call.word} stands" if self.word(call) != call.word else ""
        return [f"call {call.place[2]}, in the page: {found[0]}{by}{stands}"] if found else []

    def made(self, words: str, script: Script) -> list[str]:
        """Where in the page the objects come from that some words name with their places in the script, in lines."""
        makers = [(name, script.maker_of(name)) for name in dict.fromkeys(NAMED.findall(words))]
        return [f'in the page "{name}" comes from {self.at(call)}' for name, call in makers if call is not None and self.at(call)]


class Answers:
    """What a browser answered to the calls of a script."""

    def __init__(self, path: pathlib.Path) -> None:
        self.told = read(path.with_name(path.stem + ANSWERS))
        self.of: dict[int, Answer] = {answer["call"]: answer for answer in self.told["answers"]}
        self.passed: list[Passed] = self.told.get("passed", [])
        self.notes: list[Note] = self.told.get("notes", [])
        self.device: list[str] = self.told.get("device", [])
        self.left: dict[str, int] = self.told.get("left", {})
        self.ended = self.told.get("ended")
