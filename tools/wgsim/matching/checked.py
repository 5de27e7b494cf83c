"""`wgsim check`: whether the barriers of a trace are enough, by the program, and in words what its answer means in the text.

`agrees` is a line. Of `differs` it is told which step reads, which writes, what may be seen, and which barrier is missing and where
(clash.py); of `bad trace` which line it is, what of it breaks the rule, and what was expected (notrace.py). """

from __future__ import annotations

import json
from typing import TYPE_CHECKING, Any

from wgsim.exit_status import BAD_TRACE, DIFFERS, NO_MEMORY, TOO_LARGE, UNREAD, UNWRITTEN, End
from wgsim.matching import clash, notrace
from wgsim.matching.beside import Beside, DoNotMatch
from wgsim.reading import script as scripts
from wgsim.reading.places import NotJson, escaped
from wgsim.reading.report import NotReport, Report

if TYPE_CHECKING:
    from wgsim.matching.clash import Told
    from wgsim.program.program import Program
    from wgsim.reading.places import Text

# What the program's own statuses mean where it writes nothing.
OF_TRACES = {
    UNREAD: "the program could not read the trace",
    UNWRITTEN: "the program could not write its answer",
    NO_MEMORY: "the program had no memory for the trace",
    TOO_LARGE: "the text has more than 67108864 bytes, so it is not read as a trace at all",
}
AGREE = "in every order of the steps that keeps the barriers, each read sees what it sees as printed, and so does the end"


class Checked:
    """What the program says of a trace, with the script that the trace is of, if one is given.

    `clash` is what differs, with `beside` the report beside the script where the two belong together, and `why` they do not."""

    def __init__(self, data: bytes, name: str, program: Program, text: Text | None = None) -> None:
        self.data, self.name, self.program = data, name, program
        self.status, said = program.check(data)
        if self.status in OF_TRACES:
            raise End(self.status, f"{name}: {OF_TRACES[self.status]}")
        self.line = said.decode("ascii", "replace").rstrip("\n")
        self.beside, self.why = beside_of(data, text) if text is not None and self.status != BAD_TRACE else (None, None)
        self.clash = self.found() if self.status == DIFFERS else None

    def found(self) -> clash.Clash | None:
        """What differs, as a clash of two steps; None where the trace has no such steps."""
        try:
            return clash.Clash(self.line, self.data.decode("ascii").split("\n"))
        except (ValueError, KeyError, AttributeError, IndexError):
            return None

    def told(self, found: clash.Clash) -> Told:
        """The clash as it is told: by the names of the script, where there is one."""
        return clash.Told(found, self.name, clash.ByScript(self.beside) if self.beside else clash.ByNumber())

    def fault(self) -> list[int]:
        """The rule and the line of a text that is no trace."""
        return [int(word) for word in self.line.split(" ")[2:]]

    def lines(self) -> list[str]:
        by = f"(the answer of {self.program.said})"
        if self.status == BAD_TRACE:
            return [f"{self.line}: {self.name} is no trace {by}", *notrace.explained(self.name, self.data, *self.fault())]
        if self.status != DIFFERS:
            return [f"{self.line}: {AGREE} {by}", *self.unmatched()]
        if self.clash is None:
            return [f"{self.line} {by}", "  the steps were not found: the program tells no more than the line above"]
        told = self.told(self.clash)
        return [f"{self.line}: {told.head()} {by}", *self.unmatched(), *told.lines()]

    def unmatched(self) -> list[str]:
        return [f"(the steps are told without their calls, since this tool cannot match them: {self.why})"] if self.why else []

    def facts(self) -> dict[str, Any]:
        """All of it as an object, for a machine."""
        found = {
            "kind": self.line.split(" ")[0] if self.status != BAD_TRACE else "bad trace",
            "answer": self.line,
            "status": self.status,
            "by": self.program.said,
        }
        if self.why:
            found["unmatched"] = self.why
        if self.status == BAD_TRACE:
            found.update(notrace.facts(self.data, *self.fault()))
        elif self.clash is not None:
            found.update(self.told(self.clash).facts())
        return found


def beside_of(data: bytes, text: Text) -> tuple[Beside | None, str | None]:
    """A report beside its script, and None; or None, and why they do not belong together."""
    try:
        script = scripts.read(text)
        if script is None:
            return None, "the text has no phases and lanes"
        return Beside(Report(data.decode("ascii")), script), None
    except (NotJson, DoNotMatch, NotReport) as error:
        return None, str(error)


def check(data: bytes, name: str, program: Program, text: Text | None = None) -> tuple[str, int]:
    """The answer in words, and its status."""
    checked = Checked(data, name, program, text)
    return "".join(escaped(line) + "\n" for line in checked.lines()), checked.status


def check_json(data: bytes, name: str, program: Program, text: Text | None = None) -> tuple[str, int]:
    """The answer as one object, and its status."""
    checked = Checked(data, name, program, text)
    return json.dumps(checked.facts(), ensure_ascii=True) + "\n", checked.status
