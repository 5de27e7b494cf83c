"""Reads a report: the entries of the history, and the steps and releases of the trace."""

from __future__ import annotations

from typing import NamedTuple, Sequence

SORTS = {"b": "buffer", "t": "texture", "q": "query set", "s": "texture"}


class NotReport(Exception):
    """The text is no report: in the line `number`, counted from 1."""

    def __init__(self, number: int, line: str) -> None:
        super().__init__(f"line {number} is none of a report: {line[:80]!r}")


class Fault(NamedTuple):
    """The fault of an entry: its kind, its rule, and which error scope caught it, or that none did."""

    kind: str
    rule: int
    caught: str


class Entry:
    """A line of the history."""

    def __init__(self, line: str) -> None:
        words = line.split(" ")
        self.line = line
        self.number, self.lane, self.word = int(words[0]), int(words[1]), words[2]
        rest = words[3:]
        self.answer = rest[: {"made": 3, "op": 2}.get(rest[0], 1)]
        rest = rest[len(self.answer) :]
        self.fault: Fault | None = None
        if rest[:1] == ["fault"]:
            caught = 2 if rest[3] == "scope" else 1
            self.fault = Fault(rest[1], int(rest[2]), " ".join(rest[3 : 3 + caught]))
            rest = rest[3 + caught :]
        self.settled: list[tuple[int, str]] = []
        while rest:
            if rest[0] != "settle":
                raise ValueError(line)
            length = 5 if rest[2] == "error" else 3
            self.settled.append((int(rest[1]), " ".join(rest[2:length])))
            rest = rest[length:]

    def own_fault(self) -> Fault:
        """The fault, of an entry that has one."""
        assert self.fault is not None
        return self.fault

    def object(self) -> int | None:
        """The number of the object that was made, or None."""
        return int(self.answer[1]) if self.answer[0] == "made" else None

    def is_valid(self) -> bool:
        return self.answer[0] != "made" or self.answer[2] == "valid"

    def operation(self) -> int | None:
        return int(self.answer[1]) if self.answer[0] == "op" else None


class Part:
    """A part or some cells: sort, object, and for a texture aspect and mip level, and where they lie from and to; 0 of what is whole."""

    def __init__(self, words: Sequence[str]) -> None:
        self.words = tuple(words)
        self.sort, self.object = words[0], int(words[1])
        self.aspect: str | None = None
        self.mip: int | None = None
        self.is_whole, self.low, self.high = len(words) <= 2, 0, 0
        if words[0] in ("t", "s") and len(words) > 2:
            self.aspect, self.mip, self.low, self.high = words[2], int(words[3]), int(words[4]), int(words[5])
        elif len(words) > 2:
            self.low, self.high = int(words[2]), int(words[3])

    def resource(self) -> tuple[str, int]:
        """The sort and number of the resource that it is of."""
        return ("t" if self.sort == "s" else self.sort, self.object)

    def row(self) -> tuple[str, int, str, int]:
        """The resource, and of a texture its aspect and mip level."""
        return (*self.resource(), self.aspect or "", self.mip or 0)


class Step:
    """A step of the trace with the barriers before it."""

    def __init__(self, words: list[str], barriers: list[tuple[Part, str, str]]) -> None:
        self.number, self.is_host, self.at, self.name = int(words[1]), words[2] == "host", int(words[3]), words[4]
        self.barriers = barriers
        self.uses = []
        self.accesses = []

    def head(self) -> tuple[str, int, str]:
        return ("host" if self.is_host else "op", self.at, self.name)


class Release:
    """The memory of a resource is given back."""

    def __init__(self, words: list[str]) -> None:
        self.sort, self.object = words[1], int(words[2])


class Report:
    """A whole report; `items` has the steps and releases in order."""

    def __init__(self, text: str) -> None:
        lines = text.split("\n")
        self.entries, self.items = [], []
        self.barriers = []
        part = "before"
        for number, line in enumerate(lines, 1):
            try:
                part = self.take(part, line)
            except (ValueError, IndexError):
                raise NotReport(number, line) from None
        if part != "after":
            raise NotReport(len(lines), lines[-1])

    def take(self, part: str, line: str) -> str:
        """Takes one line, and returns in which part of the report the next one stands."""
        if part == "after":
            if line:
                raise ValueError(line)
            return part
        if line in ("history", "trace", "end"):
            if part != {"history": "before", "trace": "history", "end": "trace"}[line] or self.barriers:
                raise ValueError(line)
            return "after" if line == "end" else line
        if part == "history":
            self.entries.append(Entry(line))
        elif part == "trace":
            self.trace(line.split(" "))
        else:
            raise ValueError(line)
        return part

    def trace(self, words: list[str]) -> None:
        if words[0] == "bar":
            self.barriers.append((Part(words[1:-2]), words[-2], words[-1]))
        elif words[0] == "step":
            self.items.append(Step(words, self.barriers))
            self.barriers = []
        elif words[0] == "use":
            self.items[-1].uses.append((Part(words[1:-1]), words[-1]))
        elif words[0] == "acc":
            self.items[-1].accesses.append((words[1], Part(words[2:])))
        elif words[0] == "free" and not self.barriers:
            self.items.append(Release(words))
        else:
            raise ValueError(words)

    def steps(self) -> list[Step]:
        return [item for item in self.items if isinstance(item, Step)]

    def counts(self) -> dict[str, int]:
        """Entries, faults, steps, barriers, clears and releases."""
        steps = self.steps()
        return {
            "entries": len(self.entries),
            "faults": sum(entry.fault is not None for entry in self.entries),
            "steps": len(steps),
            "barriers": sum(len(step.barriers) for step in steps),
            "clears": sum(step.name == "clear" for step in steps),
            "releases": len(self.items) - len(steps),
        }


def count(number: int, word: str) -> str:
    """A count in words: `1 fault`, `2 faults`, `3 entries`, `4 canvases`."""
    many = word[:-1] + "ies" if word.endswith("y") else word + "es" if word.endswith("s") else word + "s"
    return f"{number} {word if number == 1 else many}"


def summary(report: Report) -> str:
    words = {"entries": "entry", "faults": "fault", "steps": "step", "barriers": "barrier", "clears": "clear", "releases": "release"}
    return ", ".join(count(number, words[what]) for what, number in report.counts().items())
