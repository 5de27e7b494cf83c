"""What a line `differs K J CELL` means in its trace: which step reads and which writes, what the reader sees as printed and what it may
see, and the barrier that is missing.

The program tells the three. The rest is found here, in the lines of the trace, and is no part of what is proved.
"""

from __future__ import annotations

from typing import TYPE_CHECKING, Any

from wgsim.reading.report import Part
from wgsim.reading.trace_lines import READING, WRITING, cell_said, common_part, named, part_of, part_said, touches

if TYPE_CHECKING:
    from wgsim.matching.beside import Beside
    from wgsim.reading.trace_lines import Touch

# Which write the writer's is, as the reader sees it in the printed order: the last one before it, an earlier one, or a later one.
LAST, EARLIER, LATER = "last", "earlier", "later"
HOW = {EARLIER: "writes it earlier", LATER: "writes it later"}


class Clash:
    """A reader, or the end where `reader` is None, and a writer, of one cell: each a step of the trace with its lines."""

    def __init__(self, line: str, lines: list[str]) -> None:
        reader, writer, *cell = line.split()[1:]
        self.cell = Part(cell)
        steps, self.end = touches(lines, self.cell)
        by_number = {step.number: step for step in steps}
        self.reader, self.writer = (None if reader == "end" else by_number[int(reader)]), by_number[int(writer)]
        self.writes = [step for step in steps if step.kind in WRITING]
        self.seen = self.last_before(self.reader)
        self.case, self.otherwise, self.apart = self.find()
        if self.reader is not None and self.reader.kind not in READING or self.writer.kind not in WRITING:
            raise ValueError(line)

    def last_before(self, step: Touch | None) -> Touch | None:
        """The last step before another one, or before the end, that writes the cell; or None."""
        return next((each for each in reversed(self.writes) if step is None or each.number < step.number), None)

    def find(self) -> tuple[str, Touch | None, tuple[Touch, Touch]]:
        """Which of the three cases it is, what the reader may see, and between which two steps a barrier is missing, at the latest in front
        of the second."""
        reader, writer, seen = self.reader, self.writer, self.seen
        if reader is not None and writer is seen:
            return LAST, self.last_before(writer), (writer, reader)
        if reader is not None and writer.number >= reader.number:
            return LATER, writer, (reader, writer)
        if seen is None:
            raise ValueError("nothing before the reader writes the cell")
        return EARLIER, writer, (writer, seen)

    def barrier(self, part: Part | None = None) -> str:
        """The line of the barrier that is enough, on the cell's part or on a larger one."""
        return f"bar {' '.join((part or part_of(self.cell)).words)} {self.apart[0].usages()} {self.apart[1].usages()}"

    def wider(self) -> str | None:
        """The line of that barrier on all layers that both steps access, or None where that is no more than one."""
        part = common_part(self.cell, *self.apart)
        return self.barrier(part) if part is not None else None

    def unused(self) -> list[Touch]:
        """Which of the two steps have no `use` line of the part, so that their usages are guessed."""
        return [step for step in self.apart if not step.used]


class Told:
    """The lines that tell of a clash."""

    def __init__(self, clash: Clash, name: str, named_so: ByNumber | ByScript) -> None:
        self.clash = clash
        self.name = name
        self.named_so = named_so
        self.reader = step_said(clash.reader)

    def lines(self) -> list[str]:
        return ["", *self.steps(), *self.sees(), *self.missing()]

    def head(self) -> str:
        return f"{self.reader} may see {cell_said(self.clash.cell, self.named_so.name)} otherwise than as printed"

    def where(self, step: Touch) -> list[str]:
        """A step with its lines, and the call that it is of."""
        lines = [f"{self.name}:{step.at}: {step.line}", f"{self.name}:{step.row_at}: {step.row}", *self.named_so.call(step.number)]
        return [f"    {line}" for line in lines]

    def steps(self) -> list[str]:
        """The reader, the writer, and the write that is seen as printed, each with its lines."""
        clash, last = self.clash, f"writes it, as the last before {self.reader}"
        if clash.reader is None:
            lines = ["at the end it may be what another step wrote:", f"    {self.name}:{clash.end}: end"]
        else:
            lines = [f"{self.reader} reads it:", *self.where(clash.reader)]
        lines += [f"{step_said(clash.writer)} {HOW.get(clash.case, last)}:", *self.where(clash.writer)]
        if clash.seen is not None and clash.seen is not clash.writer:
            lines += [f"{step_said(clash.seen)} {last}:", *self.where(clash.seen)]
        return lines

    def sees(self) -> list[str]:
        """What the reader sees as printed, and what it may see."""
        clash = self.clash
        writer, otherwise = step_said(clash.writer), what_of(clash.otherwise)
        may = {
            LAST: f"{self.reader} come before {writer}, and it then sees {otherwise}",
            EARLIER: f"{writer} come after {step_said(clash.seen)}, and {self.reader} then sees {otherwise}",
            LATER: f"{writer} come before {self.reader}, which then sees {otherwise}",
        }
        return [f"as printed, {self.reader} sees {what_of(clash.seen)}", f"the barriers let {may[clash.case]}"]

    def missing(self) -> list[str]:
        """The barrier that is enough, ready to be pasted, and where."""
        clash = self.clash
        one, other = clash.apart
        between = f"{part_said(clash.cell, self.named_so.name)} between {step_said(one)} and {step_said(other)}"
        lines = [
            f"a barrier is missing, on {between}. This one is enough, in front of {self.name}:{other.at}:",
            f"    {clash.barrier()}",
            f"    {other.line}",
        ]
        wider = clash.wider()
        lines += [f"or, for all layers that both access: {wider}"] if wider else []
        unused = " and of ".join(step_said(step) for step in clash.unused())
        lines += [f"(the usage of {unused} is guessed, since no `use` line has it; usages are not judged)"] if unused else []
        return [*lines, "More may differ: put it in and check again."]

    def facts(self) -> dict[str, Any]:
        """The same as an object, for a machine."""
        clash = self.clash
        return {
            "cell": " ".join(clash.cell.words),
            "said": cell_said(clash.cell, self.named_so.name),
            "reader": self.fact(clash.reader),
            "writer": self.fact(clash.writer),
            "case": clash.case,
            "sees": self.fact(clash.seen),
            "maySee": self.fact(clash.otherwise),
            "barrier": {
                "text": clash.barrier(),
                "after": clash.apart[0].number,
                "before": clash.apart[1].number,
                "line": clash.apart[1].at,
                "guessed": [step.number for step in clash.unused()],
                "wider": clash.wider(),
            },
        }

    def fact(self, step: Touch | None) -> dict[str, Any] | None:
        """A step as an object; None stands for the end of the trace, or for no write."""
        if step is None:
            return None
        found = {"step": step.number, "line": step.at, "text": step.line, "accessLine": step.row_at, "access": step.row}
        return {**found, **self.named_so.fact(step.number)}


def step_said(step: Touch | None) -> str:
    return "the end" if step is None else f"step {step.number}"


def what_of(step: Touch | None) -> str:
    return "what no step of the trace wrote" if step is None else f"what {step_said(step)} wrote"


class ByNumber:
    """Names objects by their kinds and numbers, where no script is known."""

    def name(self, sort: str, number: int) -> str:
        return named(sort, number)

    def call(self, number: int) -> list[str]:
        """The lines that tell the call of a step."""
        return []

    def fact(self, number: int) -> dict[str, Any]:
        return {}


class ByScript(ByNumber):
    """Names objects and steps by the script whose report the trace is."""

    def __init__(self, beside: Beside) -> None:
        self.beside = beside

    def name(self, sort: str, number: int) -> str:
        entry = self.beside.makers.get(number)
        call = self.beside.call_of.get(entry.number) if entry is not None else None
        if call is None or call.gives is None:
            return named(sort, number)
        return '"{}" ({}:{})'.format(call.gives, *self.beside.script.text.place(call.value.start))

    def call(self, number: int) -> list[str]:
        call = self.beside.command_of.get(number)
        return [f"of the call at {self.beside.script.where(call)}: {self.beside.script.said(call)}"] if call is not None else []

    def fact(self, number: int) -> dict[str, Any]:
        call = self.beside.command_of.get(number)
        if call is None:
            return {"call": None, "do": None}
        return {"call": "{}:{}".format(*self.beside.script.text.place(call.value.start)), "do": call.word}
