"""`wgsim picture --check`: the picture of a trace, in which the steps that differ are marked, and the barrier that is missing."""

from __future__ import annotations

from typing import TYPE_CHECKING

from wgsim.matching.beside import Beside
from wgsim.matching.checked import Checked
from wgsim.matching.clash import step_said
from wgsim.pages import picture as pictures
from wgsim.pages.picture import Picture, escape
from wgsim.reading.report import Report, count
from wgsim.reading.trace_lines import part_of

if TYPE_CHECKING:
    from wgsim.matching.clash import Clash
    from wgsim.pages.picture import Column
    from wgsim.program.program import Program
    from wgsim.reading.places import Text

MISSING = ("bar missing", "barrier that is missing")


class Marks:
    """What is marked of a trace: words for the steps of a clash, by their numbers, and the barrier that is missing, before one of them."""

    def __init__(self, clash: Clash) -> None:
        seen = {clash.seen.number: f"writes it last before {step_said(clash.reader)}"} if clash.seen else {}
        reader = {clash.reader.number: "may see it otherwise"} if clash.reader else {}
        self.said = {**seen, clash.writer.number: "writes it", **reader}
        one, other = clash.apart
        self.before = other.number
        self.barrier = (part_of(clash.cell), one.usages(), other.usages(), True)

    def add(self, columns: list[Column]) -> None:
        """Puts the missing barrier in front of its step."""
        for column in columns:
            if column.step is not None and column.step.number == self.before:
                column.cell(self.barrier[0].row())["barriers"].append(self.barrier)


def beside_of(checked: Checked) -> Beside:
    """The report beside its script, or the trace alone."""
    if checked.beside is not None:
        return checked.beside
    trace = ("\n" + checked.data.decode("ascii")).split("\ntrace\n", 1)[1]
    return Beside(Report(f"history\ntrace\n{trace}"))


def picture(data: bytes, name: str, program: Program, text: Text | None = None) -> tuple[str, int]:
    """The page of a trace, with the answer of the check above it, and its status."""
    checked = Checked(data, name, program, text)
    said = checked.lines()
    lines = [f"<pre class='fault'>{escape(chr(10).join(said))}</pre>"] if checked.status else [f"<p>{escape(line)}</p>" for line in said]
    if checked.line.startswith("bad trace"):
        return pictures.page(name, lines[0]), checked.status
    beside = beside_of(checked)
    if not beside.report.items:
        return pictures.page(name, "\n".join([*lines, "<p>The trace is empty.</p>"])), checked.status
    counts = beside.report.counts()
    lines.append(f"<p>{', '.join(count(counts[what], what[:-1]) for what in ('steps', 'barriers', 'clears', 'releases'))}.</p>")
    if checked.clash is None:
        return pictures.page_of_steps(name, lines, Picture(beside)), checked.status
    return pictures.page_of_steps(name, lines, Picture(beside, Marks(checked.clash)), (*pictures.LEGEND, MISSING)), checked.status
