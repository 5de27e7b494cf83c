"""`wgsim picture`: the trace as one HTML page that needs nothing else, with resources as rows and steps as columns.

What is written is a list of steps, each with what it does in each row. The page's own script, picture.js, lays
them out as wide as the window, and picture.css says how they look; both stand in the page. Without a script the
list is shown as it is.
"""

from __future__ import annotations

import html
import json
import pathlib
from typing import TYPE_CHECKING, Any, Tuple

from wgsim import causes
from wgsim.exit_status import REFUSED
from wgsim.matching import browser_errors, explained, refusal
from wgsim.pages.fault_list import Faults
from wgsim.reading import browser_answers, frames
from wgsim.reading import script as scripts
from wgsim.reading.report import SORTS, Release, count, summary

if TYPE_CHECKING:
    from wgsim.matching.beside import Beside
    from wgsim.matching.given import Asked
    from wgsim.pages.marked_trace import Marks
    from wgsim.reading.places import Text
    from wgsim.reading.report import Part, Report, Step
    from wgsim.reading.script import Call

FOLDER = pathlib.Path(__file__).resolve().parent
STYLE, SCRIPT = ((FOLDER / name).read_text(encoding="utf-8") for name in ("picture.css", "picture.js"))
# Lines of a box, and barriers before it, that are shown at once; the others open on a click.
MOST = 6
# Runs of layers that the name of a row has at most.
MOST_RUNS = 3
# Letters of a label, with its quotes, that the name of a row has at most.
MOST_LABEL = 60
ACCESSES = {"read": "read", "write": "write", "both": "read and write", "drop": "discard", "readdrop": "read and discard"}
LEGEND = (
    ("box read", "reads"),
    ("box write", "writes"),
    ("box both", "reads and writes"),
    ("box discard", "discards: nothing is stored"),
    ("box wipe", "clear of fresh memory"),
    ("box none", "uses, touches nothing"),
    ("bar", "barrier: from \u2192 to"),
    ("free", "memory given back"),
)
KINDS = (("bar", "barriers"), ("wipe", "clears"), ("free", "releases"), ("access", "accesses"))

# What tells a row: the sort and the number of a resource, and of a texture an aspect and a mip level.
Key = Tuple[str, int, str, int]


def escape(text: object) -> str:
    return html.escape(str(text), quote=True)


class Column:
    """A step, or releases that come one after another, with what it has in each row."""

    def __init__(self, step: Step | None = None) -> None:
        self.step = step
        self.freed: list[Release] = []
        self.freed_rows: list[Key] = []
        self.cells: dict[Key, dict[str, Any]] = {}
        for part, before, after in step.barriers if step else []:
            self.cell(part.row())["barriers"].append((part, before, after))
        for part, usages in step.uses if step else []:
            self.cell(part.row())["uses"].append((part, usages))
        for kind, cells in step.accesses if step else []:
            self.cell(cells.row())["accesses"].append((kind, cells))

    def cell(self, row: Key) -> dict[str, Any]:
        return self.cells.setdefault(row, {"barriers": [], "uses": [], "accesses": []})

    def parts(self) -> list[Part]:
        """The parts that its barriers and uses name."""
        return [part for cell in self.cells.values() for part, *_ in cell["barriers"] + cell["uses"]]


def columns(report: Report) -> list[Column]:
    """The steps in order, and between them the releases, those that come one after another in one column."""
    made = []
    for item in report.items:
        if not isinstance(item, Release):
            made.append(Column(item))
            continue
        if not made or made[-1].step is not None:
            made.append(Column())
        made[-1].freed.append(item)
    return made


class Row:
    """A resource, or one aspect and mip level of a texture: the columns in which it is used first and last, and its layers that are
    used."""

    def __init__(self, key: Key) -> None:
        self.sort, self.object, self.aspect, self.mip = key
        self.frame: frames.Frame | None = None
        self.label = ""
        self.first: int | None = None
        self.last: int | None = None
        self.layers: set[tuple[int, int]] = set()

    def use(self, number: int) -> None:
        self.first = number if self.first is None else self.first
        self.last = number

    def runs(self) -> list[tuple[int, int]]:
        """The layers that are used, as runs from one up to but not including another."""
        runs = []
        for low, high in sorted(self.layers):
            if runs and low <= runs[-1][1]:
                runs[-1] = (runs[-1][0], max(high, runs[-1][1]))
            else:
                runs.append((low, high))
        return runs

    def piece(self) -> str:
        """The label of its resource, if that has one; which frame of its canvas it is of, if it is of one; and which piece of its texture
        it is."""
        frame = [self.frame.said()] if self.frame is not None else []
        return ", ".join([self.label] * bool(self.label) + frame + ([self.image()] if self.aspect else []))

    def image(self) -> str:
        runs = self.runs()
        said = [f"{low}" if high - low == 1 else f"{low}\u2013{high - 1}" for low, high in runs[:MOST_RUNS]] + [".."] * (
            len(runs) > MOST_RUNS
        )
        is_one = len(runs) == 1 and runs[0][1] - runs[0][0] == 1
        return f"mip {self.mip} {'layer' if is_one else 'layers'} {', '.join(said)}"

    def what(self) -> str:
        return f"{SORTS[self.sort]} {self.object}" + (f", {self.aspect}" if self.aspect else "")

    def is_just(self, part: Part) -> bool:
        """Whether a part is all that is ever used of the row, so that its layers need not be told again."""
        return part.sort == "t" and self.runs() == [(part.low, part.high)]


class Picture:
    """The steps of one report beside its script, with what a check marks of them, if it does."""

    def __init__(self, beside: Beside, marks: Marks | None = None) -> None:
        self.beside = beside
        self.marks = marks
        self.pages = browser_answers.Pages(beside.script.text.name if beside.known is not None else "")
        self.columns = columns(beside.report)
        if marks is not None:
            marks.add(self.columns)
        found = {}
        for number, column in enumerate(self.columns):
            for key in column.cells:
                found.setdefault(key, Row(key)).use(number)
            for part in column.parts():
                if part.aspect:
                    found[part.row()].layers.add((part.low, part.high))
        self.release(found)
        for row in found.values():
            row.frame = self.beside.frame_of(row.object)
            row.label = scripts.shown(self.beside.label_of(row.object), MOST_LABEL)
        self.rows = dict(sorted(found.items(), key=lambda item: (item[0][1], item[0][0], item[0][2:])))
        self.numbers = {key: number for number, key in enumerate(self.rows)}

    def release(self, found: dict[Key, Row]) -> None:
        """Gives each release a row: that of its resource, where there is one, and else one of the whole resource."""
        of_resource = {}
        for key in found:
            of_resource.setdefault(key[:2], []).append(key)
        for number, column in enumerate(self.columns):
            for freed in column.freed:
                keys = of_resource.get((freed.sort, freed.object), [])
                key = keys[0] if len(keys) == 1 else (freed.sort, freed.object, "", 0)
                column.freed_rows.append(key)
                found.setdefault(key, Row(key)).use(number)

    def steps(self) -> str:
        """The list of steps, and the rows as the script of the page has them: name, piece, kind and number, and first and last column."""
        table = [[self.name(row), row.piece(), row.what(), row.first, row.last] for row in self.rows.values()]
        known = json.dumps(table, ensure_ascii=False, separators=(",", ":")).replace("<", "\\u003c")
        listed = "\n".join(self.column(column) for column in self.columns)
        return f"<main>\n{listed}\n</main>\n<script type='application/json' id='rows'>{known}</script>"

    def name(self, row: Row) -> str:
        return self.beside.named(row.sort, row.object)

    def column(self, column: Column) -> str:
        cells = "".join(self.cell(key, column) for key in sorted(column.cells, key=self.numbers.__getitem__))
        freed = "".join(self.framed(key, "<span class='free'>given back</span>") for key in column.freed_rows)
        kind = "release" if column.step is None else "host" if column.step.is_host else "clear" if column.step.name == "clear" else "work"
        marked = " marked" if self.marked(column.step) else ""
        return f"<section class='step {kind}{marked}'>{self.head(column.step)}{cells}{freed}</section>"

    def marked(self, step: Step | None) -> str | None:
        """What a check marks of a step, or None."""
        return self.marks.said.get(step.number) if self.marks is not None and step is not None else None

    def head(self, step: Step | None) -> str:
        if step is None:
            return "<header><small>between steps</small><b>memory given back</b></header>"
        where = f"host, at entry {step.at}" if step.is_host else f"operation {step.at}"
        call = self.beside.command_of.get(step.number)
        title = f" title='{escape(self.beside.script.said(call))}'" if call else ""
        line = f"<small>{escape(self.place(call))}</small>" if call else ""
        mark = f"<small class='mark'>{escape(self.marked(step))}</small>" if self.marked(step) else ""
        return f"<header{title}><small>step {step.number}</small><b>{parted(step.name)}</b><small>{where}</small>{line}{mark}</header>"

    def place(self, call: Call) -> str:
        """The place of a call: that in the page where the script was recorded, and else that in the script."""
        return self.pages.at(call) or "call at {}:{}".format(*self.beside.script.text.place(call.value.start))

    def framed(self, key: Key, inside: str) -> str:
        row = self.rows[key]
        label = escape(f"{self.name(row)} {row.piece()}".strip())
        return f"<div class='cell' role='group' data-row='{self.numbers[key]}' aria-label='{label}'>{inside}</div>"

    def cell(self, key: Key, column: Column) -> str:
        """What a step has in a row: the barriers before it, and its box."""
        barriers = folded([self.barrier(self.rows[key], *each) for each in column.cells[key]["barriers"]], "")
        return self.framed(key, (f"<div class='bars'>{barriers}</div>" if barriers else "") + self.box(key, column))

    def barrier(self, row: Row, part: Part, before: str, after: str, is_missing: bool = False) -> str:
        lines = [*broken(before), *broken(f"\u2192 {after}"), *([run(part)] if part.aspect and not row.is_just(part) else [])]
        return f"<span class='bar{' missing' * is_missing}'>{'<br>'.join(map(escape, ['missing:'] * is_missing + lines))}</span>"

    def box(self, key: Key, column: Column) -> str:
        cell = column.cells[key]
        look = "wipe" if column.step is not None and column.step.name == "clear" else look_of({kind for kind, _ in cell["accesses"]})
        uses, accesses = self.lines(self.rows[key], cell)
        lines = [f"<b>{escape(line)}</b>" for line in uses] + [escape(line) for line in accesses]
        return f"<div class='box {look}'>{folded(lines, '<br>')}</div>"

    def lines(self, row: Row, cell: dict[str, Any]) -> tuple[list[str], list[str]]:
        """The lines of a box: how the step uses the parts, and then how it accesses the cells."""
        uses = []
        for part, usages in cell["uses"]:
            uses += broken(usages)
            uses[-1] += f" ({run(part)})" if part.aspect and len(cell["uses"]) > 1 else ""
        return uses, [ACCESSES[kind] + ("" if row.is_just(cells) else f" {run(cells)}") for kind, cells in cell["accesses"]]


def run(part: Part) -> str:
    """Which layers, slices, bytes or queries."""
    words = {"t": "layer", "s": "slice", "b": "byte", "q": "query"}[part.sort]
    if part.high - part.low == 1:
        return f"{words} {part.low}"
    return f"{'queries' if part.sort == 'q' else words + 's'} {part.low}\u2013{part.high - 1}"


def folded(items: list[str], between: str) -> str:
    """Some items, those past the first few folded."""
    further = items[MOST:] if len(items) > MOST + 1 else []
    more = f"<details><summary>and {len(further)} more</summary>{between.join(further)}</details>" if further else ""
    return between.join(items[: len(items) - len(further)]) + more


def look_of(kinds: set[str]) -> str:
    """How a box looks, by the ways in which it accesses its cells."""
    if not kinds:
        return "none"
    if kinds & {"drop", "readdrop"}:
        return "discard"
    return "both" if "both" in kinds or len(kinds) > 1 else kinds.pop()


def broken(usages: str) -> list[str]:
    """A set of usages, two on a line."""
    each = usages.split("+")
    return ["+".join(each[at : at + 2]) + "+" * (at + 2 < len(each)) for at in range(0, len(each), 2)]


def parted(name: str) -> str:
    """A step's name, which may be broken into lines before each capital letter."""
    return "".join(f"<wbr>{letter}" if letter.isupper() else letter for letter in escape(name))


def page(title: str, body: str, script: str = "") -> str:
    # What the script will lay out is not laid out as a list before.
    early = "<script>document.documentElement.classList.add('scripted')</script>\n" if script else ""
    return (
        "<!DOCTYPE html>\n<html lang='en'>\n<head>\n<meta charset='utf-8'>\n<meta name='viewport' content='width=device-width'>\n"
        f"<title>{escape(title)}</title>\n<style>\n{STYLE}</style>\n{early}</head>\n"
        f"<body>\n<h1>{escape(title)}</h1>\n{body}\n{script}</body>\n</html>\n"
    )


def controls() -> str:
    """What the script of the page is told by: which kinds and which resource to show, and which steps to open."""
    kinds = "".join(f"<label><input type='checkbox' data-kind='{kind}' checked>{words}</label>" for kind, words in KINDS)
    return (
        f"<form class='controls' hidden>\n<fieldset><legend>Show</legend>{kinds}</fieldset>\n<fieldset><legend>Resource</legend><input"
        " id='resource' list='resources' placeholder='any name' aria-label='name of a resource'><datalist"
        " id='resources'></datalist><label><input type='checkbox' id='alone'>only its steps</label><button type='button' id='all'>All"
        " resources</button></fieldset>\n<fieldset class='folds'><legend>Steps</legend><input id='goto' type='number' min='0'"
        " placeholder='number' aria-label='number of a step'><button type='button' id='open'>Open all</button><button type='button'"
        " id='fold'>Fold all</button></fieldset>\n<output id='told' aria-live='polite'></output>\n</form>"
    )


def drawn(name: str, beside: Beside, head: str, notes: list[str], listed: Faults) -> str:
    """The page of a report beside its script, which has a name, with its faults above it."""
    lines = [
        f"<p>{escape(head)}: {escape(summary(beside.report))}.</p>",
        *(f"<p>{escape(note)}</p>" for note in notes if note),
        *(f"<p>{escape(line[0].upper() + line[1:])}.</p>" for line in browser_errors.head(listed.browsers)),
        listed.text(),
        *canvases(beside),
    ]
    if not beside.report.items:
        return page(name, "\n".join([*lines, "<p>The trace is empty: no accepted work touches memory.</p>"]))
    return page_of_steps(name, lines, Picture(beside))


def page_of_steps(name: str, lines: list[str], picture: Picture, legend: tuple[tuple[str, str], ...] = LEGEND) -> str:
    """The page of a picture, with some lines above it."""
    shown = "".join(f"<span class='{look}'>{escape(what)}</span>" for look, what in legend)
    lines = [
        *lines, f"<p class='legend'>{shown}</p>", "<p>Time goes from left to right, and then down. A click on a name dims all else.</p>",
        controls(), picture.steps(),
    ]
    return page(name, "\n".join(lines), f"<script>\n{SCRIPT}</script>\n")


def canvases(beside: Beside) -> list[str]:
    """A list of the frames of each canvas, which opens on a click."""
    found = frames.listed(beside) if beside.known is not None else []
    if not found:
        return []
    items = [f"<li>{escape(head)}<ul>{''.join(f'<li>{escape(line)}</li>' for line in lines)}</ul></li>" for head, lines in found]
    return [
        f"<details class='canvases'><summary>{count(len(found), 'canvas')},"
        f" {count(sum(len(lines) for _, lines in found), 'frame')}</summary><ul>{''.join(items)}</ul></details>"
    ]


def picture(text: Text, data: bytes, program: Asked) -> tuple[str, int]:
    """The page of a script's trace, or of its refusal, and the status of its report."""
    status, said = explained.answer(text, data, program)
    if status == REFUSED:
        lines = "\n".join(refusal.explained(text, said))
        return page(text.name, f"<pre class='fault'>{escape(lines)}</pre>"), status
    notes = []
    beside = explained.set_beside(text, said, lambda *lines: notes.extend(lines))
    listed = Faults(beside, causes.of_report(data, beside), browser_errors.found(text, data, said))
    head = f"The answer of {program.said}" if program.plays else f"Of {program.said}"
    return drawn(text.name, beside, head, notes, listed), status
