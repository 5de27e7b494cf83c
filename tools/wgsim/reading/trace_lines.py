"""A trace by its lines: which steps access one cell, how, and where that stands in the text; and the words for cells and parts."""

from __future__ import annotations

from typing import Any, Callable, Sequence

from wgsim.reading.report import SORTS, Part

READING = {"read", "both", "readdrop"}
WRITING = {"write", "both", "drop", "readdrop"}
# The usages in printed order.
USAGES = (
    "input", "constant", "storage", "storage-read", "attachment", "attachment-read", "copy-src", "copy-dst", "query-write", "query-read",
    "host-read", "host-write", "clear",
)
# The usage of what steps of some names do; that of others hangs on what they touch.
OF_NAMES = {
    "clear": "clear",
    "writeBuffer": "copy-dst",
    "writeTexture": "copy-dst",
    "clearBuffer": "copy-dst",
    "hostRead": "host-read",
    "hostWrite": "host-write",
}


class Touch:
    """A step that accesses a cell: its number and name, its line and that of the access, both with their numbers, and its usages of the
    cell's part."""

    def __init__(self, step: tuple[int, int, str], at: int, row: str, used: set[str]) -> None:
        self.number, self.at, self.line = step
        self.name = self.line.split(" ")[-1]
        words = row.split(" ")
        self.row_at, self.row, self.kind, self.cells = at, row, words[1], Part(words[2:])
        self.used = used

    def usages(self) -> str:
        """How it uses the part of the cell, by its `use` lines, or as its name and access let guess."""
        return "+".join(usage for usage in USAGES if usage in self.used) or guessed(self.name, self.cells.sort, self.kind == "read")


def guessed(name: str, sort: str, only_reads: bool) -> str:
    """The usage that a step has as a rule, by its name, by what it accesses, and by whether it only reads that."""
    if name in OF_NAMES:
        return OF_NAMES[name]
    if sort == "q":
        return "query-read" if only_reads else "query-write"
    if name == "renderPass":
        reads, writes = ("input", "storage") if sort == "b" else ("constant", "attachment")
    elif name == "dispatch":
        reads, writes = ("storage-read" if sort == "b" else "constant"), "storage"
    else:
        reads, writes = "copy-src", "copy-dst"
    return reads if only_reads else writes


def touches(lines: list[str], cell: Part) -> tuple[list[Touch], int]:
    """The steps of a trace that access a cell, in order, and the number of the line `end`. The lines are those of the whole text, of a
    trace that is one."""
    first, part = lines.index("trace") + 1, part_of(cell)
    found: list[Touch] = []
    step, used = (-1, 0, ""), set()
    of_cells, of_part = owner_of(cell), owner_of(part)
    for at, line in enumerate(lines[first:], first + 1):
        word, _, rest = line.partition(" ")
        if word == "step":
            step, used = (step[0] + 1, at, line), set()
        elif word == "use" and rest.startswith(of_part) and has(rest.split(" ")[:-1], part):
            used.update(rest.split(" ")[-1].split("+"))
        elif word == "acc" and rest.partition(" ")[2].startswith(of_cells) and has(rest.split(" ")[1:], cell):
            found.append(Touch(step, at, line, used))
        elif word == "end":
            return found, at
    raise ValueError("the text has no trace")


def owner_of(part: Part) -> str:
    """The words with which each line of the same buffer, query set or mip level begins."""
    return "".join(f"{word} " for word in (part.words if part.is_whole else part.words[:-2]))


def has(words: Sequence[str], inner: Part) -> bool:
    """Whether a part or some cells have another one in them."""
    outer = Part(words)
    return inner.is_whole or outer.low <= inner.low < outer.high


def part_of(cell: Part) -> Part:
    """The part in which a cell lies: a whole buffer or query set, its layer, or of a slice layer 0 of its mip level, which is all
    slices."""
    if cell.sort in ("b", "q"):
        return Part(cell.words[:2])
    low, high = (0, 1) if cell.sort == "s" else (cell.low, cell.high)
    return Part(("t", *cell.words[1:4], str(low), str(high)))


def common_part(cell: Part, one: Touch, other: Touch) -> Part | None:
    """The part of all layers that two steps access, where the cell is one of several; else None."""
    if cell.sort != "t":
        return None
    low, high = max(one.cells.low, other.cells.low), min(one.cells.high, other.cells.high)
    return Part((*cell.words[:4], str(low), str(high))) if high - low > 1 else None


def named(sort: str, number: int) -> str:
    """An object by its kind and number."""
    return f"{SORTS[sort]} {number}"


def cell_said(cell: Part, name_of: Callable[..., Any] = named) -> str:
    """A cell in words."""
    name = name_of(cell.sort, cell.object)
    if cell.sort in ("b", "q"):
        return f"{'byte' if cell.sort == 'b' else 'query'} {cell.low} of {name}"
    return f"{cell.aspect} mip {cell.mip} {'slice' if cell.sort == 's' else 'layer'} {cell.low} of {name}"


def part_said(cell: Part, name_of: Callable[..., Any] = named) -> str:
    """The part of a cell in words."""
    if cell.sort == "s":
        return f"{cell.aspect} mip {cell.mip} of {name_of(cell.sort, cell.object)}"
    return cell_said(cell, name_of) if cell.sort == "t" else name_of(cell.sort, cell.object)
