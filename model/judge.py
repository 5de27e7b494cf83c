"""What `wgsim check` says of a text: whether the barriers of the trace in it are enough.

They are where in every order of the accesses that keeps the barriers each read of a cell sees the write that it sees in the printed order,
and the same write of each cell is the last one. Of a step that may read another cell, or of the end, the least is told.

All cells of one owner (a buffer, a query set, an aspect and a mip level of a texture) that the same lines name are alike, so the cells are
cut at the ends of all runs of lines, and of each piece the first cell stands for all. """

from __future__ import annotations

import bisect
import collections
from typing import Any, Iterator

from . import trace_text
from .formats import ASPECTS
from .steps import READING, WRITING

AGREES, DIFFERS, BAD_TRACE = 0, 8, 9
MOST_BYTES = 67_108_864
SORTS = "bqts"


def check(data: bytes) -> tuple[int, str]:
    """The exit status, and the text that is written."""
    try:
        items = [item for _, item in trace_text.read(data)]
    except trace_text.Refused as refused:
        return BAD_TRACE, f"bad trace {refused.rule} {refused.line}\n"
    clash = verdict(items)
    if clash is None:
        return AGREES, "agrees\n"
    reader, cell, writer = clash
    return DIFFERS, f"differs {'end' if reader is None else reader} {writer} {cell_text(cell)}\n"


class Cell:
    """A cell of a trace, which stands for a piece of cells that are alike: the steps that read it, those that write it, and those before
    which a barrier on its part stands, in order."""

    def __init__(self, cell: tuple[Any, ...], bars: list[Any]) -> None:
        self.cell = cell
        self.bars = bars
        self.reads = []
        self.writes = []

    def is_before(self, one: int | None, other: int | None) -> bool:
        """A barrier on the part stands before a step behind the one that is the other or before it. Every step is before the end, None,
        which is before none."""
        if one is None or other is None:
            return other is None and one is not None
        return bisect.bisect_right(self.bars, other) > bisect.bisect_right(self.bars, one)

    def seen_by(self, reader: int | None) -> int:
        """The last step before another one, or before the end, that writes the cell; or None."""
        before = len(self.writes) if reader is None else bisect.bisect_left(self.writes, reader)
        return self.writes[before - 1] if before > 0 else None

    def differs(self, reader: int | None, writer: int) -> bool:
        """The reader may see otherwise by the writer: it may come before the write that it is to see, or the writer may come between the
        two."""
        if writer == reader:
            return False
        seen = self.seen_by(reader)
        if writer == seen:
            return not self.is_before(writer, reader)
        return not self.is_before(reader, writer) and (seen is None or not self.is_before(writer, seen))


def verdict(items: Any) -> Any:
    """The least triple of a step or the end, None; a cell; and a step that may be seen otherwise: the end last, and cells as they are
    printed. None where there is none."""
    clashes = [
        (place_of(reader), order_of(cell.cell), writer, (reader, cell.cell, writer))
        for cell in cells_of(items)
        for reader, writer in first_clash(cell)
    ]
    return min(clashes)[3] if clashes else None


def first_clash(cell: Cell) -> list[Any]:
    """The least reader of a cell by which some writer is seen otherwise, and the least such writer; in a list, or none."""
    for reader in [*cell.reads, None]:
        for writer in cell.writes:
            if cell.differs(reader, writer):
                return [(reader, writer)]
    return []


def place_of(reader: int | None) -> float | int:
    return float("inf") if reader is None else reader


def order_of(cell: Any) -> Any:
    """Cells in printed order: by object, sort, aspect, mip level and place."""
    return cell[1], SORTS.index(cell[0]), *cell[2:]


def cell_text(cell: tuple[Any, ...]) -> str:
    sort, number, *image, place = cell
    middle = [ASPECTS[image[0]], image[1]] if image else []
    return " ".join(map(str, [sort, number, *middle, place, place + 1]))


def cells_of(items: Any) -> Iterator[Cell]:
    """The cells of a trace that stand for all that it accesses, each with its reads, writes and barriers."""
    accesses, bars, steps = collections.defaultdict(list), collections.defaultdict(list), 0
    for item in items:
        if item[0] == "bar":
            sort, number, *image = item[1]
            bars[(sort, number, *image[:2])].append((steps, *(image[2:] or (0, 1))))
        elif item[0] == "step":
            for kind, (*owner, low, high) in item[1]:
                accesses[tuple(owner)].append((steps, low, high, kind))
            steps += 1
    for owner in sorted(accesses, key=order_of):
        yield from pieces_of(owner, accesses[owner], bars[("t", *owner[1:]) if owner[0] == "s" else owner])


def pieces_of(owner: tuple[Any, ...], accesses: list[tuple[int, int, int, str]], bars: list[Any]) -> list[Cell]:
    """The cells of one owner, cut at the ends of all its runs. Layers have parts of their own; all bytes, queries or slices lie in one, of
    place 0."""
    cuts = {end for _, low, high, _ in accesses for end in (low, high)}
    if owner[0] == "t":
        cuts |= {end for _, low, high in bars for end in (low, high)}
    ends = sorted(cuts)
    at_first = [step for step, low, high in bars if low <= 0 < high]
    cells = [Cell((*owner, end), at_first if owner[0] != "t" else [step for step, low, high in bars if low <= end < high]) for end in ends]
    for step, low, high, kind in accesses:
        for cell in cells[bisect.bisect_left(ends, low):bisect.bisect_left(ends, high)]:
            cell.reads += [step] if kind in READING else []
            cell.writes += [step] if kind in WRITING else []
    return [cell for cell in cells if cell.writes]
