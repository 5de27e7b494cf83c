"""All orders of a small trace, cell by cell: which reads may see otherwise than in the printed order, found by trying. It is what
`model.judge` says by looking at pairs of steps, and says nothing of how that finds it.

A trace is a list of items, as `model.trace_text` reads them.
"""

import bisect
import itertools

from model.steps import READING, WRITING

# All cells of a run are tried where they are at most so many: a line may name nearly 2^53 of them.
MOST_TRIED = 1_000


def cells_of(items):
    """Each cell that is tried of those that a step of a small trace accesses, with the kind by each step that does."""
    found, number, places = {}, -1, places_of(items)
    for item in items:
        if item[0] == "step":
            number += 1
            for kind, (*owner, low, high) in item[1]:
                for place in places[bisect.bisect_left(places, low):bisect.bisect_left(places, high)]:
                    found.setdefault((*owner, place), {})[number] = kind
    return found


def places_of(items):
    """The places of the cells that are tried, in order: all of each run that is no longer than is tried, and the places on both sides of
    the ends of every run of accesses and of barriers. Between these a cell is as the one before it: the same steps access it, and it has
    the same barriers. """
    runs = runs_of(items)
    found = {place for low, high in runs if high - low <= MOST_TRIED for place in range(low, high)}
    found.update(place for run in runs for end in run for place in (end - 1, end))
    return sorted(found)


def runs_of(items):
    """The runs of cells that steps access, and those of layers that barriers stand on."""
    accessed = [cells[-2:] for item in items if item[0] == "step" for _, cells in item[1]]
    return accessed + [item[1][-2:] for item in items if item[0] == "bar" and item[1][0] == "t"]


def bars_of(items, cell):
    """The steps before which a barrier on the part of a cell stands."""
    part = ("t", *cell[1:4], 0) if cell[0] == "s" else cell
    found, number = [], 0
    for item in items:
        if item[0] == "step":
            number += 1
        elif item[0] == "bar":
            sort, *fields = item[1]
            is_there = (
                (sort, *fields[:3]) == part[:4] and fields[3] <= part[4] < fields[4]
                if sort == part[0] == "t"
                else (sort, *fields) == part[:2]
            )
            found += [number] if is_there else []
    return found


def orders(accesses, bars):
    """The orders of the accesses of a cell that keep the barriers: those of steps before one come before all others."""
    for order in itertools.permutations(accesses):
        places = {step: place for place, step in enumerate(order)}
        if all(places[one] < places[other] for bar in bars for one in order if one < bar for other in order if other >= bar):
            yield order


def seen(order, kinds):
    """By each step of an order that reads, and by the end, None, the last write before it, or None."""
    found, last = {}, None
    for step in order:
        if kinds[step] in READING:
            found[step] = last
        last = step if kinds[step] in WRITING else last
    found[None] = last
    return found


def clashes(items):
    """All triples of a reader or the end, a cell and a writer by which it may see otherwise: the write that it sees in the printed order,
    where the reader may come before that; or another one, where that may come between the two."""
    found = set()
    for cell, kinds in cells_of(items).items():
        printed = seen(sorted(kinds), kinds)
        for order in orders(sorted(kinds), bars_of(items, cell)):
            places = {step: place for place, step in enumerate(order)} | {None: len(order)}
            for reader, write in printed.items():
                if write is not None and places[reader] < places[write]:
                    found.add((reader, cell, write))
                first = -1 if write is None else places[write]
                others = [step for step in order if kinds[step] in WRITING and step not in (reader, write)]
                found |= {(reader, cell, other) for other in others if first < places[other] < places[reader]}
    return found


def readers_that_differ(items):
    """All pairs of a reader or the end, and a cell that it sees otherwise in some order."""
    found = set()
    for cell, kinds in cells_of(items).items():
        printed = seen(sorted(kinds), kinds)
        for order in orders(sorted(kinds), bars_of(items, cell)):
            found |= {(reader, cell) for reader, writer in seen(order, kinds).items() if writer != printed[reader]}
    return found
