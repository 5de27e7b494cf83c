"""`wgsim run --callers` and `wgsim outcomes`: a script in one order of turns that is given, and in each that there can be.

Both answer by the second reading. An order is a list of callers, one for each entry, as docs/report.md has them under "Several lanes".
"""

from __future__ import annotations

import itertools
import math
from typing import TYPE_CHECKING, Iterator

from wgsim import exit_status
from wgsim.matching import second
from wgsim.reading.report import Report, count, summary

if TYPE_CHECKING:
    from model.turns import Turns

# So many orders of turns are listed at most.
MOST = 10_000


def forced(data: bytes, name: str, callers: list[int]) -> tuple[int, str]:
    """The status and the report of a script in an order of turns."""
    script = second.Played(data, name)
    if script.refusal is not None:
        return exit_status.REFUSED, script.refusal
    playing = script.begin()
    for number, caller in enumerate(callers):
        if caller not in playing.open_lanes():
            raise exit_status.End(exit_status.DIFFERENT, f"entry {number} cannot be of caller {caller}: {may_come(playing)}")
        playing.take(caller)
    if playing.open_lanes():
        raise exit_status.End(
            exit_status.DIFFERENT, f"the callers end at entry {len(callers)}, before the script does: {may_come(playing)}"
        )
    return exit_status.SAME, second.text_of(playing.history)


def may_come(playing: Turns) -> str:
    """Which callers may have the next turn, in words."""
    found = [f"caller {caller} with its {second.canvases.said_by(call)['do']}" for caller, call in second.next_call(playing).items()]
    if not found:
        return "the script is through"
    return f"in phase {playing.phase} the turn may be of " + ", ".join(found[:-1]) + (" or of " if found[1:] else "") + found[-1]


def orders(phases: list[list[int]]) -> int:
    """How many orders of turns a script has whose phases have lanes of so many entries: those of each phase, multiplied."""
    total = 1
    for lanes in phases:
        placed = 0
        for entries in lanes:
            placed += entries
            total *= math.comb(placed, entries)
    return total


def outcomes(data: bytes, name: str) -> Iterator[str]:
    """Each order of turns of a script with its report, as texts, one after another; and before them what they are."""
    script = second.Played(data, name)
    if script.refusal is not None:
        yield script.refusal
        return
    total = orders(script.events())
    if total > MOST:
        raise exit_status.End(
            exit_status.TOO_MANY,
            f"{name}: the lanes can take turns in {told(total)} orders, and at most {MOST:,} are listed; `wgsim run --callers` plays one",
        )
    yield f"{name}: {count(total, 'order')} of turns\n"
    for number, callers in enumerate(each_order(script), 1):
        playing = script.begin()
        for caller in callers:
            playing.take(caller)
        text = second.text_of(playing.history)
        yield f"\noutcome {number} of {total}: callers {','.join(map(str, callers)) or 'none'}: {summary(Report(text))}\n{text}"


def told(total: int) -> str:
    return f"{total:,}" if total < 10**15 else "more than 1,000,000,000,000,000"


def each_order(script: second.Played) -> Iterator[list[int]]:
    """The orders of turns, those first in which low callers come early."""
    return (list(itertools.chain.from_iterable(each)) for each in itertools.product(*map(in_phase, script.events())))


def in_phase(lanes: list[int]) -> list[list[int]]:
    """The orders of one phase, whose lanes have so many entries: from the least of the lists of callers to the greatest."""
    order = [caller for caller, entries in enumerate(lanes) for _ in range(entries)]
    found = [list(order)]
    while True:
        at = next((n for n in range(len(order) - 2, -1, -1) if order[n] < order[n + 1]), None)
        if at is None:
            return found
        other = next(n for n in range(len(order) - 1, at, -1) if order[at] < order[n])
        order[at], order[other] = order[other], order[at]
        order[at + 1 :] = reversed(order[at + 1 :])
        found.append(list(order))
