"""A hunt: its workers play scripts side by side until enough were played, and what they find is kept in its folder."""

from __future__ import annotations

import itertools
import sys
import time
from typing import Any, Callable, Iterator

from wgsim import exit_status
from wgsim.program import building

from . import workers
from .core import Answered, Core
from .findings import Findings
from .messages import Begun, Done, Ended, Found, Settings, Task

# How many scripts a worker plays at once.
AT_ONCE = 16
DISAGREE = "scripts on which the program and the second reading differ"


class Hunt:
    """Hands scripts out, and keeps what differs. `confirm` is asked of each difference besides, where the second reading answered."""

    def __init__(self, settings: Settings, confirm: Core | None, findings: Findings, say: Callable[[str], None]) -> None:
        self.settings, self.confirm, self.findings, self.say = settings, confirm, findings, say
        self.done: set[int] = set()
        # The keys of the differences that were made small.
        self.small: set[str] = set()
        self.start, self.last = time.monotonic(), 0.0
        self.is_shown = sys.stderr is not None and sys.stderr.isatty()

    def run(self, scripts: int | None, minutes: float | None, most: int) -> None:
        """Plays so many scripts, or so many minutes, by as many workers at most."""
        until = None if minutes is None else self.start + 60 * minutes
        first = self.findings.state["next"]
        tasks = ranges(first, None if scripts is None else first + scripts)
        count = most if scripts is None else max(1, min(most, -(-scripts // AT_ONCE)))
        with workers.started(self.settings, count) as working:
            busy = sum(self.hand(worker, tasks) for worker in working.all)
            while busy:
                worker, message = working.next()
                if isinstance(message, Ended):
                    raise exit_status.End(message.status, message.why)
                if isinstance(message, Begun):
                    self.findings.state["about"] = message.about
                elif isinstance(message, Found):
                    self.found(message)
                else:
                    self.finish(*message)
                    is_over = until is not None and time.monotonic() >= until
                    busy -= 1 if is_over or not self.hand(worker, tasks) else 0
        self.clear()

    def hand(self, worker: workers.Worker, tasks: Iterator[range]) -> bool:
        """Gives a worker its next scripts, if there are any."""
        numbers = next(tasks, None)
        if numbers is not None:
            worker.write(Task(numbers, tuple(self.findings.state["found"])))
        return numbers is not None

    def finish(self, numbers: range, done: Done) -> None:
        """Counts what some scripts came to. The hunt goes on later at the first of which that is not known."""
        self.findings.take(done)
        self.done.update(numbers)
        state = self.findings.state
        while state["next"] in self.done:
            self.done.remove(state["next"])
            state["next"] += 1
        self.findings.save()
        self.progress()

    def found(self, found: Found) -> None:
        """Writes a difference down that is new, or seen in a smaller script."""
        key, calls = found.difference.key(), len(found.answered.flat.calls)
        is_known = key in self.small or not found.is_small and key in self.findings.state["found"]
        if is_known and self.findings.calls_of(key) <= calls:
            return
        name = self.findings.add(found.answered, found.difference, found.number, found.source)
        if not found.is_small:
            return
        self.small.add(key)
        self.clear()
        if self.confirm is not None and not agree(self.confirm, found.answered):
            self.findings.count(DISAGREE)
            self.say(f"{name}: the program and the second reading differ on this script, so that one of them is wrong")
        small = found.difference
        self.say(f"{name}: {small.kind}: {small.word}: core {small.core}; other {small.other.splitlines()[0] if small.other else ''}")

    def progress(self) -> None:
        """A line on a terminal that is written over, of how far the hunt is."""
        if self.is_shown and time.monotonic() - self.last > 0.2:
            self.last = time.monotonic()
            counts, found = self.findings.state["counts"], self.findings.state["found"]
            sys.stderr.write(f"\rwgsim: {counts.get('scripts', 0)} scripts, {len(found)} differences ({building.clock(self.start)})")
            sys.stderr.flush()

    def clear(self) -> None:
        """Takes the line away."""
        if self.is_shown and self.last:
            sys.stderr.write("\r" + " " * 70 + "\r")
            sys.stderr.flush()


def ranges(first: int, end: int | None) -> Iterator[range]:
    """The numbers of scripts, some at a time."""
    for start in itertools.count(first, AT_ONCE) if end is None else range(first, end, AT_ONCE):
        yield range(start, start + AT_ONCE if end is None else min(start + AT_ONCE, end))


def agree(core: Core, answered: Answered) -> bool:
    """Whether the program answers to a script what the second reading did."""
    confirmed = core.confirmed(answered.flat)
    return confirmed is not None and lines(confirmed) == lines(answered)


def lines(answered: Answered) -> list[Any]:
    return [entry.line for entry in answered.entry_of.values()]
