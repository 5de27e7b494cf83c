"""What proofs take: of each crate the processor seconds of the table proof_costs.json, and from these and the pace of a run what is left of
it."""

from __future__ import annotations

import json
import pathlib
from typing import Collection

from wgsim.program import crates

TABLE = json.loads((pathlib.Path(__file__).resolve().parent / "proof_costs.json").read_text(encoding="utf-8"))
# So many seconds count as passed at the pace of the table, so that the first crates, which are small and end beside large ones that
# go on, do not say too much.
TRUST = 900


def seconds_of(crate: str) -> float:
    return TABLE["seconds"].get(crate, TABLE["otherwise"])


def clock_of(some: Collection[str], below: dict[str, list[str]], at_once: int) -> float:
    """The seconds of the clock that some crates take: their sum by so many at once, or the longest chain of those that stand on others."""
    among = {crate: [other for other in below.get(crate, []) if other in some] for crate in some}
    return max(sum(map(seconds_of, some)) / at_once, crates.longest(seconds_of, among)[0])


class Estimate:
    """What is left of a run: the clock that the crates to come take by the table, at the pace at which those that were proved have come."""

    def __init__(self, below: dict[str, list[str]], at_once: int) -> None:
        self.below = below
        self.at_once = at_once
        self.all = set(below)
        self.left = set(below)

    def take(self, crate: str, is_proved_now: bool) -> None:
        """A crate is done. What was proved before tells nothing of the pace."""
        self.left.discard(crate)
        if not is_proved_now:
            self.all.discard(crate)

    def pace(self, passed: float) -> float:
        """How many seconds of this run go with one of the table."""
        expected = clock_of(self.all, self.below, self.at_once) - clock_of(self.left, self.below, self.at_once)
        return (passed + TRUST) / (expected + TRUST)

    def seconds(self, passed: float) -> float:
        return self.pace(passed) * clock_of(self.left, self.below, self.at_once)


def told(seconds: float) -> str:
    """Some seconds in words."""
    if seconds < 90:
        return "a minute" if seconds > 30 else "half a minute"
    return f"{round(seconds / 60)} minutes"
