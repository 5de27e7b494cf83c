"""Plays scripts of a source: each is made, answered by the core and played, and what differs is made small."""

from __future__ import annotations

import collections
import random
from typing import Any, Callable, Iterator, Protocol

from wgsim.reading import limits

from . import shape, smaller
from .core import Answered, Core, Flat
from .differences import GONE, HUNG, Compared, Difference
from .flat import flattened, playable
from .known import Known
from .messages import Done, Found
from .sources import Source

# How often what is left of a script is played without what differed.
MOST_ROUNDS = 3
LIMITS, SHADERS, REFUSED = "limits that the adapter lacks", "shaders that the browser refuses", "scripts that are refused"
ENDS = "calls by which the browser ends, as is known"
ALIGNMENTS = {limit.name for limit in limits.TABLE.values() if limit.is_alignment}


class Other(Protocol):
    """What is hunted: a browser, or an engine. `about` says which it is, and `limits` which it offers, where it says so; `most_ends` is how
    many scripts are tried to make one smaller where each makes it end."""

    about: dict[str, str]
    limits: dict[str, int]
    most_ends: int

    def each(self, scripts: list[Answered]) -> list[dict[str, Any]]:
        """What it answers to some scripts."""


class Made:
    """A script that is played: its number, what it is of, and how often parts of it were played before."""

    def __init__(self, number: int, source: str, answered: Answered, rounds: int = 0) -> None:
        self.number, self.source, self.answered, self.rounds = number, source, answered, rounds


class Hunter:
    """Plays scripts, and tells what differs. `seen` has the keys of the differences that are found."""

    def __init__(self, core: Core, other: Other, source: Source, tell: Callable[[Found], None]) -> None:
        self.core, self.other, self.source, self.tell = core, other, source, tell
        self.known = Known(other.about.get("browser", ""))
        self.seen: set[str] = set()
        self.done = Done()

    def play(self, numbers: range) -> Done:
        """Plays the scripts of some numbers, and what is left of each without what differs; returns what they came to."""
        self.done = Done()
        batch = list(self.batch(numbers))
        self.done.counts["scripts"] += len(batch)
        self.done.counts["calls"] += sum(len(made.answered.whole) for made in batch)
        while batch:
            told = self.other.each([made.answered for made in batch])
            again = [self.compared(made, answer) for made, answer in zip(batch, told)]
            batch = [made for made in again if made is not None]
        return self.done

    def batch(self, numbers: range) -> Iterator[Made]:
        """The scripts of some numbers, as they can be played; one that is refused is counted."""
        for number in numbers:
            told, top = self.source.script(number)
            if "limits" in top:
                top["limits"] = self.lowered(top["limits"])
            left: collections.Counter[str] = collections.Counter()
            flat = flattened(self.core, top, random.Random(number))
            answered = playable(self.core, flat, left) if flat is not None else None
            answered = self.ended_by_none(answered, left) if answered is not None else None
            self.done.left.update(left)
            if answered is not None and answered.entry_of:
                yield Made(number, told, answered)
            else:
                self.done.left[REFUSED] += 1

    def ended_by_none(self, answered: Answered, left: collections.Counter[str]) -> Answered | None:
        """A script without the calls by which what plays it is known to end."""
        gone = self.known.ends(answered.whole)
        if not gone:
            return answered
        left[ENDS] += len(gone)
        return self.core.answered(Flat(shape.without(answered.flat.calls, gone), answered.flat.limits))

    def lowered(self, asked: dict[str, int]) -> dict[str, int]:
        """Limits that a script asks for, as far as the other offers them."""
        offered = self.other.limits
        return {name: value if name in ALIGNMENTS else min(value, offered.get(name, value)) for name, value in asked.items()}

    def compared(self, made: Made, told: dict[str, Any]) -> Made | None:
        """Compares one script. Returns what is to be played of it without the calls that differ, or None."""
        if "none" in told:
            self.done.left[LIMITS] += 1
            return None
        compared = Compared(made.answered, told)
        if compared.refused_shaders:
            self.done.left[SHADERS] += len(compared.refused_shaders)
        for difference in compared.found:
            self.met(made, difference)
        gone = {each.number for each in compared.found if each.number is not None} | {number for number, _ in compared.refused_shaders}
        if not gone or made.rounds >= MOST_ROUNDS:
            return None
        flat = Flat(shape.without(made.answered.flat.calls, gone), made.answered.flat.limits)
        answered = self.core.answered(flat)
        return None if answered is None or not answered.entry_of else Made(made.number, made.source, answered, made.rounds + 1)

    def met(self, made: Made, difference: Difference) -> None:
        """Counts a difference; one that is new is told, made small, and told again."""
        row = self.known.row(difference)
        if row is not None:
            self.done.known[row["name"]] += 1
            return
        if difference.key() in self.seen:
            self.done.met[difference.key()] += 1
            return
        again = differences_of(made.answered, self.other.each([made.answered])[0])
        if not any(each.key() == difference.key() for each in again):
            self.done.counts[f"that did not come again ({difference.kind})"] += 1
            return
        self.seen.add(difference.key())
        self.done.met[difference.key()] += 1
        # As it is, so that it is kept where the hunt is stopped while it is made small.
        self.tell(Found(made.answered, difference, made.number, made.source, False))
        self.tell(Found(*self.small(made.answered, difference), made.number, made.source, True))

    def small(self, answered: Answered, difference: Difference) -> tuple[Answered, Difference]:
        """The smallest script that was found which shows a difference, and the difference as it is there: not one that is known."""
        key, found = difference.key(), {answered: difference}

        def shows(scripts: list[Answered]) -> list[bool]:
            for one, told in zip(scripts, self.other.each(scripts)):
                same = [each for each in differences_of(one, told) if each.key() == key and self.known.row(each) is None]
                if same:
                    found[one] = same[0]
            return [one in found for one in scripts]

        making = smaller.Smaller(self.core, shows, answered)
        if difference.kind in (GONE, HUNG):
            making.most, making.at_once = self.other.most_ends, 1
        best = making.made(difference.number)
        return best, found[best]


def differences_of(answered: Answered, told: dict[str, Any]) -> list[Difference]:
    """The differences of a script; none where it was not played."""
    return [] if "none" in told else Compared(answered, told).found
