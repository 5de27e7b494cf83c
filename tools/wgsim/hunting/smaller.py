"""Makes a script small that shows a difference: calls, keys and values are taken away while it stays, and then numbers are made round."""

from __future__ import annotations

import collections
import copy
import functools
import itertools
from typing import Any, Callable, Iterator

from wgsim.reading import calls

from . import shape
from .core import Answered, Core, Flat

# How many scripts are tried at once, and how many at most.
AT_ONCE, MOST_TRIES = 8, 2000
# How long a run of calls is of which each is taken away, and how many calls a script has of which any two are.
SHORT_RUN, SHORT = 3, 16
# Of how many lists of a script an item is taken of two at once.
MOST_LISTS = 24
ROUND = [0, 1, 2, 3, 4, 8, 16, 64, 256, 1024, 4096, 65536]
# Keys whose numbers are sums of bits.
SUMS = {"usage", "visibility", "mode", "writeMask"}
LETTERS = {
    "buffer": "b", "texture": "t", "canvas texture": "t", "view": "v", "sampler": "s", "bind group layout": "l", "pipeline layout": "y",
    "bind group": "g", "compute pipeline": "k", "render pipeline": "r", "query set": "q", "encoder": "e", "bundle encoder": "n",
    "compute pass": "p", "render pass": "p", "commands": "c", "bundle": "m", "canvas": "w",
}
# What is recorded on, or drawn to, call by call.
PLACES = {"encoder", "bundle encoder", "compute pass", "render pass", "canvas"}
# Plays some scripts, and says of each whether the difference is there.
Shows = Callable[[list], list]


class Smaller:
    """A script that is made smaller. `shows` tells of some scripts, with what the core answers to them, which still show it."""

    def __init__(self, core: Core, shows: Shows, answered: Answered) -> None:
        self.core, self.shows, self.best = core, shows, answered
        self.most, self.at_once, self.tries = MOST_TRIES, AT_ONCE, 0

    def accept(self, candidates: Iterator[tuple[list[dict[str, Any]], Any]]) -> bool:
        """Takes the first of some scripts that still shows the difference; whether there was one."""
        waiting: list[Answered] = []
        for script, limits in candidates:
            answered = self.core.answered(Flat(script, limits)) if script else None
            if answered is not None and answered.entry_of and size_of(answered.flat) < size_of(self.best.flat):
                waiting.append(answered)
            if len(waiting) == self.at_once and self.take(waiting):
                return True
            waiting = [] if len(waiting) == self.at_once else waiting
            if self.tries >= self.most:
                return False
        return bool(waiting) and self.take(waiting)

    def take(self, waiting: list[Answered]) -> bool:
        """Plays some scripts, and keeps the smallest that shows the difference."""
        self.tries += len(waiting)
        found = [answered for answered, is_shown in zip(waiting, self.shows(waiting)) if is_shown]
        if found:
            self.best = min(found, key=lambda answered: size_of(answered.flat))
        return bool(found)

    def made(self, number: int | None) -> Answered:
        """The smallest script that was found. `number` is that of the call that differs."""
        if number is not None:
            self.accept(iter([(needed(self.best.flat.calls, number), self.best.flat.limits)]))
            self.accept(iter([(self.best.flat.calls[: number + 1], self.best.flat.limits)]))
        before: Any = None
        while size_of(self.best.flat) != before and self.tries < self.most:
            before = size_of(self.best.flat)
            self.fewer_calls()
            self.accept(self.fewer_limits())
            self.call_by_call(lambda number: self.mended(self.fewer_keys(number)))
            while self.accept(self.fewer_items()):
                pass
            # Values are looked at once no call goes any more, since there are many.
            if len(self.best.flat.calls) == before[0]:
                self.call_by_call(self.plainer_values)
        return self.best

    def call_by_call(self, candidates: Callable[[int], Iterator[tuple[list[dict[str, Any]], Any]]]) -> None:
        """Takes changes of a sort, of one call after another, of each as long as there is one."""
        number = 0
        while number < len(self.best.flat.calls) and self.tries < self.most:
            if not self.accept(candidates(number)):
                number += 1

    def fewer_calls(self) -> None:
        """Takes away runs of calls, long ones first, and of a short script any two."""
        length = max(1, len(self.best.flat.calls) // 2)
        while length and self.tries < self.most:
            if not self.accept(self.without_runs(length)):
                length = length // 2 if length > SHORT_RUN else length - 1
        while len(self.best.flat.calls) <= SHORT and self.accept(self.without_pairs()):
            pass

    def without_runs(self, length: int) -> Iterator[tuple[list[dict[str, Any]], Any]]:
        """Scripts without a run of calls: of short ones each, of longer ones such as lie beside each other."""
        script, limits = self.best.flat.calls, self.best.flat.limits
        for start in range(max(0, len(script) - length), -1, -1 if length <= SHORT_RUN else -length):
            yield shape.without(script, set(range(start, start + length))), limits

    def without_pairs(self) -> Iterator[tuple[list[dict[str, Any]], Any]]:
        """Scripts without two calls that do not follow each other, as what opens something and what closes it."""
        script, limits = self.best.flat.calls, self.best.flat.limits
        for first, second in itertools.combinations(range(len(script)), 2):
            if second > first + 1:
                yield shape.without(script, {first, second}), limits

    def fewer_limits(self) -> Iterator[tuple[list[dict[str, Any]], Any]]:
        """The script without its limits, or without one of them."""
        script, limits = self.best.flat.calls, self.best.flat.limits
        if limits is not None:
            yield script, None
            yield from ((script, {name: value for name, value in limits.items() if name != gone}) for gone in limits)

    def fewer_keys(self, number: int) -> Iterator[tuple[list[dict[str, Any]], Any]]:
        """Scripts of which a call lacks one key that may be left out, or one item of a list."""
        script, limits = self.best.flat.calls, self.best.flat.limits
        for at, slot in enumerate(shape.slots(script[number])):
            if slot.key.may_be_left_out and isinstance(slot.holder, dict):
                yield changed(script, number, at, lambda slot: slot.holder.pop(slot.at)), limits
            if isinstance(slot.value, list) and slot.key.sort != "three":
                if len(slot.value) > 1:
                    yield changed(script, number, at, leave_all), limits
                for item in range(len(slot.value)):
                    yield changed(script, number, at, functools.partial(leave_item, item)), limits

    def mended(self, candidates: Iterator[tuple[list[dict[str, Any]], Any]]) -> Iterator[tuple[list[dict[str, Any]], Any]]:
        """Some scripts, and each also without what could not be made in it, and what names that; what ends an encoder stays."""
        for script, limits in candidates:
            yield script, limits
            answered = self.core.answered(Flat(script, limits))
            if answered is not None:
                refused = {number for number, entry in answered.entry_of.items() if entry.fault is not None}
                gone = {number for number in refused if "as" in answered.whole[number] and "on" not in answered.whole[number]}
                if gone:
                    yield shape.without(answered.flat.calls, gone), limits

    def fewer_items(self) -> Iterator[tuple[list[dict[str, Any]], Any]]:
        """Scripts of which two lists of one length lack the item of one place, as what a pass draws to and what its pipeline does."""
        script, limits = self.best.flat.calls, self.best.flat.limits
        lists = [
            (number, at, len(slot.value))
            for number, call in enumerate(script)
            for at, slot in enumerate(shape.slots(call))
            if isinstance(slot.value, list) and slot.key.sort != "three"
        ]
        for (one, at, length), (other, there, others) in itertools.combinations(lists[:MOST_LISTS], 2):
            for item in range(length) if length == others and one != other else ():
                leave = functools.partial(leave_item, item)
                yield changed(changed(script, one, at, leave), other, there, leave), limits

    def plainer_values(self, number: int) -> Iterator[tuple[list[dict[str, Any]], Any]]:
        """Scripts of which a call has one number that is rounder, or one word that stands before it in its row."""
        script, limits = self.best.flat.calls, self.best.flat.limits
        for at, slot in enumerate(shape.slots(script[number])):
            for value in plainer(slot):
                yield changed(script, number, at, functools.partial(put, value)), limits


def leave_item(item: int, slot: shape.Slot) -> None:
    slot.value.pop(item)


def leave_all(slot: shape.Slot) -> None:
    slot.value.clear()


def put(value: Any, slot: shape.Slot) -> None:
    slot.put(value)


def plainer(slot: shape.Slot) -> list[Any]:
    """Values that are plainer than that of a slot; the word that says that something is left out has none."""
    if slot.key.may_be_none and slot.value == calls.NONE:
        return []
    if slot.key.sort == "number":
        bits = [slot.value & ~(1 << bit) for bit in range(12) if slot.value >> bit & 1] if slot.at in SUMS else []
        below = max((value for value in ROUND if value < slot.value), default=0)
        return [value for value in dict.fromkeys([0, 1, 4, *bits, slot.value // 2 & ~3, below]) if value < slot.value]
    if slot.key.sort == "word" and slot.value is not None:
        words = calls.WORDS[slot.key.detail]
        return words[: words.index(slot.value)]
    if slot.key.sort == "name" and slot.key.may_have_null:
        return [None] if slot.value is not None else []
    return [calls.AUTO] if slot.key.may_be_auto and slot.value != calls.AUTO else []


def changed(script: list[dict[str, Any]], number: int, at: int, change: Callable[[shape.Slot], Any]) -> list[dict[str, Any]]:
    """A script with one value of a call changed."""
    call = copy.deepcopy(script[number])
    change(list(shape.slots(call))[at])
    return [*script[:number], call, *script[number + 1 :]]


def needed(script: list[dict[str, Any]], number: int) -> list[dict[str, Any]]:
    """The calls that one needs: what makes what it names, and what was recorded on that, with what these need."""
    places = {call["as"]: at for at, call in enumerate(script[: number + 1]) if "as" in call}
    wanted, kept = [number], set()
    while wanted:
        at = wanted.pop()
        if at in kept:
            continue
        kept.add(at)
        wanted += [places[name] for name in shape.names_in(script[at]) if places.get(name, at) < at]
        if calls.makes(script[at]["do"]) in PLACES:
            name = script[at]["as"]
            wanted += [other for other in range(number + 1) if name in (script[other].get("on"), script[other].get("canvas"))]
    return [call for at, call in enumerate(script) if at in kept]


def size_of(flat: Flat) -> tuple[int, int, int]:
    """What is smaller: fewer calls, then fewer values, then lesser ones."""
    values = [slot for call in flat.calls for slot in shape.slots(call)]
    limits = flat.limits or {}
    return (len(flat.calls), len(values) + len(limits) + (flat.limits is not None), sum(weight(slot) for slot in values))


def weight(slot: shape.Slot) -> int:
    """How far a value is from the plainest: by its bits, and by its place among the words of its key."""
    if slot.key.may_be_none and slot.value == calls.NONE:
        return 1
    if slot.key.sort == "number":
        return 64 * slot.value.bit_length() + 8 * bin(slot.value).count("1") + min(slot.value, 7)
    if slot.key.sort == "word" and slot.value is not None:
        return calls.WORDS[slot.key.detail].index(slot.value)
    return 1 if slot.value and not (slot.key.may_be_auto and slot.value == calls.AUTO) else 0


def renamed(script: list[dict[str, Any]]) -> list[dict[str, Any]]:
    """A script with short names, by the kinds of what they stand for, as a recording has them."""
    counts: collections.Counter[str] = collections.Counter()
    names: dict[str, str] = {}
    made = copy.deepcopy(script)
    for call in made:
        if "as" in call:
            letter = LETTERS[calls.makes(call["do"]) or "canvas"]
            names[call["as"]] = f"{letter}{counts[letter]}"
            counts[letter] += 1
    for call in made:
        for slot in shape.slots(call):
            if slot.key.sort in ("name", "new") and slot.value in names and not (slot.key.may_be_auto and slot.value == calls.AUTO):
                slot.put(names[slot.value])
    return made
