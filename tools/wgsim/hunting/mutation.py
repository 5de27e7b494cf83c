"""Scripts by mutation of ones that are there: cases, and what was recorded of a page.

Each change leaves a script of the same form: a number goes to an edge, a word to another one of its key, a name to that of another object
of the kind, a key is left out, and calls are left out, doubled, moved or put between.
"""

from __future__ import annotations

import copy
import random
from typing import Any, Callable

from wgsim.reading import calls

from . import shape

Calls = list  # Of calls, each a dict.
MOST_CALLS = 400
MOST_32 = 2**32 - 1
FILTERS = calls.WORDS["filter"]


def mutated(chance: random.Random, script: list[dict[str, Any]]) -> list[dict[str, Any]]:
    """A script with a few changes, of the first calls where it is long."""
    made = copy.deepcopy(script[:MOST_CALLS])
    for _ in range(chance.choice([1, 1, 1, 2, 2, 3, 5])):
        if made:
            chance.choices(CHANGES, WEIGHTS)[0](chance, made)
    return made


def slots_of(script: list[dict[str, Any]], wanted: Callable[[shape.Slot], bool]) -> list[shape.Slot]:
    """The values of a script of which something holds."""
    return [slot for call in script for slot in shape.slots(call) if wanted(slot)]


def change_number(chance: random.Random, script: list[dict[str, Any]]) -> None:
    """A number becomes another one: its neighbour, half or twice of it, an edge, or one that stands elsewhere."""
    found = slots_of(script, lambda slot: slot.key.sort == "number" and slot.value != calls.NONE)
    if not found:
        return
    slot = chance.choice(found)
    value, most = slot.value, 2 ** int(slot.key.detail) - 1
    bit = 1 << chance.randrange(12)
    near = [value + 1, value - 1, value + 4, value - 4, value * 2, value // 2, value ^ bit]
    others = [*near, 0, 1, 4, 256, most, chance.choice(found).value]
    slot.put(min(max(chance.choice(others), 0), most))


def change_word(chance: random.Random, script: list[dict[str, Any]]) -> None:
    """A word becomes another one that its key has; one that tells the form of an object stays."""
    found = slots_of(script, lambda slot: slot.key.sort == "word" and slot.key.detail != "binding kind")
    if found:
        slot = chance.choice(found)
        slot.put(chance.choice([*calls.WORDS[slot.key.detail], *([calls.NONE] if slot.key.may_be_none else [])]))


def change_flag(chance: random.Random, script: list[dict[str, Any]]) -> None:
    """A flag becomes the other one, or, where that may stand, the word that says that it is left out; that word becomes a flag."""
    found = slots_of(script, lambda slot: slot.key.sort == "boolean")
    if found:
        slot = chance.choice(found)
        others: list[Any] = [slot.value is not True, *([calls.NONE] if slot.key.may_be_none and slot.value != calls.NONE else [])]
        slot.put(chance.choice(others))


def change_name(chance: random.Random, script: list[dict[str, Any]]) -> None:
    """A name becomes that of another object of the kind that was made before, or null where that may stand."""
    number = chance.randrange(len(script))
    made: dict[str | None, list[str]] = {}
    for call in script[:number]:
        made.setdefault(calls.makes(call["do"]), []).append(call.get("as", ""))
    found = [slot for slot in shape.slots(script[number]) if slot.key.sort == "name"]
    if found:
        slot = chance.choice(found)
        others: list[str | None] = [name for kind in slot.key.kinds() for name in made.get(kind, []) if name]
        others += [None] if slot.key.may_have_null else []
        if others:
            slot.put(chance.choice(others))


def leave_key(chance: random.Random, script: list[dict[str, Any]]) -> None:
    """A key that may be left out is, or an item of a list."""
    found = slots_of(script, lambda slot: slot.key.may_be_left_out and isinstance(slot.holder, dict))
    lists = slots_of(script, lambda slot: isinstance(slot.value, list) and slot.key.sort != "three" and bool(slot.value))
    if found and (not lists or chance.random() < 0.6):
        slot = chance.choice(found)
        del slot.holder[slot.at]
    elif lists:
        items = chance.choice(lists).value
        items.pop(chance.randrange(len(items)))


def double_item(chance: random.Random, script: list[dict[str, Any]]) -> None:
    """An item of a list comes twice."""
    lists = slots_of(script, lambda slot: isinstance(slot.value, list) and slot.key.sort != "three" and 0 < len(slot.value) < 100)
    if lists:
        items = chance.choice(lists).value
        items.insert(chance.randrange(len(items) + 1), copy.deepcopy(chance.choice(items)))


def leave_call(chance: random.Random, script: list[dict[str, Any]]) -> None:
    script[:] = shape.without(script, {chance.randrange(len(script))})


def double_call(chance: random.Random, script: list[dict[str, Any]]) -> None:
    """A call comes twice; what the second one makes has another name, which nothing uses yet."""
    number = chance.randrange(len(script))
    again = copy.deepcopy(script[number])
    if "as" in again:
        again["as"] = new_name(chance, script)
    script.insert(number + 1, again)


def new_name(chance: random.Random, script: list[dict[str, Any]]) -> str:
    given = {call.get("as") for call in script}
    return next(name for name in iter(lambda: f"m{chance.randrange(10**9)}", None) if name not in given)


def move_call(chance: random.Random, script: list[dict[str, Any]]) -> None:
    """Two neighbours change their places where neither needs the other."""
    number = chance.randrange(len(script))
    if number and script[number - 1].get("as") not in shape.names_in(script[number]):
        script[number - 1 : number + 1] = [script[number], script[number - 1]]


def put_call(chance: random.Random, script: list[dict[str, Any]]) -> None:
    """Something that may stand anywhere: a scope, a question when the work is done, or the end of a resource."""
    number = chance.randrange(len(script) + 1)
    resources = [call["as"] for call in script[:number] if calls.makes(call["do"]) in ("buffer", "texture", "query set")]
    mapped = [call["as"] for call in script[:number] if calls.makes(call["do"]) == "buffer"]
    others: list[dict[str, Any]] = [{"do": "pushErrorScope", "filter": chance.choice(FILTERS)}, {"do": "popErrorScope"}, {"do": "workDone"}]
    if resources:
        others += [{"do": "destroy", "object": chance.choice(resources)}]
    if mapped:
        buffer = chance.choice(mapped)
        others += [{"do": "unmap", "buffer": buffer}, {"do": "mapAsync", "buffer": buffer, "mode": chance.choice([1, 2])}]
    script.insert(number, chance.choice(others))


CHANGES = [change_number, change_word, change_flag, change_name, leave_key, double_item, leave_call, double_call, move_call, put_call]
WEIGHTS = [40, 12, 5, 12, 8, 4, 5, 3, 4, 7]
