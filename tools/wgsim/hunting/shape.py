"""Where numbers, words and names stand in a call, as plain dicts and lists have them, by the table of calls."""

from __future__ import annotations

import functools
from typing import Any, Iterator, NamedTuple

from wgsim.reading import calls

ITEMS = {"names": "name", "numbers": "number", "words": "word"}
# The lists from which an item may be taken away where what it names is gone; a call with another such name goes too.
LOOSE = {"submit": "buffers", "executeBundles": "bundles"}


class Slot(NamedTuple):
    """A value in a call: what holds it, under which key or at which place, and what it has to be."""

    holder: Any
    at: Any
    key: calls.Key

    @property
    def value(self) -> Any:
        return self.holder[self.at]

    def put(self, value: Any) -> None:
        self.holder[self.at] = value


@functools.lru_cache(maxsize=None)
def keys_of(word: str) -> dict[str, calls.Key]:
    """The keys of a call."""
    keys = calls.keys_of(word)
    assert keys is not None
    return keys


@functools.lru_cache(maxsize=None)
def keys_by_form(sort: str, form: str | None) -> dict[str, calls.Key]:
    """The keys of an object in a call that has a form."""
    further = calls.forms_of(sort).get(form, {}) if form is not None else {}
    return {name: calls.Key(text) for name, text in {**calls.OBJECTS[sort]["keys"], **further}.items()}


def keys_of_object(sort: str, item: dict[str, Any]) -> dict[str, calls.Key]:
    """The keys of an object in a call, by its sort and its form."""
    by = calls.form_key(sort)
    form = item.get(by) if by is not None else next((each for each in calls.forms_of(sort) if each in item), None)
    return keys_by_form(sort, form)


def key_of_item(key: calls.Key) -> calls.Key:
    """What an item of a list of names, numbers or words has to be."""
    null = " or null" if key.may_have_null else ""
    return calls.Key("number 32") if key.sort == "three" else calls.Key(f"{ITEMS[key.sort]} {key.detail}{null}")


def slots(call: dict[str, Any]) -> Iterator[Slot]:
    """The values of a call, those inside its objects and lists too; what holds others comes after them."""
    for name, key in keys_of(call["do"]).items():
        if name in call:
            yield from slots_under(call, name, key)


def slots_under(holder: Any, at: Any, key: calls.Key) -> Iterator[Slot]:
    """The values under a key, and the value of the key itself."""
    value = holder[at]
    if key.sort in ("object", "objects"):
        word = key.word
        for number, item in enumerate([value] if key.sort == "object" else value):
            if isinstance(item, str) and word is not None:
                yield Slot(value, number, word)
            for name, inner in keys_of_object(key.detail, item).items() if isinstance(item, dict) else ():
                if name in item:
                    yield from slots_under(item, name, inner)
    elif key.sort in ITEMS or key.sort == "three":
        inner = key_of_item(key)
        for number in range(len(value)):
            yield Slot(value, number, inner)
    yield Slot(holder, at, key)


def names_in(call: dict[str, Any]) -> set[str]:
    """The names that a call uses."""
    return {
        slot.value
        for slot in slots(call)
        if slot.key.sort == "name" and isinstance(slot.value, str) and not (slot.key.may_be_auto and slot.value == calls.AUTO)
    }


def without(script: list[dict[str, Any]], gone: set[int]) -> list[dict[str, Any]]:
    """The calls of a script but for some, and for those that name what these made; the calls are the script's own, or changed copies."""
    return [call for _, call in kept_of(script, gone)]


def kept_of(script: list[dict[str, Any]], gone: set[int]) -> list[tuple[int, dict[str, Any]]]:
    """The same with the number that each call had."""
    missing: set[str] = set()
    left = []
    for number, call in enumerate(script):
        kept = None if number in gone else freed(call, missing)
        if kept is not None:
            left.append((number, kept))
        elif "as" in call:
            missing.add(call["as"])
    return left


def freed(call: dict[str, Any], missing: set[str]) -> dict[str, Any] | None:
    """A call without items that name what is missing, or None where it needs one."""
    if not missing or not names_in(call) & missing:
        return call
    at = LOOSE.get(call["do"])
    if at is None:
        return None
    items = [name for name in call[at] if name not in missing]
    changed = {**call, at: items}
    return changed if items and not names_in(changed) & missing else None
