"""The first reading of a script: rules 1 to 8 and 14.

The first refusal that is found is the answer. At the top the rules are tested in the order 1, 2, 14, 3; then the script
is gone through in order, of each phase and of each lane 4 is tested when it is come to, and of each call 5, 6, 7 and 8.
"""

from __future__ import annotations

from typing import TYPE_CHECKING, Any, Callable

from . import json_text, limits, rules
from .calls import (
    ALL_CHANNELS, CALLS, FLAG, KIND, LABEL, NAME, NEEDED, ONE_NAME, SECOND_FORMS, THREE, WHOLE, WITH_KIND, WORD32, WORDS32,
    is_of_second_form,
)
from .formats import FORMATS

if TYPE_CHECKING:
    from model.forms import Call, Key

MOST_BYTES = 4_194_304
MOST_PHASES = 1_024
MOST_LANES = 64
MOST_CALLS = 65_536
MOST_ITEMS = 1_024
MOST_LABEL_BYTES = 256
GREATEST_WHOLE = 2**53 - 1
GREATEST_WORD32 = 2**32 - 1


class Form:
    """A form that a call may have: the table of its keys, those that it may have, and those that it has to have."""

    def __init__(self, keys: list[Key]) -> None:
        self.keys = keys
        self.allowed = {"do", *(key for key, _, _ in keys)}
        self.needed = {key for key, _, default in keys if default is NEEDED}


FORMS = {(do, False): Form(keys) for do, keys in CALLS.items()}
FORMS.update({(do, True): Form(keys) for do, (_, keys) in SECOND_FORMS.items()})


class Refused(Exception):
    """A script breaks a rule at a place: none, or phase, lane and call as far as the rule has them."""

    def __init__(self, rule: int, place: Any) -> None:
        super().__init__(rule, place)
        self.rule = rule
        self.place = place


def ask(rule: int, what: str, is_met: bool, place: Any = ()) -> None:
    """Refuses the script unless the rule is met."""
    if rules.is_counted:
        rules.note("script", rule, what, is_met)
    if not is_met:
        raise Refused(rule, place)


def read(data: bytes) -> tuple[int, dict[str, int], list[Any]]:
    """The budget of a script, its limits, and its phases, each a list of lanes, and each lane a list of pairs of a place and a call whose
    left out keys have their values."""
    return read_top(read_json(data))


def read_top(top: Any) -> tuple[int, dict[str, int], list[Any]]:
    """The same of what the text of a script stands for."""
    ask(2, "object", type(top) is dict)
    ask(2, "needed keys", {"budget", "phases"} <= set(top))
    ask(2, "no other key", set(top) <= {"budget", "limits", "phases"})
    ask(2, "budget", is_whole(top["budget"], GREATEST_WHOLE))
    ask(2, "list of phases", type(top["phases"]) is list)
    asked = read_limits(top.get("limits", {}))
    ask(3, "phases", len(top["phases"]) <= MOST_PHASES)
    phases, calls = [], 0
    for number, phase in enumerate(top["phases"]):
        phases.append(read_phase(number, phase, calls))
        calls += sum(map(len, phases[-1]))
    return top["budget"], asked, phases


def read_limits(asked: Any) -> dict[str, int]:
    """Rule 14, on each limit that a script asks for, in the order of the text. The answer is the limits that its device has."""
    ask(14, "object", type(asked) is dict)
    for name, value in asked.items():
        ask(14, "name of a limit", name in limits.DEFAULTS)
        ask(14, f"whole number, {name}", is_whole(value, GREATEST_WHOLE))
        if name in limits.ALIGNMENTS:
            ask(14, f"power of two, {name}", limits.is_alignment(value))
        best = limits.BEST[name]
        ask(14, f"just the best {name}" if value == best else name, not limits.is_better(name, value, best))
    return limits.given(asked)


def read_json(data: bytes) -> Any:
    try:
        top = json_text.read(data)
    except json_text.NoJson:
        ask(1, "json", False)
    ask(1, "json", True)
    return top


def read_phase(number: int, phase: Any, calls_before: int) -> Any:
    """The lanes of a phase, before which so many calls stand in the script."""
    ask(4, "list of lanes", type(phase) is list, (number,))
    ask(4, "lanes", len(phase) <= MOST_LANES, (number,))
    lanes = []
    for lane_number, lane in enumerate(phase):
        ask(4, "lane", type(lane) is list, (number, lane_number))
        lanes.append([])
        for call_number, call in enumerate(lane):
            place = (number, lane_number, call_number)
            ask(5, "calls", calls_before < MOST_CALLS, place)
            lanes[-1].append((place, read_call(place, call)))
            calls_before += 1
    return lanes


def read_call(place: tuple[int, int, int], call: Any) -> Call:
    """A call with all its keys; a key that is left out has the value of the table."""
    ask(6, "object", type(call) is dict, place)
    do = call.get("do")
    ask(6, "word", type(do) is str and do in CALLS, place)
    is_second = is_of_second_form(do, call)
    form, where = FORMS[do, is_second], ", second form" if is_second else ""
    ask(7, f"unknown key{where}", call.keys() <= form.allowed, place)
    ask(7, f"missing key{where}", form.needed <= call.keys(), place)
    return {"do": do, **read_values(place, "", call, form.keys)}


def read_values(place: Any, where: Any, value: Any, keys: Any) -> Any:
    """The values of a call, or of an object in it, one key after another."""
    return {key: read_value(place, where, sort, value[key]) if key in value else default for key, sort, default in keys}


def read_value(place: tuple[Any, ...], where: str, sort: Any, value: Any) -> Any:
    """Rule 8, on a value by the sort that its key has. Objects get all their keys."""
    if sort == WHOLE:
        ask(8, f"whole number{where}", is_whole(value, GREATEST_WHOLE), place)
    elif sort == WORD32:
        ask(8, f"number of 32 bits{where}", is_whole(value, GREATEST_WORD32), place)
    elif sort == FLAG:
        ask(8, f"flag{where}", type(value) is bool, place)
    elif sort == THREE:
        ask(8, "list", type(value) is list, place)
        ask(8, "three items", len(value) == 3, place)
        ask(8, "three numbers", all(is_whole(item, GREATEST_WORD32) for item in value), place)
    elif sort == WORDS32:
        ask_list(place, "numbers", value)
        ask(8, "numbers of 32 bits", all(is_whole(item, GREATEST_WORD32) for item in value), place)
    elif sort == LABEL:
        ask(8, "label", type(value) is str, place)
        ask(8, "bytes of a label", len(value.encode()) <= MOST_LABEL_BYTES, place)
        ask(8, "characters of a label", all(letter >= " " and letter != "\x7f" for letter in value), place)
    elif sort == NAME or sort[0] in ONE_NAME:
        ask(8, f"name{where}", type(value) is str or value is None and sort[0] == "name or null", place)
    elif sort[0] == "word":
        ask(8, f"word{where}", type(value) is str and value in sort[1], place)
    elif sort[0] == "or none":
        if value != "none":
            return read_value(place, f"{where}, or none", sort[1], value)
        ask(8, f"none{where}", True, place)
    elif sort[0] == "object":
        return read_item(place, sort[1], value)
    else:
        return read_list(place, sort, value)
    return value


def read_list(place: Any, sort: Any, value: Any) -> Any:
    """A list of names, of words, or of objects; of the latter two with nulls among them or not."""
    ask_list(place, sort[0], value)
    if sort[0] == "names":
        ask(8, "names", all(type(item) is str for item in value), place)
        return value
    if sort[0] == "names or nulls":
        ask(8, "names or nulls", all(item is None or type(item) is str for item in value), place)
        return value
    if sort[0] == "words or nulls":
        ask(8, "words or nulls", all(item is None or type(item) is str and item in sort[1] for item in value), place)
        return value
    if sort[0] == "targets":
        return [None if item is None else read_target(place, sort[1], item) for item in value]
    is_nullable = sort[0] == "objects or nulls"
    return [None if item is None and is_nullable else read_item(place, sort[1], item) for item in value]


def read_target(place: Any, keys_of_target: Callable[..., Any], item: Any) -> dict[str, Any]:
    """An item of `targets` that is not null: an object, or the word of a format, which is a target with no more than that."""
    if type(item) is dict:
        return read_item(place, keys_of_target, item)
    ask(8, "word of a target", type(item) is str and item in FORMATS, place)
    return {"format": item, "blend": None, "writeMask": ALL_CHANNELS}


def ask_list(place: Any, of: str, value: Any) -> None:
    ask(8, f"list of {of}", type(value) is list, place)
    ask(8, f"items, {of}", len(value) <= MOST_ITEMS, place)


def read_item(place: Any, keys_of: Callable[..., Any], item: Any) -> dict[str, str | None]:
    """An object in a call, which breaks rule 8 alone. Where its keys hang on its kind, that is looked at first."""
    ask(8, "object", type(item) is dict, place)
    if keys_of in WITH_KIND:
        ask(8, "missing kind", "kind" in item, place)
        read_value(place, " in an object", KIND[1], item["kind"])
    keys = keys_of(item)
    ask(8, "unknown key in an object", set(item) <= {key for key, _, _ in keys}, place)
    ask(8, "missing key in an object", all(key in item for key, _, default in keys if default is NEEDED), place)
    return read_values(place, " in an object", item, keys)


def is_whole(value: Any, greatest: int) -> bool:
    return type(value) is int and value <= greatest
