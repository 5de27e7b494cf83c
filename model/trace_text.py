"""Reading a printed trace, be it the program's or another's: its lines, or the rule that they break and where.

The rules are tested in their order: 1 of the text, then of each line 2, 3 and 4. Lines count from 1 over the whole text; all before the
first line `trace` is passed over.

A trace is a list of items: `("bar", part, from, to)`, `("step", accesses)` with pairs of a kind and cells, and `("free",)`; uses are read
and not kept, since nothing hangs on them. Parts are `("b", N)`, `("q", N)` or `("t", N, aspect, mip, low, high)`, and cells are `("b", N,
low, high)`, `("q", N, low, high)`, or `("t", ..)` and `("s", ..)` with the fields of such a part. An aspect is its place in the printed
order. """

from __future__ import annotations

import bisect
import re
from typing import Any

from .formats import ASPECTS
from .steps import READING, USAGES, WRITING

GREATEST_WHOLE = 2**53 - 1
GREATEST_WORD32 = 2**32 - 1
NUMBER = re.compile("0|[1-9][0-9]*")
KINDS = {*READING, *WRITING}
NAMES = {
    "clear", "writeBuffer", "writeTexture", "copyBufferToBuffer", "copyBufferToTexture", "copyTextureToBuffer", "copyTextureToTexture",
    "clearBuffer", "resolveQuerySet", "dispatch", "renderPass", "hostRead", "hostWrite",
}

# After which lines a line may stand, where it may not stand after any. The line `trace` is one too.
AFTER = {"use": {"step", "use"}, "acc": {"step", "use", "acc"}}
BEHIND_A_BAR = {"bar", "step"}


class Refused(Exception):
    """A text breaks a rule of traces in a line; the text as a whole in line 0."""

    def __init__(self, rule: int, line: int) -> None:
        super().__init__(rule, line)
        self.rule = rule
        self.line = line


class NoForm(Exception):
    """A line is none of a trace."""


def read(data: bytes) -> list[tuple[int, Any]]:
    """The items of the trace in a text, each with the number of its line, that of a step with that of its step line."""
    lines = lines_of(data)
    first = lines.index(b"trace")
    items, last, steps, given = [], "trace", 0, {}
    for number, line in enumerate(lines[first + 1:], first + 2):
        try:
            word, *fields = line_of(line.decode("ascii"))
        except NoForm:
            raise Refused(2, number) from None
        if last == "end" or last not in AFTER.get(word, {last}) or last == "bar" and word not in BEHIND_A_BAR:
            raise Refused(3, number)
        if word == "step" and fields[0] != steps or number == len(lines) and word != "end":
            raise Refused(3, number)
        if word == "step":
            items.append((number, ("step", [])))
            steps, given = steps + 1, {}
        elif word == "acc":
            if not is_new(given, fields[1]):
                raise Refused(4, number)
            items[-1][1][1].append(tuple(fields))
        elif word in ("bar", "free"):
            items.append((number, (word, *fields)))
        last = word
    if last == "trace":
        raise Refused(3, first + 1)
    return items


def lines_of(data: bytes) -> list[bytes]:
    """Rule 1, on the text as a whole. The answer is its lines."""
    if not data.endswith(b"\n") or re.search(rb"[^\n -~]", data):
        raise Refused(1, 0)
    lines = data[:-1].split(b"\n")
    if b"trace" not in lines:
        raise Refused(1, 0)
    return lines


def is_new(given: Any, cells: tuple[Any, ...]) -> bool:
    """No cell stands in the earlier lines of a step; then they are noted there, by what they are of."""
    *owner, low, high = cells
    runs = given.setdefault(tuple(owner), [])
    at = bisect.bisect(runs, (low, high))
    runs.insert(at, (low, high))
    return all(one[1] <= other[0] for one, other in zip(runs[max(at - 1, 0):], runs[max(at - 1, 0) + 1:at + 2]))


def line_of(line: str) -> Any:
    """The word of a line and its fields, or NoForm."""
    if line == "end":
        return ("end",)
    word, *fields = line.split(" ")
    if word == "step" and len(fields) == 4 and fields[1] in ("op", "host") and fields[3] in NAMES:
        return "step", number_of(fields[0]), number_of(fields[2])
    if word == "use" and fields:
        return "use", part_of(fields[:-1]), set_of(fields[-1])
    if word == "bar" and len(fields) > 1:
        return "bar", part_of(fields[:-2]), None if fields[-2] == "none" else set_of(fields[-2]), set_of(fields[-1])
    if word == "acc" and fields and fields[0] in KINDS:
        return "acc", fields[0], cells_of(fields[1:])
    if word == "free" and len(fields) == 2 and fields[0] in ("b", "t", "q"):
        return "free", fields[0], number_of(fields[1])
    raise NoForm(line)


def number_of(text: str, most: int = GREATEST_WHOLE) -> int:
    if NUMBER.fullmatch(text) is None or len(text) > len(str(most)) or int(text) > most:
        raise NoForm(text)
    return int(text)


def set_of(text: str) -> frozenset[str]:
    """A set of usages: some, in printed order, each once."""
    words = text.split("+")
    if words != [usage for usage in USAGES if usage in words]:
        raise NoForm(text)
    return frozenset(words)


def part_of(fields: list[str]) -> tuple[Any, ...]:
    """A whole buffer or query set, or layers of a texture."""
    if len(fields) == 2 and fields[0] in ("b", "q"):
        return fields[0], number_of(fields[1])
    if len(fields) == 6 and fields[0] == "t":
        return image_of(fields)
    raise NoForm(fields)


def cells_of(fields: list[str]) -> tuple[Any, ...]:
    """Bytes of a buffer, queries of a set, layers of a texture, or slices of a 3D texture, which have color alone."""
    if len(fields) == 4 and fields[0] in ("b", "q"):
        return (fields[0], number_of(fields[1]), *run_of(fields[2:], GREATEST_WHOLE if fields[0] == "b" else GREATEST_WORD32))
    if len(fields) == 6 and (fields[0] == "t" or fields[0] == "s" and fields[2] == "color"):
        return image_of(fields)
    raise NoForm(fields)


def image_of(fields: list[str]) -> tuple[Any, ...]:
    sort, number, aspect, mip, *run = fields
    if aspect not in ASPECTS:
        raise NoForm(aspect)
    return (sort, number_of(number), ASPECTS.index(aspect), number_of(mip, GREATEST_WORD32), *run_of(run, GREATEST_WORD32))


def run_of(fields: list[str], most: int) -> tuple[int, int]:
    low, high = (number_of(field, most) for field in fields)
    if low >= high:
        raise NoForm(fields)
    return low, high
