"""The rules of createBuffer, and the budget, which textures have as well."""

from __future__ import annotations

from typing import TYPE_CHECKING

from wgsim.reading import bits

from .making import Cause, at_most, known_usage, limited, listed, multiple, plural, rule

if TYPE_CHECKING:
    from wgsim.causes.cases import Case

MAP_READ, MAP_WRITE, COPY_SRC, COPY_DST = 1, 2, 4, 8
# How many of the things that take most of the budget are named.
LARGEST = 3


@rule(100)
def usage(case: Case) -> Cause | None:
    return known_usage(case, bits.BUFFER, "a buffer")


def beside(case: Case, mode: int, may: int) -> Cause | None:
    """Beside a usage for maps one other alone may stand."""
    has = case.call["usage"]
    others = has & ~(mode | may)
    if not has & mode or not others:
        return None
    said = (
        f"usage is {bits.said(has, bits.BUFFER)}; beside {bits.one(mode, bits.BUFFER)} only {bits.one(may, bits.BUFFER)} may stand, and not"
        f" {bits.each(others, bits.BUFFER)}"
    )
    values = {
        "usage": has,
        "usageWords": bits.words(has, bits.BUFFER),
        "notAllowed": others,
        "notAllowedWords": bits.words(others, bits.BUFFER),
    }
    return Cause(said, values, "Map a buffer of its own, and copy between the two.")


@rule(101)
def map_read(case: Case) -> Cause | None:
    return beside(case, MAP_READ, COPY_DST)


@rule(102)
def map_write(case: Case) -> Cause | None:
    return beside(case, MAP_WRITE, COPY_SRC)


@rule(103)
def size(case: Case) -> Cause | None:
    asked = case.call["size"]
    return limited("maxBufferSize", asked, at_most("size", asked, case.history.limits["maxBufferSize"], remedy="Take several buffers."))


@rule(104)
def mapped_size(case: Case) -> Cause | None:
    return multiple("size", case.call["size"], 4, why=", and mapped is true") if case.call["mapped"] else None


@rule(13)
def budget(case: Case) -> Cause | None:
    """The budget has no room: what is asked for, what is left, and what takes most."""
    asked, total = case.second.memory.bytes_of(case.call), case.history.budget
    taken = case.history.live_bytes()
    left = total - taken
    if asked <= left:
        return None
    largest = [(case.history.entries()[entry], -size) for size, entry in case.play.live[:LARGEST] if size]
    said = (
        f"{case.name(case.entry)} takes {plural(asked, 'byte')}, and of the budget of {plural(total, 'byte')}, {taken} are taken and"
        f" {left} are left"
    )
    if largest:
        said += "; most is taken by " + listed(f"{case.named(thing)} with {size}" for thing, size in largest)
    values = {"asked": asked, "budget": total, "taken": taken, "left": left}
    values.update(largest=[thing.call["as"] for thing, _ in largest], largestBytes=[size for _, size in largest])
    return Cause(
        said,
        values,
        "Destroy or drop what is not needed any longer, and complete the work that uses it."
        if asked <= total
        else "It is more than the whole budget.",
    )
