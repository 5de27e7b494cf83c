"""The rules of mapAsync, and those of all calls that ask how a buffer is mapped."""

from __future__ import annotations

from typing import TYPE_CHECKING

from wgsim.reading import bits

from .making import Cause, fits, multiple, rule, to_add

if TYPE_CHECKING:
    from model.history import Played
    from wgsim.causes.cases import Case

MAP_READ, MAP_WRITE = 1, 2
MODES = {1: "reading", 2: "writing"}


def asked(case: Case) -> tuple[int, int, int]:
    """The mode, the offset and the size of a mapAsync."""
    return case.second.maps.asked_by(case.call, case.uses["buffer"])


@rule(220)
def offset(case: Case) -> Cause | None:
    return multiple("offset", case.call["offset"], 8)


@rule(221)
def size(case: Case) -> Cause | None:
    is_left_out = case.call["size"] is None
    cause = multiple("size", asked(case)[2], 4, why=" (left out: what remains)" if is_left_out else "")
    if cause is not None and is_left_out:
        cause.remedy = "Give a size, or make the buffer with one that is a multiple of 4."
    return cause


@rule(222)
def map_range(case: Case) -> Cause | None:
    _, start, length = asked(case)
    return fits(case, case.uses["buffer"], start, length, is_left_out=case.call["size"] is None)


@rule(223)
def mode(case: Case) -> Cause | None:
    number = case.call["mode"]
    if number in (1, 2):
        return None
    said = f"mode is {bits.said(number, bits.MODES)}, and READ (1) or WRITE (2) is asked for"
    return Cause(said, {"mode": number, "allowed": [1, 2]}, "Take one of the two.")


@rule(224)
def map_usage(case: Case) -> Cause | None:
    buffer, number = case.uses["buffer"], case.call["mode"]
    usage = buffer.call["usage"]
    if usage & number:
        return None
    said = (
        f"mode is {bits.said(number, bits.MODES)}, and {case.named(buffer)} has usage {bits.said(usage, bits.BUFFER)};"
        f" {bits.one(number, bits.BUFFER)} is missing"
    )
    values = {
        "mode": number,
        "object": buffer.call["as"],
        "usage": usage,
        "usageWords": bits.words(usage, bits.BUFFER),
        "missing": number,
        "missingWord": bits.BUFFER[number],
    }
    return Cause(said, values, to_add(case, buffer, number, bits.BUFFER))


@rule(203, 225)
def idle(case: Case) -> Cause | None:
    return busy(case, case.uses["buffer"])


class Use:
    """The command by which something is used, and what it names where that is another thing that holds it, as a bind group."""

    def __init__(self, command: Played, holder: Played | None) -> None:
        self.command, self.holder = command, holder


def to_do(case: Case, thing: Played, use: Use | None) -> str:
    """What to do about what was destroyed. Where a later command still uses what holds it, a destroy that comes later is no help."""
    ending = case.play.call_of(case.play.destroyed_by[thing]).place
    command = case.play.call_of(use.command).place if use is not None else ending
    if use is None or use.holder is None or ending[:2] != command[:2] or ending[2] > command[2]:
        return "Destroy it after its last use."
    return f'Make "{use.holder.call["as"]}" anew, of what is there in its place, or destroy it after its last use.'


def busy(case: Case, buffer: Played, where: str = "", use: Use | None = None) -> Cause | None:
    """A buffer is pending, mapped or destroyed: by which call, and what to do."""
    history, name, maps = case.history, f"{case.named(buffer)}{where}", case.second.maps
    values = {"object": buffer.call["as"]}
    pending = history.pending_map(buffer)
    if pending is not None:
        by = case.place(pending)
        return Cause(
            f"{name} is pending: the map that the mapAsync at {by} asks for waits",
            {**values, "state": "pending", "by": by},
            "Complete the work that uses it and unmap it before, or unmap it at once.",
        )
    mapping = maps.mapping_of(history, buffer)
    if mapping is not None:
        mapper = case.play.mapped_by.get(buffer, buffer)
        said = f"{name} is mapped for {MODES[mapping[0]]}, by the {mapper.do} at {case.place(mapper)}"
        return Cause(said, {**values, "state": "mapped", "mode": mapping[0], "by": case.place(mapper)}, "Unmap it before.")
    if history.is_destroyed(buffer):
        by = case.place(case.play.destroyed_by[buffer])
        return Cause(f"{name} was destroyed at {by}", {**values, "state": "destroyed", "by": by}, to_do(case, buffer, use))
    return None
