"""The rules of vertex and index buffers, and of indirect and other draws."""

from __future__ import annotations

from typing import TYPE_CHECKING, Any

from .making import Cause, at_most, first, fits, lacks, multiple, plural, rule
from .settings import unset_before

if TYPE_CHECKING:
    from model.history import Played
    from wgsim.causes.cases import Case

INDEX, VERTEX, INDIRECT = 16, 32, 256
OF_NO_BUFFER = "Leave offset and size out."


def is_left_out(case: Case) -> bool:
    return case.call["size"] is None


def set_range(case: Case) -> Cause | None:
    offset, size = case.second.draws.range_set(case.played)
    return fits(case, case.uses["buffer"], offset, size, is_left_out=is_left_out(case))


@rule(330)
def vertex_usage(case: Case) -> Cause | None:
    return lacks(case, case.uses["buffer"], VERTEX)


@rule(331)
def slot(case: Case) -> Cause | None:
    return at_most("slot", case.call["slot"], 7, "Slots are numbered from 0 to 7.")


@rule(332)
def vertex_offset(case: Case) -> Cause | None:
    cause = multiple("offset", case.call["offset"], 4)
    return cause if cause is None or "buffer" in case.uses else Cause(cause.condition, {**cause.values, "buffer": None}, OF_NO_BUFFER)


@rule(333)
def vertex_range(case: Case) -> Cause | None:
    return set_range(case) if "buffer" in case.uses else range_of_none(case)


def range_of_none(case: Case) -> Cause | None:
    """A range is given with the buffer null."""
    for key in ("offset", "size"):
        if case.call[key]:
            said = f"{key} is {case.call[key]}, and buffer is null, of which there is no byte"
            return Cause(said, {key: case.call[key], "buffer": None, "most": 0}, OF_NO_BUFFER)
    return None


@rule(335)
def index_usage(case: Case) -> Cause | None:
    return lacks(case, case.uses["buffer"], INDEX)


@rule(336)
def index_offset(case: Case) -> Cause | None:
    format = case.call["format"]
    return multiple("offset", case.call["offset"], case.second.draws.INDEX_BYTES[format], why=f", the bytes of a {format}")


@rule(337)
def index_range(case: Case) -> Cause | None:
    return set_range(case)


@rule(344)
def indirect_usage(case: Case) -> Cause | None:
    return lacks(case, case.uses["buffer"], INDIRECT)


@rule(345)
def indirect_offset(case: Case) -> Cause | None:
    return multiple("offset", case.call["offset"], 4)


@rule(346)
def indirect_range(case: Case) -> Cause | None:
    buffer, offset, length = case.uses["buffer"], case.call["offset"], case.second.draws.INDIRECT_BYTES[case.do]
    there = buffer.call["size"]
    if offset + length <= there:
        return None
    said = (
        f"offset {offset} and the {length} bytes that a {case.do} reads end at {offset + length}, and {case.named(buffer)} has"
        f" {plural(there, 'byte')}"
    )
    remedy = f"The greatest offset is {(there - length) // 4 * 4}." if length <= there else f"Make it with at least {length} bytes."
    return Cause(said, {"object": buffer.call["as"], "offset": offset, "reads": length, "end": offset + length, "bytes": there}, remedy)


def wanted(case: Case) -> tuple[Played, list[tuple[int, dict[str, Any]]]]:
    """The pipeline that is set, and the slots and vertex buffers that it asks for."""
    return case.pipeline, case.second.draws.read_slots(case.pipeline.call)


@rule(350)
def vertex_buffers_set(case: Case) -> Cause | None:
    pipeline, asked = wanted(case)
    missing = [at for at, _ in asked if at not in case.settings.vertex_buffers]
    if not missing:
        return None
    unset, again = unset_before(case, "setVertexBuffer", slot=missing[0])
    said = f"no vertex buffer is set at slot {missing[0]}, and {case.named(pipeline)} has {plural(len(asked), 'vertex buffer')}{unset}"
    return Cause(
        said, {"slot": missing[0], "missing": missing, "pipeline": pipeline.call["as"], "buffers": len(asked)}, f"Set one {again}."
    )


@rule(352)
def index_buffer_set(case: Case) -> Cause | None:
    if case.settings.index_buffer is not None:
        return None
    unset, again = unset_before(case, "setIndexBuffer")
    return Cause(
        f"no index buffer is set on {case.named(case.uses['on'])} where the {case.do} comes{unset}",
        {"pass": case.uses["on"].call["as"], "call": case.do},
        f"Set one {again}.",
    )


@rule(353)
def indices(case: Case) -> Cause | None:
    setting = case.settings.index_buffer
    assert setting is not None
    size, there = case.second.draws.INDEX_BYTES[setting.call["format"]], case.second.draws.range_set(setting)[1]
    low, count = case.call["firstIndex"], case.call["indices"]
    asked = (low + count) * size
    if asked <= there:
        return None
    said = (
        f"firstIndex {low} and indices {count} ask for ({low} + {count}) * {size} = {asked} bytes, and {bytes_set(case, setting, there)} as"
        f" the index buffer at {case.place(setting)}"
    )
    values = {
        "firstIndex": low,
        "indices": count,
        "bytesOfIndex": size,
        "asked": asked,
        "bytes": there,
        "object": setting.uses["buffer"].call["as"],
    }
    return Cause(
        said,
        values,
        (
            f"{plural(there // size, 'index') if there // size == 1 else f'{there // size} indices'} of"
            f" {setting.call['format']} {'is' if there // size == 1 else 'are'} there."
        ),
    )


def bytes_set(case: Case, setting: Played, there: int) -> str:
    return f"{plural(there, 'byte')} of {case.named(setting.uses['buffer'])} {'is' if there == 1 else 'are'} set"


@rule(351)
def elements(case: Case) -> Cause | None:
    _, asked = wanted(case)
    found = [(at, one) for at, one in asked if case.do == "draw" or one["step"] == "instance"]
    return first(elements_of(case, at, one) for at, one in found)


def elements_of(case: Case, at: int, one: dict[str, Any]) -> Cause | None:
    """What a draw asks of a vertex buffer goes past what is set at its slot."""
    draws = case.second.draws
    setting = case.settings.vertex_buffers[at]
    asked, there = draws.bytes_asked(case.call, one), draws.range_set(setting)[1]
    if asked <= there:
        return None
    low_key, count_key = draws.ELEMENT_KEYS[one["step"]]
    low, count = case.call[low_key], case.call[count_key]
    last = asked - (low + count - 1) * one["stride"]
    product = f"({low} + {count} - 1) * {one['stride']} + {last} = {asked}"
    said = (
        f"slot {at}: {low_key} {low} and {count_key} {count} ask for {product} bytes, and {bytes_set(case, setting, there)} at"
        f" {case.place(setting)}"
    )
    values = {
        "slot": at,
        "step": one["step"],
        low_key: low,
        count_key: count,
        "stride": one["stride"],
        "lastElement": last,
        "asked": asked,
        "bytes": there,
        "object": setting.uses["buffer"].call["as"],
    }
    return Cause(said, values, remedy_of(one["stride"], last, there, one["step"], f"set at least {asked} bytes"))


def remedy_of(stride: int, last: int, there: int, step: str, more: str) -> str:
    """How many elements are there, and to set more bytes where they are to be drawn."""
    if there < last:
        return f"No whole element for each {step} is there: {more}."
    count = (there - last) // stride + 1
    return f"There {'is' if count == 1 else 'are'} {plural(count, 'element')} for each {step}: draw no more of them, or {more}."
