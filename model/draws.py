"""Vertex and index buffers as they are set in a render pass, the rules of draws, and what they touch."""

from __future__ import annotations

from typing import TYPE_CHECKING, Any, Iterator

from . import buffers, fixed_function, formats
from .cells import in_buffer, set_in_buffer
from .limits import of_all as limits_of_all
from .rules import at_most

if TYPE_CHECKING:
    from model.history import Played

VERTEX, INDEX, INDIRECT = 32, 16, 256
SLOTS = limits_of_all("maxVertexBuffers")

# The bytes of an index, by its format.
INDEX_BYTES = {"uint16": 2, "uint32": 4}

# The bytes that an indirect command reads.
INDIRECT_BYTES = {"dispatchIndirect": 12, "drawIndirect": 16, "drawIndexedIndirect": 20}

# The keys whose numbers tell how many elements a draw asks of a vertex buffer, by the step of that.
ELEMENT_KEYS = {"vertex": ("firstVertex", "vertices"), "instance": ("firstInstance", "instances")}


def range_set(command: Played) -> tuple[int, int]:
    """The offset and the size of the range that a setVertexBuffer or setIndexBuffer sets; a size that is left out is what remains."""
    buffer, offset, size = command.uses["buffer"], command.call["offset"], command.call["size"]
    return offset, buffers.rest(buffer.call, buffer.is_valid, offset) if size is None else size


def vertex_buffer_rules(command: Played) -> Iterator[tuple[int, str, bool]]:
    """The own rules of setVertexBuffer."""
    if "buffer" not in command.uses:
        yield from no_buffer_rules(command.call)
        return
    buffer, (offset, size) = command.uses["buffer"].call, range_set(command)
    yield 330, "VERTEX", buffer["usage"] & VERTEX != 0
    yield at_most(331, "slot", command.call["slot"], SLOTS - 1)
    yield 332, "offset", offset % 4 == 0
    yield 333, range_word(command, buffer, offset, size), buffers.fits(buffer, offset, size)


def no_buffer_rules(call: dict[str, Any]) -> Iterator[tuple[int, str, bool]]:
    """The own rules of a setVertexBuffer without a buffer, which unsets what is set: its range is that of nothing, and a size that is left
    out is 0, whatever the offset."""
    yield at_most(331, "slot, no buffer", call["slot"], SLOTS - 1)
    yield 332, "offset, no buffer", call["offset"] % 4 == 0
    yield 333, "offset 0 without a buffer", call["offset"] == 0
    yield 333, f"size {'left out' if call['size'] is None else '0'} without a buffer", (call["size"] or 0) == 0


def index_buffer_rules(command: Played) -> Iterator[tuple[int, str, bool]]:
    """The own rules of setIndexBuffer."""
    buffer, (offset, size) = command.uses["buffer"].call, range_set(command)
    yield 335, "INDEX", buffer["usage"] & INDEX != 0
    yield 336, f"offset, {command.call['format']}", offset % INDEX_BYTES[command.call["format"]] == 0
    yield 337, range_word(command, buffer, offset, size), buffers.fits(buffer, offset, size)


def range_word(command: Played, buffer: dict[str, Any], offset: int, size: int) -> str:
    """A word for the counts: what range is set."""
    how = "size left out" if command.call["size"] is None else "just the end" if offset + size == buffer["size"] else "range"
    return f"{how}, empty" if size == 0 else how


def indirect_rules(command: Played) -> Iterator[tuple[int, str, bool]]:
    """The rules of an indirect dispatch or draw on the numbers that it reads."""
    buffer, offset, length = command.uses["buffer"].call, command.call["offset"], INDIRECT_BYTES[command.do]
    yield 344, "INDIRECT", buffer["usage"] & INDIRECT != 0
    yield 345, "offset", offset % 4 == 0
    yield 346, "just the end" if offset + length == buffer["size"] else "range", buffers.fits(buffer, offset, length)


def draw_rules(command: Any, settings: Any) -> Iterator[Any]:
    """The rules of a draw on vertex and index buffers. An indirect one asks only that they are set."""
    wanted, vertex_buffers = read_slots(settings.pipeline.call), settings.vertex_buffers
    for slot, _ in wanted:
        yield 350, f"slot {slot}", slot in vertex_buffers
    if command.do in ("drawIndexed", "drawIndexedIndirect"):
        yield 352, "index buffer", settings.index_buffer is not None
        yield from strip_rules(settings.pipeline.call["primitive"], settings.index_buffer)
    if command.do == "drawIndexed":
        yield from index_rules(command, settings.index_buffer)
    if command.do in ("draw", "drawIndexed"):
        for slot, vertex_buffer in wanted:
            if command.do == "draw" or vertex_buffer["step"] == "instance":
                yield from element_rules(command.call, vertex_buffer, vertex_buffers[slot])


def read_slots(pipeline: dict[str, Any]) -> list[Any]:
    """The slots that a pipeline reads, each with its vertex buffer: all but those that are null."""
    return [(slot, one) for slot, one in enumerate(pipeline["buffers"]) if one is not None]


def strip_rules(primitive: dict[str, Any], setting: Any) -> Iterator[Any]:
    """Rule 419, on the primitives of a pipeline that is drawn with indices, and the setIndexBuffer before it."""
    if fixed_function.is_strip(primitive):
        said = primitive["stripIndexFormat"]
        yield 419, f"format of indices of a strip, {said or 'not said'}", setting.call["format"] == said


def index_rules(command: Any, setting: Any) -> Iterator[Any]:
    """Rule 353, on a drawIndexed and the setIndexBuffer before it."""
    asked = (command.call["firstIndex"] + command.call["indices"]) * INDEX_BYTES[setting.call["format"]]
    _, size = range_set(setting)
    yield at_most(353, f"bytes, {setting.call['format']}", asked, size)


def element_rules(call: dict[str, int | str], vertex_buffer: dict[str, Any], setting: Played) -> Iterator[tuple[int, str, bool]]:
    """Rule 351, on a draw, a vertex buffer of its pipeline and the setVertexBuffer before it."""
    _, size = range_set(setting)
    asked = bytes_asked(call, vertex_buffer)
    yield at_most(351, f"bytes, step {vertex_buffer['step']}{', none' if asked == 0 else ''}", asked, size)


def bytes_asked(call: Any, vertex_buffer: dict[Any, Any]) -> int:
    """The bytes that a draw asks of a vertex buffer: the strides of all elements but the last, and of that up to the greatest end of
    an attribute. No bytes where it asks no element."""
    first, count = ELEMENT_KEYS[vertex_buffer["step"]]
    elements = call[first] + call[count]
    ends = [attribute_end(attribute) for attribute in vertex_buffer["attributes"]]
    return (elements - 1) * vertex_buffer["stride"] + max(ends, default=0) if elements > 0 else 0


def attribute_end(attribute: Any) -> int:
    return attribute["offset"] + formats.VERTEX_FORMATS[attribute["format"]]


def touches_of_range(command: Played) -> list[Any]:
    """What a setVertexBuffer or setIndexBuffer makes its pass touch: the range, where that is empty the buffer alone, and nothing where no
    buffer is set."""
    if command.do not in ("setVertexBuffer", "setIndexBuffer") or "buffer" not in command.uses:
        return []
    return set_in_buffer(command.uses["buffer"], *range_set(command), "input", "read")


def touches_of_indirect(command: Played) -> list[Any]:
    """The numbers that an indirect dispatch or draw reads."""
    if command.do not in INDIRECT_BYTES:
        return []
    return in_buffer(command.uses["buffer"], command.call["offset"], INDIRECT_BYTES[command.do], "input", "read")
