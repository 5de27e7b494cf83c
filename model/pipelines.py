"""The rules of pipelines: what the interface uses, and what a render pipeline reads and draws to."""

from __future__ import annotations

from typing import Any, Iterator

from . import fixed_function, formats
from .draws import attribute_end
from .groups import COMPUTE, STAGES
from .limits import of_all as limits_of_all
from .rules import at_most

MOST_VERTEX_BUFFERS = limits_of_all("maxVertexBuffers")
MOST_TARGETS = limits_of_all("maxColorAttachments")


def compute_rules(layouts: Any, iface: list[Any] | tuple[()]) -> Iterator[tuple[int, str, bool]]:
    """The own rule of createComputePipeline, on the entries of the layouts of its layout."""
    for used in iface:
        yield from used_rules(layouts, used, COMPUTE)


def used_rules(layouts: Any, used: Any, stage: Any) -> Iterator[tuple[int, str, bool]]:
    """Rule 160, on an entry of the interface and the stage that uses it."""
    yield 160, "group", used["group"] < len(layouts)
    found = [entry for entry in layouts[used["group"]] if entry["binding"] == used["binding"]]
    yield 160, "binding", found != []
    yield 160, "visible", found[0]["visibility"] & stage != 0
    yield from kind_rules(160, found[0], used)


def kind_rules(number: int, entry: dict[Any, Any], used: dict[Any, Any], where: str = "") -> Iterator[tuple[int, str, bool]]:
    """Two entries have the same kind, be they of a layout or of an interface. Whether a buffer is dynamic and its least size are not of the
    kind."""
    yield number, f"kind{where}", entry["kind"] == used["kind"]
    for key in ("type", "sample", "dim", "multi", "access", "format"):
        if key in used:
            yield number, f"{key} of {used['kind']}{where}", entry[key] == used[key]


def render_rules(layouts: list[Any], call: dict[str, Any], limits: dict[str, int]) -> Iterator[tuple[int, str, bool]]:
    """The own rules of createRenderPipeline."""
    for used in call["iface"]:
        yield from used_rules(layouts, used, STAGES[used["stage"]])
    read = [one for one in call["buffers"] if one is not None]
    yield from vertex_buffer_rules(len(call["buffers"]), read, limits)
    yield from attribute_rules(read, limits)
    yield from fixed_function.strip_rules(call["primitive"])
    targets = [target for target in call["targets"] if target is not None]
    drawn = [target["format"] for target in targets]
    yield at_most(163, "targets", len(call["targets"]), MOST_TARGETS)
    for format in drawn:
        yield 163, "color", formats.is_color(format)
    yield from fixed_function.blend_rules(targets)
    yield from fixed_function.bytes_rules(drawn, limits)
    if call["depth"] is not None:
        yield from depth_rules(call["depth"])
        yield from fixed_function.depth_rules(call["depth"], call["primitive"])
        drawn.append(call["depth"]["format"])
    yield 165, "something is drawn to", drawn != []
    yield 166, "samples", call["samples"] in (1, 4)
    if call["samples"] == 4:
        for format in drawn:
            yield 166, "format", formats.may_have_four_samples(format)
    yield from fixed_function.coverage_rules(call)


def vertex_buffer_rules(slots: int, vertex_buffers: list[dict[str, Any]], limits: dict[str, int]) -> Iterator[tuple[int, str, bool]]:
    """Rule 161, on how many slots there are, and on the vertex buffers of those that are read, which are not null."""
    yield at_most(161, "vertex buffers" if slots == len(vertex_buffers) else "vertex buffers and nulls", slots, MOST_VERTEX_BUFFERS)
    yield at_most(161, "attributes", sum(len(one["attributes"]) for one in vertex_buffers), limits["maxVertexAttributes"])
    for one in vertex_buffers:
        yield 161, "a multiple of 4", one["stride"] % 4 == 0
        yield at_most(161, "stride", one["stride"], limits["maxVertexBufferArrayStride"])


def attribute_rules(vertex_buffers: list[dict[str, Any]], limits: dict[str, int]) -> Iterator[tuple[int, str, bool]]:
    """Rule 162."""
    locations = [attribute["location"] for one in vertex_buffers for attribute in one["attributes"]]
    for location in locations:
        yield at_most(162, "location", location, limits["maxVertexAttributes"] - 1)
    yield 162, "locations", len(set(locations)) == len(locations)
    for one in vertex_buffers:
        for attribute in one["attributes"]:
            where = "stride 0" if one["stride"] == 0 else "stride"
            yield at_most(162, f"end, {where}", attribute_end(attribute), one["stride"] or limits["maxVertexBufferArrayStride"])
            step = 2 if formats.VERTEX_FORMATS[attribute["format"]] == 2 else 4
            yield 162, f"offset, a multiple of {step}", attribute["offset"] % step == 0


def depth_rules(depth: dict[str, Any]) -> Iterator[tuple[int, str, bool]]:
    """Rule 164. Whether stencil is written that hangs on the keys of stencil is not looked at."""
    aspects = formats.aspects_of(depth["format"])
    yield 164, "depth or stencil", not formats.is_color(depth["format"])
    yield 164, "depthWrite", depth["depthWrite"] is not True or "depth" in aspects
    yield 164, "stencilWrite", not depth.get("stencilWrite", False) or "stencil" in aspects
