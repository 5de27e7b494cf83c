"""Render pipelines at the borders of their rules: good ones that come just up to a limit, and ways to leave one rule unmet."""

from __future__ import annotations

from typing import TYPE_CHECKING, Any

from . import fixed_function
from .bindings import GREATEST_32, told, used_by
from .drawing import (
    ATTRIBUTE_BYTES, MOST_BUFFERS, STAGES, add_render_pipeline, some_attribute, some_iface, some_vertex_buffers,
    without_usual,
)
from .grouping import layout_of, not_offered, pipeline_layout_of, some_pipeline_layout
from .limiting import of as limit
from .resources import COLOR_FORMATS, DEPTH_FORMATS
from .targets import ASPECTS_OF, FOUR_COLORS, MOST_COLORS

if TYPE_CHECKING:
    from random import Random

    from .handed import Call
    from .world import Thing, World

ONE_COLORS = [format for format in COLOR_FORMATS if format not in FOUR_COLORS]


def render_pipelines(world: World) -> None:
    for _ in range(world.random.choice([2, 3, 4])):
        render_pipeline(world, not world.has_fault() and world.random.random() < 0.7)


def render_pipeline(world: World, good: bool) -> None:
    """A pipeline that meets its rules, often just so, or leaves one or two of them unmet."""
    random = world.random
    is_bad = not good and random.random() < 0.15
    layout = some_pipeline_layout(world, False)
    if is_bad and random.random() < 0.5:
        layout = pipeline_layout_of(world, [layout_of(world, [], True)] * 5, False)
    if is_bad and random.random() < 0.5:
        world.drop(layout)
    call: Call = {
        "do": "createRenderPipeline",
        "layout": layout.name,
        "iface": some_iface(random, layout.own_layouts()),
        "buffers": some_vertex_buffers(random),
    }
    border(random, call["buffers"])
    call["samples"] = random.choice([1, 1, 4])
    call["targets"] = some_targets(random, FOUR_COLORS if call["samples"] == 4 else COLOR_FORMATS)
    if random.random() < 0.5 or not any(call["targets"]):
        call["depth"] = some_depth(random)
    fixed_function.put(random, call)
    if not good and not is_bad or is_bad and random.random() < 0.3:
        for fault in random.sample(FAULTS, random.choice([1, 1, 1, 2])):
            fault(random, call, layout)
    call["buffers"] = fixed_function.nulls_among(random, call["buffers"], 0.2)
    if len(call["buffers"]) > MOST_BUFFERS:
        call["buffers"] = [one if one is None or one["attributes"] else random.choice([None, one]) for one in call["buffers"]]
    if "depth" in call:
        call["depth"] = without_usual(random, call["depth"])
    add_render_pipeline(world, call, good)


def some_targets(random: Random, formats: list[str]) -> list[Any]:
    """Targets that take no more bytes than they may, at times just so many."""
    found = fixed_function.fitting(
        [random.choice([None, *formats, *formats]) for _ in range(random.choice([0, 1, 1, 2, 3, MOST_COLORS, MOST_COLORS]))]
    )
    one = random.choice(formats)
    while random.random() < 0.8 and len(found) < MOST_COLORS and fixed_function.fits([*found, one]) and len(found) > 3:
        found.append(one)
    return found


def some_depth(random: Random) -> Call:
    format = random.choice(DEPTH_FORMATS)
    writes = {f"{aspect}Write": aspect in ASPECTS_OF[format] and random.random() < 0.6 for aspect in ("depth", "stencil")}
    return {"format": format, **writes}


def border(random: Random, buffers: list[Call]) -> None:
    """At times the buffers come just up to a limit: in their number, in all attributes together, in a stride or a location."""
    kind = random.randrange(12)
    if kind == 0:
        buffers += [{"stride": 0, "step": "instance", "attributes": []} for _ in range(MOST_BUFFERS - len(buffers))]
    elif kind == 1:
        fill(random, buffers, limit("maxVertexAttributes"))
    elif kind == 2 and buffers:
        random.choice(buffers)["stride"] = limit("maxVertexBufferArrayStride") // 4 * 4
    elif kind == 3:
        free = [location for location in range(limit("maxVertexAttributes")) if location not in locations_in(buffers)]
        if len(buffers) < MOST_BUFFERS and free:
            buffers.append(
                {"stride": 0, "step": "vertex", "attributes": [some_attribute(random, limit("maxVertexBufferArrayStride"), free[-1])]}
            )


def locations_in(buffers: list[Call]) -> list[int]:
    return [attribute["location"] for one in buffers for attribute in one["attributes"]]


def fill(random: Random, buffers: list[Call], count: int) -> None:
    """So many attributes in all, each with a location of its own, as far as there are."""
    if not buffers:
        buffers.append({"stride": 16, "step": "vertex", "attributes": []})
    free = [location for location in range(count) if location not in locations_in(buffers)]
    for location in free[:count - len(locations_in(buffers))]:
        one = random.choice(buffers)
        one["attributes"].append(some_attribute(random, one["stride"] or limit("maxVertexBufferArrayStride"), location))


def some_with_attribute(random: Random, buffers: list[Call]) -> tuple[Call, Call]:
    """A vertex buffer that has an attribute, and one of its attributes."""
    if not any(one["attributes"] for one in buffers):
        buffers[:] = buffers[:MOST_BUFFERS - 1] + [{"stride": 16, "step": "vertex", "attributes": [some_attribute(random, 16, 3)]}]
    one = random.choice([one for one in buffers if one["attributes"]])
    return one, random.choice(one["attributes"])


def wrong_interface(random: Random, call: Call, layout: Thing) -> None:
    """What the layout does not offer, or not to the stage."""
    places = [(group, entry) for group, one in enumerate(layout.own_layouts()) for entry in one.entries]
    seen = [(group, entry) for group, entry in places if entry["visibility"] & 3]
    hidden = [(stage, place) for place in places for stage, bit in STAGES.items() if not place[1]["visibility"] & bit]
    if hidden and random.random() < 0.4:
        stage, place = random.choice(hidden)
        entry = used_by(random, *place)
    else:
        entry, stage = not_offered(random, layout, places, seen), random.choice(list(STAGES))
    call["iface"].insert(random.randint(0, len(call["iface"])), {**told(random, entry), "stage": stage})


def too_many_buffers(random: Random, call: Call, layout: Thing) -> None:
    count = MOST_BUFFERS + random.choice([1, 1, 2, 30]) - len(call["buffers"])
    call["buffers"] += [{"stride": 4, "step": "vertex", "attributes": []} for _ in range(count)]


def too_many_attributes(random: Random, call: Call, layout: Thing) -> None:
    fill(random, call["buffers"], limit("maxVertexAttributes") + random.choice([1, 1, 3]))


def wrong_stride(random: Random, call: Call, layout: Thing) -> None:
    one, _ = some_with_attribute(random, call["buffers"])
    most = limit("maxVertexBufferArrayStride")
    past = [most // 4 * 4 + 4, most // 4 * 4 + 4, most + 1, GREATEST_32 - 3, GREATEST_32]
    one["stride"] = random.choice([one["stride"] + 1, one["stride"] + 2, *past])


def wrong_location(random: Random, call: Call, layout: Thing) -> None:
    some_with_attribute(random, call["buffers"])[1]["location"] = random.choice(
        [limit("maxVertexAttributes")] * 2 + [limit("maxVertexAttributes") + 1, GREATEST_32]
    )


def location_twice(random: Random, call: Call, layout: Thing) -> None:
    _, attribute = some_with_attribute(random, call["buffers"])
    buffers = [one for one in call["buffers"] if len(one["attributes"]) < 3] or call["buffers"]
    random.choice(buffers)["attributes"].append({"format": "uint8x2", "offset": 0, "location": attribute["location"]})


def past_stride(random: Random, call: Call, layout: Thing) -> None:
    """An attribute that ends behind its stride, just or far; where the stride is 0, behind the greatest one."""
    one, attribute = some_with_attribute(random, call["buffers"])
    if random.random() < 0.3:
        one["stride"] = 0
    room = one["stride"] or limit("maxVertexBufferArrayStride")
    step = 2 if ATTRIBUTE_BYTES[attribute["format"]] == 2 else 4
    first = (room - ATTRIBUTE_BYTES[attribute["format"]]) // step * step + step
    attribute["offset"] = random.choice([first, first, first, room, GREATEST_32 - 3, GREATEST_32])


def wrong_offset(random: Random, call: Call, layout: Thing) -> None:
    """An offset that is no multiple of 4, or of 2, in a stride that has room for it."""
    one, attribute = some_with_attribute(random, call["buffers"])
    one["stride"] = random.choice([64, 0])
    if random.random() < 0.3:
        attribute["format"] = "uint8x2"
    attribute["offset"] += random.choice([1, 2, 2, 3])


def too_many_targets(random: Random, call: Call, layout: Thing) -> None:
    count = MOST_COLORS + random.choice([1, 1, 5]) - len(call["targets"])
    call["targets"] += [random.choice([None, "rgba8unorm"])] * count


def no_color(random: Random, call: Call, layout: Thing) -> None:
    call["targets"] = [*call["targets"][:MOST_COLORS - 1], random.choice(DEPTH_FORMATS)]


def wrong_depth(random: Random, call: Call, layout: Thing) -> None:
    """A color, or a format of which an aspect is written that it lacks."""
    kind = random.randrange(3)
    if kind == 0:
        call["depth"] = {"format": random.choice(COLOR_FORMATS), "depthWrite": random.random() < 0.3, "stencilWrite": False}
    elif kind == 1:
        call["depth"] = {"format": "stencil8", "depthWrite": True, "stencilWrite": random.random() < 0.5}
    else:
        call["depth"] = {
            "format": random.choice(DEPTH_FORMATS[:2] + ["depth32float"]),
            "depthWrite": random.random() < 0.5,
            "stencilWrite": True,
        }


def nothing_drawn_to(random: Random, call: Call, layout: Thing) -> None:
    call.pop("depth", None)
    call["targets"] = [None] * random.choice([0, 0, 1, MOST_COLORS])


def wrong_samples(random: Random, call: Call, layout: Thing) -> None:
    call["samples"] = random.choice([0, 2, 3, 5, 8, GREATEST_32])


def one_sample_format(random: Random, call: Call, layout: Thing) -> None:
    """Four samples of a format that has them not, which may be one of several."""
    call["samples"] = 4
    others = [item for item in call["targets"] if fixed_function.format_of(item) not in ONE_COLORS]
    call["targets"] = [*others[:MOST_COLORS - 1], random.choice(ONE_COLORS)]


FAULTS = [
    wrong_interface, wrong_interface, wrong_interface, too_many_buffers, too_many_attributes, wrong_stride, wrong_location, location_twice,
    past_stride, past_stride, wrong_offset, too_many_targets, no_color, wrong_depth, wrong_depth, nothing_drawn_to, wrong_samples,
    one_sample_format, *fixed_function.FAULTS, *fixed_function.FAULTS,
]
