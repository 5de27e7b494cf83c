"""What render passes set and draw: pipelines that agree with a pass, vertex and index buffers, and draws up to the edge of these.

A render pipeline has its layouts in `layouts`, its vertex buffers in `vertex`, what it agrees with in `signature`, and the aspects that
it writes in `writes`. What is set at a slot is a triple of the name of a buffer, the offset and the size of the range.
"""

from __future__ import annotations

from typing import TYPE_CHECKING, Iterable, Sequence

from .bindings import is_written, told, used_by
from .bound import TEXTURE_BINDING
from .deriving import is_derived, naming, render_of
from .dispatching import (
    INDIRECT, at_times_got, buffers_in, kit_layouts, moved, new_layout, offsets_for, pick, set_call, size_of, view_of, with_groups,
)
from .fixed_function import nulls_among, put
from .grouping import pipeline_layout_of, usable
from .limiting import of as limit
from .targets import ASPECTS_OF, signature

if TYPE_CHECKING:
    from random import Random

    from .handed import Call, Cell, Entry, Now, Setting
    from .targets import Target
    from .world import Thing, World

INDEX, VERTEX = 16, 32
GREATEST_32 = 2**32 - 1
STAGES = {"vertex": 1, "fragment": 2}
INDEX_BYTES = {"uint16": 2, "uint32": 4}
INDIRECT_BYTES = {"drawIndirect": 16, "drawIndexedIndirect": 20}
ATTRIBUTE_BYTES = {
    "uint8x2": 2, "uint8x4": 4, "unorm8x4": 4, "uint16x2": 4, "float16x2": 4, "float32": 4, "uint32": 4, "sint32": 4, "float16x4": 8,
    "float32x2": 8, "float32x3": 12, "float32x4": 16,
}
MOST_BUFFERS = limit("maxVertexBuffers")
# As what colors are sampled that are not sampled as float, or have four samples.
COLOR_SAMPLES = {"r32uint": "uint"}
USUAL = {"step": "vertex", "iface": [], "buffers": [], "targets": [], "samples": 1, "depthWrite": False, "stencilWrite": False}


def without_usual(random: Random, call: Call) -> Call:
    """A call or an object of it, from which what has its usual value is left out at times."""
    return {key: value for key, value in call.items() if USUAL.get(key, ...) != value or random.random() < 0.3}


def end_of(attribute: Call) -> int:
    return attribute["offset"] + ATTRIBUTE_BYTES[attribute["format"]]


def some_attribute(random: Random, room: int, location: int) -> Call | None:
    """An attribute that ends within so many bytes, often just there, or None where no format does."""
    formats = [format for format, length in ATTRIBUTE_BYTES.items() if length <= room]
    if not formats:
        return None
    format = random.choice(formats)
    step = 2 if ATTRIBUTE_BYTES[format] == 2 else 4
    last = (room - ATTRIBUTE_BYTES[format]) // step * step
    return {"format": format, "offset": random.choice([0, 0, last, step * random.randint(0, last // step)]), "location": location}


def some_vertex_buffers(random: Random) -> list[Call]:
    """The vertex buffers of a pipeline: strides of 0 and of the most too, and at times as many buffers or attributes as there may be."""
    count = random.choice([0, 0, 1, 1, 1, 2, 2, 3, MOST_BUFFERS])
    most_attributes, most_stride = limit("maxVertexAttributes"), limit("maxVertexBufferArrayStride")
    locations = random.sample(range(most_attributes), most_attributes)
    room = most_attributes if random.random() < 0.1 else min(count * 3, most_attributes)
    found = []
    for _ in range(count):
        stride = random.choice([4, 4, 8, 8, 12, 16, 16, 20, 0, most_stride // 4 * 4 if random.random() < 0.2 else 24])
        most = min(room, len(locations), random.choice([0, 1, 1, 2, 2, 3, most_attributes]))
        space = stride or (most_stride if random.random() < 0.15 else 16)
        attributes = [some_attribute(random, space, locations.pop()) for _ in range(most)]
        room -= most
        found.append({"stride": stride, "step": random.choice(["vertex", "vertex", "instance"]), "attributes": attributes})
    return found


def some_render_pipeline(world: World, target: Target, is_new: bool = False) -> Thing:
    """A pipeline that agrees with a pass, often one that is there."""
    random, found = world.random, []
    for thing in usable(world, world.render_pipelines):
        if getattr(thing, "signature", None) == target.signature() and not thing.writes & target.read_only:
            found.append(thing)
    if found and not is_new and random.random() < 0.8:
        return random.choice(found)
    return new_render_pipeline(world, some_layouts(world), target.formats, target.depth, target.samples, target.read_only)


def some_layouts(world: World) -> list[Thing]:
    """The layouts of a pipeline, with groups for them: those of another pipeline, or new ones, or none."""
    random = world.random
    kind = random.random()
    old = [thing for thing in usable(world, world.pipelines + world.render_pipelines) if getattr(thing, "layouts", None)]
    old = [thing for thing in old if usable(world, thing.own_layouts()) == thing.layouts]
    if kind < 0.3:
        none: list[Thing] = []
        return random.choice([none, none, [new_layout(world, [])]])
    return random.choice(old[-5:]).own_layouts() if kind < 0.7 and old else kit_layouts(world)


def new_render_pipeline(
    world: World, layouts: list[Thing], formats: Sequence[str | None], depth: str | None, samples: int, read_only: set[str],
    primitive: Call | None = None,
) -> Thing:
    """A good pipeline that draws to some formats, of a primitive that is given, or any; nulls at the end of them are not always the
    same."""
    random = world.random
    derives = random.random() < 0.3 or any(map(is_derived, layouts))
    layout = None if derives else pipeline_layout_of(world, layouts, True)
    targets = list(signature(formats, depth, samples)[0])
    targets += [None] * random.choice([0, 0, 0, len(formats) - len(targets), 8 - len(targets)])
    buffers, writes = nulls_among(random, some_vertex_buffers(random), 0.15), set()
    call: Call = {"targets": targets, "samples": samples}
    if depth is not None:
        writes = {aspect for aspect in ASPECTS_OF[depth] if aspect not in read_only and random.random() < 0.6}
        call["depth"] = without_usual(random, {"format": depth, "depthWrite": "depth" in writes, "stencilWrite": "stencil" in writes})
    put(random, call)
    if primitive is not None:
        call["primitive"] = primitive
        call.get("depth", {}).pop("bias", None)
    if layout is None:
        thing = with_groups(
            world, render_of(world, naming(random, [one.entries for one in layouts], True), buffers=told_buffers(random, buffers), **call)
        )
    else:
        thing = add_render_pipeline(
            world,
            {"do": "createRenderPipeline", "layout": layout.name, "iface": some_iface(random, layouts), "buffers": buffers, **call},
            True,
        )
        thing.layouts, thing.lists, thing.derives = layouts, [one.entries for one in layouts], False
        at_times_got(world, thing)
    thing.vertex, thing.signature, thing.writes = buffers, signature(formats, depth, samples), writes
    return thing


def told_buffers(random: Random, buffers: Sequence[Call | None]) -> list[Call | None]:
    return [None if one is None else without_usual(random, one) for one in buffers]


def read_slots(pipeline: Thing) -> list[tuple[int, Call]]:
    """The slots that a pipeline reads, each with its vertex buffer."""
    return [(slot, one) for slot, one in enumerate(pipeline.vertex) if one is not None]


def add_render_pipeline(world: World, call: Call, good: bool) -> Thing:
    """A pipeline of a call that has all its keys, some of which are left out."""
    thing = world.make("x", without_usual(world.random, {**call, "buffers": told_buffers(world.random, call["buffers"])}), good)
    thing.layouts = None
    world.render_pipelines.append(thing)
    return thing


def some_iface(random: Random, layouts: list[Thing]) -> list[Entry]:
    """Some of what layouts have, each for a stage that sees it."""
    seen = [
        (stage, group, entry) for group, one in enumerate(layouts) for entry in one.entries for stage, bit in STAGES.items()
        if entry["visibility"] & bit
    ]
    chosen = random.sample(seen, min(len(seen), random.choice([0, 1, 2, 3, 3])))
    return [told(random, {**used_by(random, group, entry), "stage": stage}) for stage, group, entry in chosen]


def parts_of_group(group: Thing, offsets: list[int]) -> list[tuple[Cell, str]]:
    """The parts that a group uses, each with its role in a usage scope."""
    found = []
    for asked, cells in moved(group, offsets):
        role = "storage" if is_written(asked) else "read"
        found += [(cell[:2] if cell[0] == "b" else cell, role) for cell in cells]
    return found


def joins(target: Target, parts: Iterable[tuple[Cell, str]], is_any: bool) -> bool:
    """Adds parts to the scope of a pass, where they agree with it, or else where any will do: then the pass clashes."""
    uses = dict(target.uses)
    for part, role in parts:
        if uses.setdefault(part, role) != role:
            if not is_any:
                return False
            target.clashes = True
    target.uses.update(uses)
    return True


def some_range(world: World, target: Target, bit: int, step: int, least: int, is_any: bool) -> Setting | None:
    """A range of a buffer with a usage, of so many bytes at least where there is one: its rest, all, a part, or nothing."""
    random = world.random
    buffers = [thing for thing in buffers_in(world, bit) if is_any or target.uses.get(("b", thing.name), "read") == "read"]
    buffers = [thing for thing in buffers if thing.call["size"] >= least] or buffers
    if not buffers:
        return None
    thing = random.choice(buffers)
    size = thing.call["size"]
    last = max(size - least, 0) // step * step
    offset = random.choice([0, 0, last, step * random.randint(0, last // step)])
    rest = size - offset
    least = min(least, rest)
    length = random.choice(
        [None, None, rest, least, random.randint(least, rest), random.randint(least, rest) // step * step, rest // step * step]
    )
    if random.random() < 0.05:
        offset, length = random.choice([(offset, 0), (size // step * step, 0), (size // step * step, None)])
    joins(target, [(("b", thing.name), "read")], True)
    return thing.name, offset, length


def range_keys(random: Random, offset: int, length: int | None) -> Call:
    found = {} if offset == 0 and random.random() < 0.6 else {"offset": offset}
    return {**found, **({} if length is None else {"size": length})}


def size_set(world: World, setting: Setting) -> int:
    """The size of the range that is set."""
    name, offset, length = setting[:3]
    return size_of(world, name) - offset if length is None else length


def vertex_call(random: Random, on: str, slot: int, setting: Setting) -> Call:
    return {"do": "setVertexBuffer", "on": on, "slot": slot, "buffer": setting[0], **range_keys(random, *setting[1:3])}


def index_call(random: Random, on: str, setting: Setting) -> Call:
    return {"do": "setIndexBuffer", "on": on, "buffer": setting[0], "format": setting[3], **range_keys(random, *setting[1:3])}


def some_index_range(world: World, target: Target, is_any: bool, format: str | None = None) -> Setting | None:
    format = format or world.random.choice(["uint16", "uint32"])
    found = some_range(world, target, INDEX, INDEX_BYTES[format], world.random.choice([0, 4, 12, 16]), is_any)
    return None if found is None else (*found, format)


def most_elements(world: World, pipeline: Thing, now: Now, step: str) -> int | None:
    """How many elements a draw may ask of the vertex buffers of a step, or None where it may ask any."""
    found = []
    for slot, one in read_slots(pipeline):
        if one["step"] == step:
            end = max([end_of(attribute) for attribute in one["attributes"]], default=0)
            room = size_set(world, now[("slot", slot)]) - end
            if room < 0:
                found.append(0)
            elif one["stride"] > 0:
                found.append(room // one["stride"] + 1)
    return min(found, default=None)


def first_and_count(random: Random, most: int | None, is_past: bool) -> tuple[int, int]:
    """Two numbers whose sum is often the most that may be, or is more by one where it is to be past that."""
    if is_past and most is not None:
        number = most + random.choice([1, 1, 1, 2])
    elif most is None:
        return random.choice([(0, 1), (0, 3), (0, 0), (7, 0), (GREATEST_32, GREATEST_32), (1, GREATEST_32), (0, random.randint(0, 100))])
    else:
        number = random.choice([most, most, most, random.randint(0, most), 0])
    first = min(random.choice([0, 0, 0, number, random.randint(0, number)]), GREATEST_32)
    return first, min(number - first, GREATEST_32)


def draw_call(world: World, on: str, word: str, pipeline: Thing, now: Now, past: str | None = None) -> Call:
    """A draw of what is set, indexed or not. It asks for one element more than there is, if wanted, by `vertices`, `instances` or
    `indices`."""
    random = world.random
    instances = first_and_count(random, most_elements(world, pipeline, now, "instance"), past == "instances")
    if word == "drawIndexed":
        most = size_set(world, now["index"]) // INDEX_BYTES[now["index"][3]]
        first, count = first_and_count(random, most, past == "indices")
        base = random.choice([0, 0, 0, 0, 1, 3, 2**31 - 1, 2**31, GREATEST_32 - 2, GREATEST_32])
        call = {"do": "drawIndexed", "on": on, "indices": count, "firstIndex": first, "baseVertex": base}
    else:
        first, count = first_and_count(random, most_elements(world, pipeline, now, "vertex"), past == "vertices")
        call = {"do": "draw", "on": on, "vertices": count, "firstVertex": first}
    call.update({"instances": instances[1], "firstInstance": instances[0]})
    usual = {"firstIndex": 0, "firstVertex": 0, "baseVertex": 0, "firstInstance": 0, "instances": 1}
    return {key: value for key, value in call.items() if usual.get(key, ...) != value or random.random() < 0.2}


def counts_for(world: World, target: Target, word: str, is_any: bool) -> Thing | None:
    """The buffer of an indirect draw, or None."""
    found = [thing for thing in buffers_in(world, INDIRECT) if thing.call["size"] >= INDIRECT_BYTES[word]]
    thing = pick(world, [thing for thing in found if is_any or target.uses.get(("b", thing.name), "read") == "read"])
    if thing is not None:
        joins(target, [(("b", thing.name), "read")], True)
    return thing


def indirect_call(world: World, on: str, word: str, thing: Thing) -> Call:
    """An indirect draw; at times its numbers are the last of the buffer."""
    random, last = world.random, (thing.call["size"] - INDIRECT_BYTES[word]) // 4 * 4
    return {"do": word, "on": on, "buffer": thing.name, "offset": random.choice([0, last, 4 * random.randint(0, last // 4)])}


def sampled_attachment(world: World, target: Target, is_any: bool) -> Thing | None:
    """A group that samples what a pass attaches: an aspect of the depth that is read-only, which may stand in one scope with it, or
    anything where any will do; or None where there is nothing."""
    random, parts = world.random, [
        part for part, role in target.uses.items() if part[0] == "t" and role == ("attachment" if is_any else "read")
    ]
    views = {thing.name: thing for thing in world.textures if thing.call["usage"] & TEXTURE_BINDING}
    parts = [part for part in parts if part[1] in views and (is_any or part[2] != "color")]
    if not parts:
        return None
    _, name, aspect, mip, layer = random.choice(parts)
    texture = views[name]
    sample = {"depth": "depth", "stencil": "uint"}.get(aspect) or COLOR_SAMPLES.get(texture.call["format"], "unfilterable-float")
    kind = {"kind": "texture", "sample": sample, "dim": "2d", "multi": texture.call["samples"] == 4}
    layout = new_layout(world, [{"binding": random.randrange(3), "visibility": random.choice([2, 3, 7, 0]), **kind}])
    spot = {
        "dim": "2d",
        "aspect": "all" if aspect == "color" else f"{aspect}-only",
        "baseMip": mip,
        "mips": 1,
        "baseLayer": layer,
        "layers": 1,
    }
    bound = [{"binding": layout.entries[0]["binding"], "view": view_of(world, texture, spot).name}]
    group = world.make("k", {"do": "createBindGroup", "layout": layout.name, "entries": bound}, True)
    group.bound, group.shape = [(layout.entries[0], [("t", name, aspect, mip, layer)])], layout.shape
    world.groups.append(group)
    return group


def stray_settings(
    world: World, on: str, target: Target, is_any: bool, free_slots: list[int], free_indexes: list[int], now: Now
) -> list[Call]:
    """Settings that no draw asks for: at other slots and indexes, an index buffer of a draw without indices, a pair of debug groups.
    All of them are in the usage scope."""
    random, calls = world.random, []
    if free_slots and random.random() < 0.15:
        slot, setting = random.choice(free_slots), some_range(world, target, VERTEX, 4, 0, is_any)
        if setting is not None:
            now[("slot", slot)] = setting
            calls.append(vertex_call(random, on, slot, setting))
    group = pick(world, [thing for thing in usable(world, world.groups) if hasattr(thing, "shape")])
    chance = 0.2
    if is_any or target.read_only and random.random() < 0.2:
        found = sampled_attachment(world, target, is_any)
        group, chance = (group, chance) if found is None else (found, 0.7)
    if group is not None and free_indexes and random.random() < chance:
        offsets = offsets_for(world, group)
        if joins(target, parts_of_group(group, offsets), is_any):
            index = random.choice(free_indexes)
            now[("group", index)] = (group.name, offsets)
            calls.append(set_call(random, on, index, group, offsets))
    if random.random() < 0.1:
        setting = some_index_range(world, target, is_any)
        if setting is not None:
            now["index"] = setting
            calls.append(index_call(random, on, setting))
    if random.random() < 0.08:
        calls += [{"do": "pushDebugGroup", "on": on}, {"do": "popDebugGroup", "on": on}]
    return calls
