"""What the entries of a bind group bind: good objects for what a layout asks, at the border of a rule, and ones that leave one unmet."""

from __future__ import annotations

from typing import TYPE_CHECKING, Collection

from .bindings import BUFFER_KINDS, GREATEST_32, SAMPLERS, most_size, other_value, some_kind, told
from .fixed_function import sampler_fields
from .limiting import of as limit
from .resources import COLOR_FORMATS, STORAGE_FORMATS

if TYPE_CHECKING:
    from random import Random

    from .handed import Call, Entry, Faults
    from .world import Thing, World

ALIGNMENT = 256
GREATEST_53 = 2**53 - 1
TEXTURE_BINDING, STORAGE_BINDING, RENDER_ATTACHMENT = 4, 8, 16

# Formats, each with the word of an aspect, by what they are sampled as.
FLOATS = [(format, "all") for format in ["r8unorm", "rg8unorm", "rgba8unorm", "rgba8unorm-srgb", "bgra8unorm", "rgba16float"]]
UNFILTERABLE = [("r32float", "all"), ("rgba32float", "all")]
DEPTHS = [
    ("depth16unorm", "all"), ("depth24plus", "depth-only"), ("depth32float", "all"), ("depth24plus-stencil8", "depth-only"),
    ("depth24plus-stencil8", "depth-only"),
]
STENCILS = [("stencil8", "all"), ("stencil8", "stencil-only"), ("depth24plus-stencil8", "stencil-only")]
UINTS = [("r32uint", "all")]
SAMPLED = {
    "float": FLOATS,
    "unfilterable-float": FLOATS + UNFILTERABLE * 3 + DEPTHS,
    "depth": DEPTHS,
    "uint": UINTS * 3 + STENCILS,
    "sint": UINTS + FLOATS,
}

# Formats that will not do for a sample type.
NOT_SAMPLED = {
    "float": UNFILTERABLE * 6 + UINTS + STENCILS + DEPTHS,
    "unfilterable-float": UINTS + STENCILS,
    "depth": UINTS + STENCILS + FLOATS + UNFILTERABLE,
    "uint": FLOATS + UNFILTERABLE + DEPTHS,
    "sint": UINTS * 4 + STENCILS * 2 + FLOATS + UNFILTERABLE,
}
WITH_FOUR = {"rgba8unorm", "rgba8unorm-srgb", "bgra8unorm", "rgba16float"} | {format for format, _ in DEPTHS + STENCILS}

FAULTS = {
    "buffer": ["usage", "usage", "offset", "zero", "zero", "past", "past", "huge", "most", "most", "four", "least", "least"],
    "sampler": ["type"],
    "texture": ["usage", "usage", "aspect", "aspect", "sample", "sample", "sample", "sample", "dim", "dim", "multi", "multi"],
    "storage-texture": ["usage", "usage", "mips", "format", "dim"],
}


def sort_of(asked: Entry) -> str:
    """The faults' name for a kind."""
    return "buffer" if asked["kind"] in BUFFER_KINDS else asked["kind"]


def bind(world: World, asked: Entry, faults: Collection[str] = ()) -> Entry:
    """An entry of a bind group for an entry of a layout."""
    random = world.random
    if "sort" in faults:
        asked = {**some_kind(random), "binding": asked["binding"]}
    binder = {"buffer": bind_buffer, "sampler": bind_sampler}.get(sort_of(asked), bind_view)
    entry, thing = binder(world, asked, faults)
    if "dropped" in faults:
        world.drop(thing)
    return told(random, {"binding": asked["binding"], **entry})


def buffer_range(random: Random, asked: Entry, faults: Collection[str]) -> tuple[int, int, int | None]:
    """The size of a buffer, and an offset and a size that is left out or not; as good as the faults let them be."""
    kind, most = asked["kind"], most_size(asked["kind"])
    step = 1 if kind == "uniform" else 4
    least = -(-max(asked["minSize"], 1) // step) * step
    size = min(random.choice([least, least, least + step, 256, 256, most, most - step]) if least < most else most, most)
    size = max(size, least)
    offset = ALIGNMENT * random.choice([0, 0, 1, 2, 5])
    if "most" in faults:
        size = most + random.choice([step, step, 4, 1])
    if "four" in faults:
        size = size - random.choice([1, 2, 3]) if size == most else size + random.choice([1, 2, 3])
    if "least" in faults and asked["minSize"] > 0:
        size = asked["minSize"] - random.choice([1, step, step])
    if "offset" in faults:
        offset += random.choice([4, 128, 128, 255, 1])
    room = offset + size
    if "zero" in faults:
        past = -(-room // ALIGNMENT) * ALIGNMENT
        return room, *random.choice([(offset, 0), (offset, 0), (past, None), (past + ALIGNMENT, None)])
    if "past" in faults:
        return room - random.choice([1, 1, min(4, room)]), offset, size
    if "huge" in faults:
        past = GREATEST_53 + 1 - ALIGNMENT
        return room, *random.choice([(past, size), (offset, GREATEST_53), (past, GREATEST_53), (2**32, size), (past, None)])
    if random.random() < 0.4:
        return room, offset, None
    return room + random.choice([0, 0, 0, 1, 4, 256]), offset, size


def bind_buffer(world: World, asked: Entry, faults: Collection[str]) -> tuple[Entry, Thing]:
    random = world.random
    bit = 64 if asked["kind"] == "uniform" else 128
    wanted, offset, size = buffer_range(random, asked, faults)
    usage = random.choice([12, 28, 192 ^ bit | 12]) if "usage" in faults else random.choice([bit, bit | 12, bit | 12, 204])
    thing = found_buffer(world, bit, offset, size) if not faults else None
    if thing is None:
        thing = world.buffer(
            "invalid" not in faults,
            size=min(wanted, limit("maxBufferSize")),
            usage=usage,
            mapped=random.random() < 0.05 and wanted % 4 == 0,
        )
    return {"buffer": thing.name, "offset": offset, **({} if size is None else {"size": size})}, thing


def found_buffer(world: World, bit: int, offset: int, size: int | None) -> Thing | None:
    """A buffer that is there and that a range fits, at times one that was destroyed or is mapped, since that does not count."""
    is_any = world.random.random() < 0.15
    old = [
        thing for thing in world.buffers
        if thing.good and not thing.dropped and thing.call["usage"] & bit and size is not None and thing.call["size"] >= offset + size
    ]
    old = [thing for thing in old if is_any or not thing.destroyed and not thing.mapped]
    return world.random.choice(old[-8:]) if old and world.random.random() < 0.7 else None


def bind_sampler(world: World, asked: Entry, faults: Collection[str]) -> tuple[Entry, Thing]:
    random = world.random
    fit = [asked["type"]] + ["non-filtering"] * (asked["type"] == "filtering")
    kind = random.choice([kind for kind in SAMPLERS if kind not in fit] if "type" in faults else fit)
    old = [thing for thing in world.samplers if thing.kind == kind and thing.good and not thing.dropped]
    thing = random.choice(old) if old and random.random() < 0.6 and "dropped" not in faults else sampler(world, kind)
    return {"sampler": thing.name}, thing


def sampler(world: World, kind: str) -> Thing:
    random = world.random
    call = {"do": "createSampler", "kind": kind}
    if kind == "filtering" and random.random() < 0.5:
        del call["kind"]
    if random.random() < 0.5:
        call = {"do": "createSampler", **sampler_fields(random, kind)}
    thing = world.make("s", call, True)
    thing.kind = kind
    world.samplers.append(thing)
    return thing


def bind_view(world: World, asked: Entry, faults: Collection[str]) -> tuple[Entry, Thing]:
    """A view that is made for what is asked, or one that was made for the same before."""
    random, role = world.random, repr(
        sorted((key, value) for key, value in asked.items() if key not in ("binding", "visibility", "access"))
    )
    is_any = random.random() < 0.15
    old = [thing for thing in world.views if getattr(thing, "role", None) == role and thing.good and not thing.dropped]
    old = [thing for thing in old if is_any or not thing.texture.destroyed]
    if old and not faults and random.random() < 0.6:
        thing = random.choice(old)
    else:
        thing = new_view(world, *view_values(random, asked, faults), faults)
        thing.role = None if faults else role
    return {"view": thing.name}, thing


def view_values(random: Random, asked: Entry, faults: Collection[str]) -> tuple[str, str, str, int, int, int]:
    """Format, aspect, dimension, samples, usage and mip levels of a view that is asked for, but for the faults."""
    is_storage = asked["kind"] == "storage-texture"
    is_multi = not is_storage and asked["multi"] != ("multi" in faults)
    dim = other_value(random, "dim", asked["dim"]) if "dim" in faults else asked["dim"]
    dim = "2d" if is_multi and "multi" in faults else dim
    if is_storage:
        formats = [format for format in STORAGE_FORMATS if (format != asked["format"]) == ("format" in faults)]
        format, aspect = random.choice(formats or STORAGE_FORMATS), "all"
    else:
        pairs = (NOT_SAMPLED if "sample" in faults else SAMPLED)[asked["sample"]]
        if dim in ("1d", "3d"):
            pairs = [pair for pair in pairs if pair[0] in COLOR_FORMATS] or pairs
        if is_multi:
            pairs = [pair for pair in pairs if pair[0] in WITH_FOUR] or pairs
        format, aspect = random.choice(pairs)
        if "aspect" in faults:
            format, aspect = "depth24plus-stencil8", "all"
    bit, other = (STORAGE_BINDING, TEXTURE_BINDING) if is_storage else (TEXTURE_BINDING, STORAGE_BINDING)
    usage = bit | random.choice([0, 3, 3])
    if "usage" in faults:
        usage = random.choice([3, other, other]) if format in STORAGE_FORMATS else 3
    mips = random.choice([2, 2, 3]) if "mips" in faults else 1 if is_storage else random.choice([1, 1, 2])
    return format, aspect, dim, 4 if is_multi else 1, usage, mips


LAYERS = {"2d-array": [1, 2, 3], "cube": [6], "cube-array": [6, 12]}


def new_view(world: World, format: str, aspect: str, dim: str, samples: int, usage: int, mips: int, faults: Collection[str]) -> Thing:
    """A texture and a view of it. Either has more mip levels or layers than the view at times."""
    random = world.random
    layers = random.choice(LAYERS.get(dim, [1]))
    of_texture = dim if dim in ("1d", "3d") else "2d"
    side = random.choice([4, 4, 8])
    size = [side, 1, 1] if of_texture == "1d" else [side, side, random.choice([1, 2, 4]) if of_texture == "3d" else layers]
    most = 1 if of_texture == "1d" or samples == 4 else 3
    mips = min(mips, most)
    if samples == 4:
        usage = usage & ~STORAGE_BINDING | RENDER_ATTACHMENT
    wanted: Call = {"size": size, "usage": usage, "format": format, "dim": of_texture}
    wanted.update(mips=random.choice([mips, most]), samples=samples)
    if of_texture == "2d" and samples == 1:
        size[2] += random.choice([0, 0, 1, 6])
    is_good = "invalid" not in faults
    has_texture = is_good or random.random() < 0.5
    texture = world.texture_as(has_texture, wanted if has_texture else {**wanted, "usage": 0})
    call = {"do": "createView", "texture": texture.name, "dim": dim, "aspect": aspect, "mips": mips, "layers": layers}
    call["baseMip"] = random.choice([0, wanted["mips"] - mips])
    call["baseLayer"] = random.choice([0, size[2] - layers]) if of_texture == "2d" else 0
    if not is_good:
        call["mips"] = 0
    usual = {"aspect": "all", "baseMip": 0, "baseLayer": 0}
    told_call = {key: value for key, value in call.items() if usual.get(key) != value or random.random() < 0.4}
    thing = world.make("v", told_call, is_good and texture.good)
    thing.texture = texture
    world.views.append(thing)
    return thing


WHOLE_FAULTS = ["missing", "more", "twice", "binding"]
OBJECT_FAULTS = ["sort", "sort", "sort", "invalid", "dropped"]


def faults_for(random: Random, entries: list[Entry]) -> Faults:
    """Faults by the place of an entry: one as a rule, at times two; those of the whole have no place."""
    found: Faults = {}
    if entries and random.random() < 0.12:
        for at in random.sample(range(len(entries)), min(len(entries), 2)):
            found[at] = set(random.choice([["invalid"], ["dropped"], ["invalid", "dropped"]]))
        return found
    for _ in range(random.choice([1, 2])):
        place = random.randrange(len(entries)) if entries else None
        kind = random.random()
        if place is None or kind < 0.15:
            found.setdefault(None, set()).add(random.choice(WHOLE_FAULTS))
        else:
            found.setdefault(place, set()).add(random.choice(OBJECT_FAULTS if kind < 0.35 else FAULTS[sort_of(entries[place])]))
    return found


def bound_entries(world: World, entries: list[Entry], faults: Faults) -> list[Entry]:
    """The entries of a bind group for those of a layout, in some order, with faults by their places."""
    random = world.random
    bound = [bind(world, asked, faults.get(place, ())) for place, asked in enumerate(entries)]
    whole = faults.get(None, ())
    if "missing" in whole and bound:
        bound.pop(random.randrange(len(bound)))
    if "more" in whole or "missing" in whole and not entries:
        lacking = next(binding for binding in (3, 8, 9, *range(10, 100)) if binding not in [entry["binding"] for entry in entries])
        bound.append(bind(world, {"binding": random.choice([lacking, lacking, GREATEST_32]), **some_kind(random)}))
    if "twice" in whole and entries and bound:
        bound.append(random.choice([random.choice(bound), bind(world, random.choice(entries))]))
    if "binding" in whole and bound:
        random.choice(bound)["binding"] = random.choice([5, 1000, *[entry["binding"] for entry in entries]])
    random.shuffle(bound)
    return bound
