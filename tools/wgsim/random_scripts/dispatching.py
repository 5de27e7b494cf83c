"""What dispatches bind: layouts, bind groups and pipelines over a few buffers and textures, so that dispatches often share some.

A layout has what it asks in `entries`. A group has what it binds in `bound`, pairs of an entry of its layout and the cells that
are touched: `("b", name, low, high)` of a buffer, and `("t", name, aspect, mip, layer)` of a texture.
"""

from __future__ import annotations

from typing import TYPE_CHECKING, Iterable

from .bindings import ACCESSES, COMPUTE, READ_WRITE_FORMATS, SAMPLERS, VERTEX, is_written, other_value, told, used_by, with_binding
from .bound import SAMPLED, STORAGE_BINDING, TEXTURE_BINDING, bind_sampler
from .deriving import alike, compute_of, got, got_of_all, is_derived, naming
from .grouping import group_of, layout_of, pipeline_layout_of, usable

if TYPE_CHECKING:
    from random import Random

    from .handed import Bound, Call, Cell, Entry, Groups
    from .world import Thing, World

INDIRECT = 256
# COPY_SRC, COPY_DST, INDEX, VERTEX, UNIFORM, STORAGE and INDIRECT.
ALL_ROLES = 12 | 16 | 32 | 64 | 128 | INDIRECT
STEP = 256
NO_STORAGE_FORMATS = ["depth16unorm", "depth24plus-stencil8", "depth24plus-stencil8", "stencil8", "rgba8unorm-srgb"]
# What the aspects are called that a view has, by the word of an aspect, or where that is `all`, by the format.
ASPECTS = {"depth-only": "depth", "stencil-only": "stencil", "depth16unorm": "depth", "depth32float": "depth", "stencil8": "stencil"}
FLAT = {"1d": ["1d"], "2d": ["2d", "2d", "2d-array"], "3d": ["3d"]}


def pick(world: World, things: list[Thing]) -> Thing | None:
    """One of some things, or None, where there is none."""
    return world.random.choice(things) if things else None


def named(things: Iterable[Thing], name: str) -> Thing | None:
    return next((thing for thing in things if thing.name == name), None)


def known(things: Iterable[Thing], name: str) -> Thing:
    """The thing of a name, which is there."""
    thing = named(things, name)
    assert thing is not None
    return thing


def pool(world: World) -> None:
    """The buffers and textures that a script is about."""
    for _ in range(world.random.choice([1, 2, 2, 3, 4])):
        pool_buffer(world)
    for _ in range(world.random.choice([0, 1, 1, 2, 3])):
        pool_texture(world)


def pool_buffer(world: World) -> Thing:
    random = world.random
    size = random.choice([16, 256, 260, 512, 528, 768, 1024, 1040])
    return world.buffer(size=size, usage=ALL_ROLES, mapped=random.random() < 0.1)


def pool_texture(world: World) -> Thing:
    """A texture, mostly of several mip levels and layers."""
    random, kind = world.random, world.random.randrange(10)
    format = random.choice(["r32uint", "r32uint", "r32float", "rgba8unorm", "rgba16float"])
    wanted: Call = {"size": [4, 4, random.choice([1, 2, 2, 3])], "usage": 15, "format": format, "dim": "2d", "samples": 1}
    wanted["mips"] = random.choice([1, 2, 3])
    if kind == 0:
        wanted.update(dim="3d", size=[4, 4, random.choice([1, 2, 4])])
    elif kind == 1:
        wanted.update(dim="1d", size=[4, 1, 1], mips=1)
    elif kind in (2, 3):
        wanted.update(format=random.choice(NO_STORAGE_FORMATS), usage=7)
    elif kind == 4:
        wanted.update(format=random.choice(["rgba8unorm", "depth32float"]), usage=23, mips=1, samples=4, size=[4, 4, 1])
    elif kind == 5:
        wanted["size"][2] = 6
    return world.texture_as(True, wanted)


def pooled(world: World, things: list[Thing]) -> list[Thing]:
    """Those that can be used; at times one that was destroyed, or is mapped, which a bind group does not ask."""
    is_any = world.random.random() < 0.1
    return [thing for thing in usable(world, things) if is_any or not thing.destroyed and not thing.mapped]


def buffers_in(world: World, bit: int) -> list[Thing]:
    return [thing for thing in pooled(world, world.buffers) if thing.call["usage"] & bit]


def images_in(world: World, bit: int) -> list[Thing]:
    return [thing for thing in pooled(world, world.textures) if thing.call["usage"] & bit]


def some_kind(world: World) -> Entry:
    """What a binding may be of what there is."""
    random, images = world.random, images_in(world, TEXTURE_BINDING | STORAGE_BINDING)
    if random.random() < 0.08:
        return {"kind": "sampler", "type": random.choice(SAMPLERS)}
    if images and random.random() < 0.45:
        texture = random.choice(images).call
        return random.choice([storage_kind, sampled_kind] if texture["usage"] & STORAGE_BINDING else [sampled_kind])(random, texture)
    word = random.choice(["uniform", "storage", "storage", "read-only-storage"])
    return {"kind": word, "dynamic": random.random() < 0.5, "minSize": random.choice([0, 0, 0, 0, 4, 16])}


def storage_kind(random: Random, texture: Call) -> Entry:
    """A kind that a texture will do for which is accessed as storage."""
    access = random.choice(ACCESSES if texture["format"] in READ_WRITE_FORMATS else ACCESSES[:2])
    return {"kind": "storage-texture", "access": access, "format": texture["format"], "dim": random.choice(FLAT[texture["dim"]])}


def sampled_kind(random: Random, texture: Call) -> Entry:
    """A kind that a texture will do for which is sampled."""
    is_multi = texture["samples"] == 4
    samples = [sample for sample in SAMPLED if sample != "sint" and words_for(texture["format"], sample)]
    samples = [sample for sample in samples if not (is_multi and sample == "float")]
    dims = ["2d"] if is_multi else FLAT[texture["dim"]] + (["cube", "cube-array"] if texture["size"][2] == 6 else [])
    return {"kind": "texture", "sample": random.choice(samples), "dim": random.choice(dims), "multi": is_multi}


def words_for(format: str, sample: str) -> list[str]:
    """The words of aspects by which a view of a format will do for a sample type."""
    return [word for other, word in SAMPLED[sample] if other == format]


def some_entries(world: World) -> list[Entry]:
    """The entries of a layout, few enough of each sort that four layouts of them fit in a pipeline. At times one texture will do for
    two of them, which mostly are not seen together."""
    random, images = world.random, images_in(world, STORAGE_BINDING)
    kinds = [some_kind(world) for _ in range(random.choice([1, 1, 2, 2, 3, 4]))]
    is_twice = images != [] and random.random() < 0.15
    if is_twice:
        texture = random.choice(images).call
        kinds = [storage_kind(random, texture), sampled_kind(random, texture)] + kinds[:1]
    found = []
    for kind in kinds:
        alike = [other for other in found if other["kind"] == kind["kind"]]
        if len(alike) < {"storage-texture": 1, "storage": 1, "read-only-storage": 1}.get(kind["kind"], 2):
            found.append({**kind, **({"dynamic": False} if kind["kind"] == "read-only-storage" and random.random() < 0.8 else {})})
    entries = with_binding(random, found)
    seen = random.choices(["any", "apart", "fragment"], [2, 3, 1] if is_twice else [6, 1, 1])[0]
    for entry in entries:
        if seen == "apart":
            entry["visibility"] = COMPUTE if is_written(entry) else random.choice([0, 2, 3])
        elif seen == "fragment":
            entry["visibility"] = 2
        elif random.random() < 0.6:
            entry["visibility"] = random.choice([COMPUTE, COMPUTE, 6])
    return entries


def shape(entries: list[Entry]) -> str:
    """What two layouts have in common that are equivalent."""
    return repr(sorted(sorted(entry.items()) for entry in entries))


def new_layout(world: World, entries: list[Entry] | None = None) -> Thing:
    thing = layout_of(world, some_entries(world) if entries is None else entries, True)
    thing.shape = shape(thing.entries)
    return thing


def twin(world: World, layout: Thing) -> Thing:
    """An equivalent layout, in another order."""
    return new_layout(world, world.random.sample(layout.entries, len(layout.entries)))


def near(world: World, layout: Thing) -> Thing:
    """A layout that is almost equivalent: one key of an entry is another, or there is one entry more or less."""
    random = world.random
    entries = [dict(entry) for entry in layout.entries]
    images = [entry for entry in entries if entry["kind"] == "storage-texture"]
    entry = random.choice(images if images and random.random() < 0.5 else entries)
    own = [key for key in entry if key not in ("binding", "visibility", "kind")]
    key = random.choice(own if random.random() < 0.6 else ["binding", "visibility", "visibility", "kind", "more", "less"])
    if key == "more":
        entries.append({"binding": 500, "visibility": random.choice([0, 4]), **some_kind(world)})
    elif key == "less":
        entries.remove(entry)
    elif key == "binding":
        entry["binding"] += 501
    elif key == "visibility":
        entry["visibility"] ^= random.choice([2, 4]) if is_written(entry) else random.choice([VERTEX, 2, 4])
    elif key == "kind":
        swap = {"storage": "read-only-storage", "read-only-storage": "uniform", "uniform": "read-only-storage"}
        entry["kind"] = swap.get(entry["kind"], entry["kind"])
    elif key == "dynamic":
        entry["dynamic"] = not entry["dynamic"]
    elif key == "minSize":
        entry["minSize"] = 4 if entry["minSize"] == 0 else 0
    elif key == "dim":
        entry["dim"] = {"2d": "2d-array", "2d-array": "2d"}.get(entry["dim"], entry["dim"])
    elif key == "access":
        entry["access"] = {"read-only": "write-only"}.get(entry["access"], "read-only")
        entry["visibility"] &= 6
    elif key == "sample":
        entry["sample"] = "unfilterable-float" if entry["sample"] in ("float", "depth") else "depth" if entry["multi"] else "float"
    elif key != "multi":
        entry[key] = other_value(random, key, entry[key]) if key == "type" else random.choice(["r32uint", "r32float"])
    return layout_of(world, entries, True)


def near_group(world: World, layout: Thing) -> Thing:
    """A group of a layout that is almost equivalent, of what is new if need be."""
    return group_of(world, near(world, layout), {})


def bound_for(world: World, asked: Entry) -> tuple[Entry, list[Cell]] | None:
    """What is bound for an entry of a layout: an entry of a group, and cells; or None, where nothing fits."""
    if asked["kind"] == "sampler":
        entry, _ = bind_sampler(world, asked, ())
        return entry, []
    if asked["kind"] in ("texture", "storage-texture"):
        return view_for(world, asked)
    return range_for(world, asked)


def range_for(world: World, asked: Entry) -> tuple[Entry, list[Cell]] | None:
    """A range of a buffer, of all of it, of its rest or of less; a dynamic one mostly has room to be moved."""
    random = world.random
    found = buffers_in(world, 64 if asked["kind"] == "uniform" else 128)
    found = [thing for thing in found if thing.call["size"] >= max(asked["minSize"], 4)]
    if not found:
        return None
    thing = random.choice(found)
    size = thing.call["size"]
    offset = STEP * random.choice([0, random.randrange(-(-size // STEP))])
    if asked["dynamic"] and random.random() < 0.3 or size - offset < max(asked["minSize"], 4):
        offset = 0
    rest = size - offset
    length = random.choice([None, rest, 4, 16, 256, 256, 512, 4 * random.randint(1, rest // 4)])
    if asked["dynamic"] and size > STEP and random.random() < 0.7:
        length = random.choice([4, 16, 256, 256, size - STEP])
    if length is not None:
        length = max(min(length, rest), asked["minSize"])
        if asked["kind"] == "uniform" and random.random() < 0.1 and length > max(asked["minSize"], 1):
            length -= 1
    entry = {"buffer": thing.name, "offset": offset, **({} if length is None else {"size": length})}
    return entry, [("b", thing.name, offset, offset + (rest if length is None else length))]


def view_for(world: World, asked: Entry) -> tuple[Entry, list[Cell]] | None:
    """Some mip levels and layers of a texture that fits."""
    random, found = world.random, []
    for thing in pooled(world, world.textures):
        words = ["all"] if asked["kind"] == "storage-texture" else words_for(thing.call["format"], asked["sample"])
        if words and image_fits(thing.call, asked):
            found.append((thing, random.choice(words)))
    if not found:
        return None
    thing, word = random.choice(found)
    mips, layers = thing.call["mips"], thing.call["size"][2] if thing.call["dim"] == "2d" else 1
    base = random.randrange(mips)
    count = 1 if asked["kind"] == "storage-texture" else random.choice([1, mips - base])
    many = {"2d-array": random.randint(1, layers), "cube": 6, "cube-array": 6}.get(asked["dim"], 1)
    first = random.randint(0, layers - many)
    view = view_of(world, thing, {"dim": asked["dim"], "aspect": word, "baseMip": base, "mips": count, "baseLayer": first, "layers": many})
    aspect = ASPECTS.get(thing.call["format"] if word == "all" else word, "color")
    cells: list[Cell] = [("t", thing.name, aspect, mip, layer) for mip in range(base, base + count) for layer in range(first, first + many)]
    return {"view": view.name}, cells


def image_fits(texture: Call, asked: Entry) -> bool:
    """A texture will do for a kind, but for its aspect and sample type."""
    dims = FLAT[texture["dim"]] + (["cube", "cube-array"] if texture["size"][2] == 6 and texture["dim"] == "2d" else [])
    if asked["dim"] not in dims:
        return False
    if asked["kind"] == "storage-texture":
        return texture["format"] == asked["format"] and texture["usage"] & STORAGE_BINDING != 0
    return texture["usage"] & TEXTURE_BINDING != 0 and (texture["samples"] == 4) == asked["multi"]


def view_of(world: World, texture: Thing, call: Call) -> Thing:
    """A view, which is there already at times."""
    random = world.random
    old = [thing for thing in usable(world, world.views) if getattr(thing, "of", None) == (texture, call)]
    if old and random.random() < 0.7:
        return random.choice(old)
    usual = {"aspect": "all", "baseMip": 0, "baseLayer": 0, "dim": "2d"}
    if texture.call["size"][2] == 1 and texture.call["dim"] == "2d" and call["layers"] == 1 and random.random() < 0.5:
        usual["layers"] = 1
    elif call["dim"] in ("2d", "2d-array") and texture.call["size"][2] > 1:
        usual.pop("dim")
    told_call = {key: value for key, value in call.items() if usual.get(key) != value or random.random() < 0.4}
    thing = world.make("v", {"do": "createView", "texture": texture.name, **told_call}, True)
    thing.of, thing.texture = (texture, call), texture
    world.views.append(thing)
    return thing


def new_group(world: World, layout: Thing, wanted: str | None = None) -> Thing | None:
    """A group of a layout whose bindings clash as is wanted, as a rule not, or None, where there is none."""
    for _ in range(6 if wanted is None else 15):
        found = [bound_for(world, asked) for asked in layout.entries]
        pairs = [pair for pair in found if pair is not None]
        if len(pairs) < len(found):
            return None
        bound = [(asked, cells) for asked, (_, cells) in zip(layout.entries, pairs)]
        if clash([bound]) == wanted:
            entries = [told(world.random, {"binding": asked["binding"], **entry}) for asked, (entry, _) in zip(layout.entries, pairs)]
            world.random.shuffle(entries)
            thing = world.make("k", {"do": "createBindGroup", "layout": layout.name, "entries": entries}, True)
            thing.bound, thing.shape = bound, layout.shape
            world.groups.append(thing)
            return thing
    return None


def dynamic_of(group: Thing) -> list[Cell]:
    """The cells of the dynamic bindings of a group, in the order of their offsets."""
    found = [(asked["binding"], cells) for asked, cells in group.bound if asked.get("dynamic")]
    return [cells[0] for _, cells in sorted(found)]


def size_of(world: World, name: str) -> int:
    return next(thing.call["size"] for thing in world.buffers if thing.name == name)


def offsets_for(world: World, group: Thing) -> list[int]:
    """Offsets that fit: often 0, or the last that does."""
    found = []
    for _, name, _, high in dynamic_of(group):
        most = (size_of(world, name) - high) // STEP
        found.append(STEP * world.random.choice([0, most, world.random.randint(0, most)]))
    return found


def moved(group: Thing, offsets: list[int]) -> Bound:
    """What is bound in a group that is set with some offsets."""
    places = sorted(asked["binding"] for asked, _ in group.bound if asked.get("dynamic"))
    moves = dict(zip(places, offsets))
    found = []
    for asked, cells in group.bound:
        move = moves.get(asked["binding"], 0)
        found.append((asked, [("b", cell[1], cell[2] + move, cell[3] + move) if cell[0] == "b" else cell for cell in cells]))
    return found


def clash(bounds: Iterable[Bound], counts: str | None = None) -> str | None:
    """What is wrong with what a dispatch binds, and the name of the buffer of its counts: `overlap`, `scope`, or None."""
    bound = [pair for one in bounds for pair in one]
    for place, (one, cells) in enumerate(bound):
        for other, others in bound[place + 1:]:
            are_seen = one["visibility"] & other["visibility"] != 0
            if are_seen and (is_written(one) or is_written(other)) and any(meet(a, b) for a in cells for b in others):
                return "overlap"
    written: set[Cell] = set()
    read: set[Cell] = {("b", counts)}
    for asked, cells in bound:
        (written if is_written(asked) else read).update(cell[:2] if cell[0] == "b" else cell for cell in cells)
    return "scope" if written & read else None


def meet(one: Cell, other: Cell) -> bool:
    if one[0] == "b":
        return one[:2] == other[:2] and one[2] < other[3] and other[2] < one[3]
    return one == other


def new_pipeline(world: World, layouts: list[Thing]) -> Thing:
    """A pipeline whose interface is some of what its layouts have; at times one that derives its layouts of what these have."""
    random = world.random
    if random.random() < 0.3 or any(map(is_derived, layouts)):
        named = naming(random, [one.entries for one in layouts], False)
        return with_groups(world, compute_of(world, named[:random.choice([len(named), len(named), 3])]))
    layout = pipeline_layout_of(world, layouts, True)
    seen = [(group, entry) for group, one in enumerate(layouts) for entry in one.entries if entry["visibility"] & COMPUTE]
    iface = [told(random, used_by(random, *place)) for place in random.sample(seen, random.randint(0, min(len(seen), 3)))]
    call: Call = {"do": "createComputePipeline", "layout": layout.name, **({"iface": iface} if iface or random.random() < 0.3 else {})}
    thing = world.make("p", call, True)
    thing.layouts, thing.lists, thing.derives = layouts, [one.entries for one in layouts], False
    world.pipelines.append(thing)
    return at_times_got(world, thing)


def with_groups(world: World, pipeline: Thing) -> Thing:
    """A pipeline that derives its layouts, with these, and a few groups for each."""
    pipeline.layouts = got_of_all(world, pipeline)
    for layout in pipeline.layouts if pipeline.good else []:
        for _ in range(world.random.choice([1, 1, 2]) if layout.entries else world.random.choice([0, 0, 1])):
            new_group(world, layout)
    return pipeline


def at_times_got(world: World, pipeline: Thing) -> Thing:
    """At times a layout is got of a pipeline that names its layouts, with a group, which will do where those of the layout itself do."""
    if pipeline.good and pipeline.lists and world.random.random() < 0.15:
        new_group(world, got(world, pipeline, world.random.randrange(len(pipeline.lists))))
    return pipeline


def rival(world: World, layout: Thing) -> Thing | None:
    """A layout with the same entries as another one that is exclusive to another pipeline, or to none where that one is to some."""
    if is_derived(layout) and world.random.random() < 0.4:
        return new_layout(world, [dict(entry) for entry in layout.entries])
    return alike(world, layout)


def kit(world: World) -> Thing:
    """A pipeline of up to four layouts, with a few groups for each."""
    return new_pipeline(world, kit_layouts(world))


def kit_layouts(world: World) -> list[Thing]:
    """Up to four layouts of a pipeline, with a few groups for each. Layouts stand there twice at times, or have no entry."""
    random = world.random
    old = [thing for thing in usable(world, world.group_layouts) if hasattr(thing, "shape")]
    layouts = []
    for _ in range(random.choice([0, 1, 1, 1, 2, 2, 3, 4])):
        kind = random.random()
        if kind < 0.1:
            layouts.append(new_layout(world, []))
        elif kind < 0.35 and old:
            layouts.append(random.choice(old))
        elif kind < 0.45 and layouts:
            layouts.append(random.choice(layouts))
        else:
            layouts.append(new_layout(world))
    for layout in dict.fromkeys(layouts):
        for _ in range(random.choice([1, 2, 2, 3])):
            new_group(world, twin(world, layout) if random.random() < 0.15 else layout)
    return layouts


def groups_for(world: World, layout: Thing) -> list[Thing]:
    """The groups that will do for a layout, of which there is one as a rule."""
    found = [thing for thing in usable(world, world.groups) if getattr(thing, "shape", None) == layout.shape]
    found = [thing for thing in found if not any(is_gone(world, cell) for _, cells in thing.bound for cell in cells)]
    if not found or world.random.random() < 0.05:
        made = None if layout.dropped else new_group(world, layout)
        found += [made] if made is not None else []
    return found


def is_gone(world: World, cell: Cell) -> bool:
    thing = known(world.buffers if cell[0] == "b" else world.textures, cell[1])
    return thing.destroyed or thing.mapped


def bound_by(world: World, pipeline: Thing, wanted: str | None, counts: str | None) -> Groups | None:
    """A group and offsets for each index at which a pipeline asks for one, that clash as is wanted, or None.

    `counts` is the name of the buffer of an indirect dispatch, or None.
    """
    asked = [(index, layout, groups_for(world, layout)) for index, layout in enumerate(pipeline.own_layouts()) if layout.entries]
    if not all(groups for _, _, groups in asked):
        return None
    for turn in range(10):
        found: Groups = {}
        for index, layout, groups in asked:
            group = new_group(world, layout, wanted) if wanted is not None and turn in (0, 5) and not layout.dropped else None
            group = group or world.random.choice(groups)
            found[index] = (group, offsets_for(world, group))
        if clash([moved(*one) for one in found.values()], counts) == wanted:
            return found
    return None


def set_call(random: Random, on: str, index: int, group: Thing, offsets: list[int]) -> Call:
    call = {"do": "setBindGroup", "on": on, "index": index, "group": group.name}
    return {**call, **({"offsets": offsets} if offsets or random.random() < 0.2 else {})}
