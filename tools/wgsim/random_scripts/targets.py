"""What is attached to render passes: textures of a few sizes, views of one mip level and layer or slice, and begins of good passes."""

from __future__ import annotations

from typing import TYPE_CHECKING, Any, Sequence

from .dispatching import pooled, view_of
from .fixed_function import clear_values, fits
from .regions import extent
from .resources import COLOR_FORMATS, DEPTH_FORMATS, STORAGE_FORMATS, most_mips

if TYPE_CHECKING:
    from .handed import Call, Cell, Signature, Spot, Uses
    from .world import Thing, World

RENDER_ATTACHMENT = 16
LOADS, STORES = ["load", "clear"], ["store", "discard"]
FOUR_COLORS = ["rgba8unorm", "rgba8unorm-srgb", "bgra8unorm", "rgba16float"]
ASPECTS_OF = {
    "depth16unorm": ["depth"], "depth24plus": ["depth"], "depth32float": ["depth"], "depth24plus-stencil8": ["depth", "stencil"],
    "stencil8": ["stencil"],
}
# The word that names the one aspect of a format.
ONE_ASPECT = {"depth16unorm": "depth-only", "depth24plus": "depth-only", "depth32float": "depth-only", "stencil8": "stencil-only"}
# Width and height; mip levels of some have those of others.
SIZES = [[4, 4], [4, 4], [4, 4], [8, 8], [8, 9], [5, 4], [2, 2], [1, 1], [4, 2]]
MOST_COLORS = 8


class Target:
    """A render pass: the call that begins it, the formats of its colors (None of one that is null), the format of its depth or None,
    its samples, which aspects are read-only, and by which role each part is used so far: `read`, `storage` or `attachment`."""

    def __init__(self, begin: Call, formats: list[str | None], depth: str | None, samples: int, read_only: set[str], uses: Uses) -> None:
        self.begin = begin
        self.formats = formats
        self.depth = depth
        self.samples = samples
        self.read_only = read_only
        self.uses = uses
        self.clashes = False

    def signature(self) -> Signature:
        return signature(self.formats, self.depth, self.samples)


def signature(formats: Sequence[str | None], depth: str | None, samples: int) -> Signature:
    """What a pipeline and a pass have in common that agree; nulls at the end do not count."""
    formats = list(formats)
    while formats and formats[-1] is None:
        formats.pop()
    return tuple(formats), depth, samples


def target_pool(world: World) -> None:
    """The textures that passes of a script draw to: a few of a size, or with a mip level of it, of one or of four samples."""
    random = world.random
    for _ in range(random.choice([1, 2, 2, 3])):
        pool_target(world)
    for _ in range(random.choice([0, 1, 1, 2])):
        pool_target(world, random.choice(DEPTH_FORMATS))
    if random.random() < 0.5:
        multisampled_pool(world)


def multisampled_pool(world: World) -> None:
    """A texture of four samples, often one that it can be resolved to, and at times a depth."""
    random = world.random
    format, size = random.choice(FOUR_COLORS), random.choice(SIZES)
    made = pool_target(world, format, 4, size)
    if world.has_fault() and random.random() < 0.3:
        world.views.append(world.make("v", {"do": "createView", "texture": made.name, "dim": "2d-array"}, False))
        world.views[-1].texture = made
    if random.random() < 0.3:
        pool_target(world, random.choice(FOUR_COLORS), 4, size)
    if random.random() < 0.8:
        pool_target(world, format, 1, random.choice([size, [2 * size[0], 2 * size[1]]]))
    if random.random() < 0.5:
        pool_target(world, random.choice(DEPTH_FORMATS), 4, size)


def pool_target(world: World, format: str | None = None, samples: int | None = None, size: list[int] | None = None) -> Thing:
    random = world.random
    samples = samples or 1
    format = format or random.choice(COLOR_FORMATS + ["rgba8unorm"] * 4)
    width, height = size or random.choice(SIZES)
    dim = "3d" if samples == 1 and format in COLOR_FORMATS and random.random() < 0.25 else "2d"
    size = [width, height, 1 if samples == 4 else random.choice([1, 2, 3, 4, 5, 8] if dim == "3d" else [1, 1, 2, 3])]
    mips = 1 if samples == 4 else min(random.choice([1, 2, 3]), most_mips(dim, size))
    usage = RENDER_ATTACHMENT | random.choice([7, 7, 7, 4, 3, 0])
    if format in STORAGE_FORMATS and samples == 1 and random.random() < 0.5:
        usage |= 8
    return world.texture_as(True, {"size": size, "usage": usage, "format": format, "dim": dim, "mips": mips, "samples": samples})


def spots(
    world: World, formats: Sequence[str], samples: int | None = None, size: list[int] | None = None, dims: Sequence[str] = ("2d", "3d")
) -> list[Spot]:
    """What can be attached: a texture, a mip level and a layer, or a slice of a 3d one, of one of some formats, of a count of samples, and
    of a size. Of many slices there are some."""
    found = []
    for thing in pooled(world, world.textures):
        call = thing.call
        is_fit = (
            call["usage"] & RENDER_ATTACHMENT and call["dim"] in dims and call["format"] in formats and samples in (None, call["samples"])
        )
        for mip in range(call["mips"] if is_fit else 0):
            places = extent(call, mip)
            if size is None or places[:2] == size:
                some = range(places[2]) if places[2] <= 8 else [0, 1, places[2] // 2, places[2] - 1]
                found += [(thing, mip, layer) for layer in some]
    return found


def attached_view(world: World, spot: Spot, **wanted: Any) -> Thing:
    """A view of one mip level and layer, or of a 3d texture of one mip level, but for what is wanted otherwise."""
    random, (thing, mip, layer) = world.random, spot
    if thing.call["dim"] == "3d":
        return view_of(world, thing, {"dim": "3d", "aspect": "all", "baseMip": mip, "mips": 1, "baseLayer": 0, "layers": 1, **wanted})
    call = {
        "dim": random.choice(["2d", "2d", "2d", "2d-array"]),
        "aspect": "all",
        "baseMip": mip,
        "mips": 1,
        "baseLayer": layer,
        "layers": 1,
    }
    if thing.call["samples"] == 4:
        call["dim"] = "2d"
    if random.random() < 0.2:
        call["aspect"] = ONE_ASPECT.get(thing.call["format"], "all")
    return view_of(world, thing, {**call, **wanted})


def parts_of(spot: Spot) -> list[Cell]:
    thing, mip, layer = spot
    if thing.call["dim"] == "3d":
        return [("t", thing.name, "color", mip, 0)]
    return [("t", thing.name, aspect, mip, layer) for aspect in ASPECTS_OF.get(thing.call["format"], ["color"])]


def begin(world: World, encoder: str | None, name: str) -> Target:
    """A good pass of some of what is there, or of what is new."""
    random = world.random
    every = spots(world, COLOR_FORMATS + DEPTH_FORMATS)
    if not every or random.random() < 0.03:
        pool_target(world)
        every = spots(world, COLOR_FORMATS)
    if not every:  # On a lost device nothing is good.
        return Target({"do": "beginRenderPass", "on": encoder, "as": name, "colors": []}, [], None, 1, set(), {})
    several = [spot for spot in every if spot[0].call["samples"] == 4]
    first = random.choice(several if several and random.random() < 0.4 else every)
    samples, size = first[0].call["samples"], extent(first[0].call, first[1])[:2]
    taken, uses = {first}, {}
    chosen = [first] if first[0].call["format"] in COLOR_FORMATS else []
    others = [spot for spot in spots(world, COLOR_FORMATS, samples, size) if spot not in taken]
    random.shuffle(others)
    chosen += others[:random.choice([0, 0, 1, 2, 7])]
    chosen = chosen[:MOST_COLORS]
    while not fits([spot[0].call["format"] for spot in chosen]):
        chosen.pop()
    taken |= set(chosen)
    items: list[tuple[Call | None, str | None]] = [(color(world, spot, size, taken, uses), spot[0].call["format"]) for spot in chosen]
    if items or first in chosen:
        for _ in range(random.choice([0, 0, 0, 0, 1, 2, MOST_COLORS])):
            if len(items) < MOST_COLORS:
                items.insert(random.randint(0, len(items)), (None, None))
    call = {"do": "beginRenderPass", "on": encoder, "as": name, "colors": [item for item, _ in items]}
    depths = [first] if first not in chosen else spots(world, DEPTH_FORMATS, samples, size)
    target = Target(call, [format for _, format in items], None, samples, set(), uses)
    if depths and (first not in chosen or random.random() < 0.6):
        attach_depth(world, target, random.choice(depths))
    return target


def color(world: World, spot: Spot, size: list[int], taken: set[Spot], uses: Uses) -> Call:
    """An item of `colors`, with a resolve view where there is something for it."""
    random = world.random
    found: Call = {"view": attached_view(world, spot).name, "load": random.choice(LOADS), "store": random.choice(STORES)}
    if spot[0].call["dim"] == "3d":
        found["depthSlice"] = spot[2]
    uses.update({part: "attachment" for part in parts_of(spot)})
    if spot[0].call["samples"] == 4 and random.random() < 0.7:
        others = [other for other in spots(world, [spot[0].call["format"]], 1, size, ("2d",)) if other not in taken]
        if others:
            other = random.choice(others)
            taken.add(other)
            found["resolve"] = attached_view(world, other).name
            uses.update({part: "attachment" for part in parts_of(other)})
    return found


def attach_depth(world: World, target: Target, spot: Spot) -> None:
    random, format = world.random, spot[0].call["format"]
    depth: Call = {"view": attached_view(world, spot).name}
    for aspect in ("depth", "stencil"):
        if aspect not in ASPECTS_OF[format]:
            if random.random() < 0.25:
                depth[f"{aspect}ReadOnly"] = random.random() < 0.5
        elif random.random() < 0.4:
            depth[f"{aspect}ReadOnly"] = True
        else:
            depth.update({f"{aspect}Load": random.choice(LOADS), f"{aspect}Store": random.choice(STORES)})
            if random.random() < 0.2:
                depth[f"{aspect}ReadOnly"] = False
        if depth.get(f"{aspect}ReadOnly"):
            target.read_only.add(aspect)
    clear_values(random, depth)
    target.begin["depth"] = depth
    target.depth = format
    for part in parts_of(spot):
        target.uses[part] = "read" if part[2] in target.read_only else "attachment"
