"""Ways to leave one rule of a render pass unmet. As in `pass_faults`, a fault changes the list of the calls of a pass, from its begin to
its end, on an encoder of some name; what it needs is made before. Many do so too of the calls of a bundle encoder, from its making to its
finish."""

from __future__ import annotations

import copy
from typing import TYPE_CHECKING, Callable

from . import fixed_function
from .bundle_faults import CREATE_FAULTS, EXECUTE_FAULTS
from .dispatching import INDIRECT, buffers_in, known, named, size_of
from .drawing import INDEX, INDIRECT_BYTES, VERTEX, add_render_pipeline, new_render_pipeline
from .grouping import pipeline_layout_of
from .limiting import of as limit
from .pass_faults import (
    GREATEST_32, GREATEST_53, OFFSET_FAULTS, SETTING_FAULTS, WORK, change_call, dead_pass, first_or_any, no_group, no_pipeline, on_encoder,
    other_index, other_layout, other_owner, places, pop_too_many, push_too_many, shuffled, some_call,
)
from .query_faults import QUERY_FAULTS
from .resources import COLOR_FORMATS, DEPTH_FORMATS
from .states import NULL_FAULTS, STATE_FAULTS
from .targets import ASPECTS_OF, FOUR_COLORS, MOST_COLORS, LOADS, STORES

if TYPE_CHECKING:
    from random import Random

    from .handed import Call, Change, Fault
    from .world import Thing, World

DRAWS = WORK[2:]
ONE_COLORS = [format for format in COLOR_FORMATS if format not in FOUR_COLORS]


def change_begin(change: Change) -> Fault:
    """A fault of the begin of a pass that attaches something: made of a function of the world and the begin, which may change all of it."""
    def fault(world: World, encoder: str, on: str, calls: list[Call]) -> None:
        if attached(calls[0]):
            begin = copy.deepcopy(calls[0])
            change(world, begin)
            if world.random.random() < 0.85:
                mend_slices(world, begin)
            calls[0] = begin
    return fault


def mend_slices(world: World, begin: Call) -> None:
    """Slices are given where another view is attached that is 3d, and are not given where it is not; so that the fault is what was
    wanted."""
    for color in begin["colors"]:
        if color is not None and not color.pop("isMeant", False):
            if dim_at(world, color["view"]) != "3d":
                color.pop("depthSlice", None)
            elif "depthSlice" not in color:
                color["depthSlice"] = 0


def dim_at(world: World, name: str) -> str:
    """The dimension of the texture of a view."""
    view = named(world.views, name)
    return view.texture.call["dim"] if view is not None and hasattr(view, "texture") else "2d"


def change_slices(change: Callable[[World, Call, list[Call]], Call | None]) -> Fault:
    """A fault of the slices of a begin, of which some are given wrongly and stay so."""
    @change_begin
    def fault(world: World, begin: Call) -> None:
        colors = [color for color in begin["colors"] if color is not None]
        if colors:
            changed = change(world, begin, colors)
            if changed is not None:
                changed["isMeant"] = True
        for color in colors:
            if world.random.random() < 0.1:
                color["isMeant"] = True
    return without_marks(fault)


def without_marks(fault: Fault) -> Fault:
    """A fault that leaves no mark of its own in the begin."""
    def unmarked(world: World, encoder: str, on: str, calls: list[Call]) -> None:
        fault(world, encoder, on, calls)
        for color in calls[0].get("colors", []):
            if color is not None:
                color.pop("isMeant", None)
    return unmarked


def with_volume(world: World, begin: Call, colors: list[Call]) -> Call:
    """A color of the begin that is a slice; where there is none one is attached beside the others, or in place of one."""
    random = world.random
    found = [color for color in colors if dim_at(world, color["view"]) == "3d"]
    if found:
        return random.choice(found)
    width, height, samples, format = size_at(world, colors[0]["view"])
    texture: Call = {"size": [width, height, random.choice([1, 2, 4])], "usage": 23, "format": format, "dim": "3d", "mips": 1, "samples": 1}
    view = new_view(world, texture, {"mips": 1})
    color = {"view": view.name, "depthSlice": random.randrange(texture["size"][2]), "load": "clear", "store": "store"}
    if samples == 4:
        begin.pop("depth", None)
        begin["colors"] = [color]
    elif len(begin["colors"]) < MOST_COLORS:
        begin["colors"].insert(random.randint(0, len(begin["colors"])), color)
    else:
        begin["colors"][begin["colors"].index(colors[0])] = color
    return color


def slices_at(world: World, name: str) -> int:
    """How many slices the mip level has that a 3d view attaches."""
    view = known(world.views, name)
    return max(view.texture.call["size"][2] >> view.of[1]["baseMip"], 1)


@change_slices
def wrong_slice(world: World, begin: Call, colors: list[Call]) -> Call:
    """Rule 308: a slice that the mip level does not have, or none, or one of a view that is not 3d."""
    random = world.random
    if random.random() < 0.25:
        color = random.choice(colors)
        color["depthSlice"] = random.choice([0, 0, 0, 1, GREATEST_32])
        return color
    color = with_volume(world, begin, colors)
    if random.random() < 0.3:
        color.pop("depthSlice", None)
    else:
        whole = known(world.views, color["view"]).texture.call["size"][2]
        color["depthSlice"] = random.choice(
            [slices_at(world, color["view"])] * 3 + [slices_at(world, color["view"]) + 1, whole - 1, whole, 2**31, GREATEST_32]
        )
    return color


@change_slices
def slice_twice(world: World, begin: Call, colors: list[Call]) -> None:
    """Rule 306 on slices: one twice by one view or two, or of a texture that is a resolve view too; and slices beside each other, which may
    be."""
    random = world.random
    color = with_volume(world, begin, colors)
    view, count = known(world.views, color["view"]), slices_at(world, color["view"])
    name = color["view"] if random.random() < 0.5 else volume_view(world, view, random.random() < 0.2)
    several = [other for other in begin["colors"] if other is not None and other is not color]
    if several and random.random() < 0.35:
        random.choice(several)["resolve"] = name
    elif len(begin["colors"]) < MOST_COLORS:
        near = (
            random.choice([color["depthSlice"]] * 3 + [min(color["depthSlice"] + 1, count - 1), 0, count - 1])
            if "depthSlice" in color
            else 0
        )
        begin["colors"].append({"view": name, "depthSlice": near, "load": random.choice(LOADS), "store": random.choice(STORES)})
    return None


def volume_view(world: World, view: Thing, is_whole: bool) -> str:
    """Another view of the mip level of a 3d texture, or one of all of its levels."""
    mip = view.of[1]["baseMip"]
    call = {"dim": "3d", "baseMip": 0, "mips": view.texture.call["mips"]} if is_whole else {"dim": "3d", "baseMip": mip, "mips": 1}
    thing = world.make("v", {"do": "createView", "texture": view.texture.name, **call}, True)
    thing.texture, thing.of = view.texture, (view.texture, call)
    world.views.append(thing)
    return thing.name


def attached(begin: Call) -> list[tuple[Call, str]]:
    """The objects of a begin that have a view, each with the key under which it has one."""
    colors = [color for color in begin["colors"] if color is not None]
    found = [(color, "view") for color in colors] + [(color, "resolve") for color in colors if "resolve" in color]
    return found + ([(begin["depth"], "view")] if "depth" in begin else [])


def size_at(world: World, name: str) -> tuple[int, int, int, str]:
    """Width, height, samples and format of what a view attaches."""
    view = known(world.views, name)
    texture, mip = view.texture.call, view.of[1]["baseMip"] if hasattr(view, "of") else 0
    return max(texture["size"][0] >> mip, 1), max(texture["size"][1] >> mip, 1), texture["samples"], texture["format"]


def view_like(world: World, name: str, how: str | None = None, is_resolve: bool = False) -> str:
    """The name of a new view like one that is attached, or that is to be a resolve view of it, but for one thing."""
    random = world.random
    width, height, samples, format = size_at(world, name)
    samples = 1 if is_resolve else samples
    is_depth = format in DEPTH_FORMATS
    texture: Call = {
        "size": [width, height, 1],
        "usage": 23 if samples == 1 else 20,
        "format": format,
        "dim": "2d",
        "mips": 1,
        "samples": samples,
    }
    view: Call = {"dim": "2d", "baseMip": 0, "mips": 1, "baseLayer": 0, "layers": 1}
    if how == "usage":
        texture["usage"] = 7
        texture["samples"] = 1
    elif how == "format":
        texture["format"] = random.choice(COLOR_FORMATS if is_depth else DEPTH_FORMATS)
        texture["samples"] = 1 if texture["format"] in ONE_COLORS else samples
    elif how == "mips":
        texture.update(mips=2, samples=1, size=[max(width, 2), height, 1])
        view["mips"] = 2
    elif how == "layers":
        texture.update(samples=1)
        texture["size"][2] = 2
        view.update(dim="2d-array", layers=2)
    elif how == "dim" and not is_depth and random.random() < 0.5:
        texture.update(dim="3d", samples=1, usage=22, size=[width, height, random.choice([1, 2, 4])])
        view["dim"] = "3d"
    elif how == "dim":
        texture.update(samples=1, size=[width, width, 6])
        view.update(dim=random.choice(["cube", "cube-array"]), layers=6)
    elif how == "aspect":
        texture["format"] = "depth24plus-stencil8"
        view["aspect"] = random.choice(["depth-only", "stencil-only"])
    elif how == "width":
        texture["size"][0] += random.choice([1, width])
    elif how == "height":
        texture["size"][1] += random.choice([1, height])
    elif how == "samples":
        texture["samples"] = 5 - samples
        texture["format"] = format if is_depth or format in FOUR_COLORS or samples == 4 else random.choice(FOUR_COLORS)
        texture["usage"] = 20
    elif how == "other format":
        texture["format"] = other_color(random, format, samples)
    elif how == "invalid":
        texture["usage"] = random.choice([16, 16, 0])
        view["mips"] = random.choice([0, 2])
    return new_view(world, texture, view).name


def other_color(random: Random, format: str, samples: int) -> str:
    """Another color format, often the one that differs in `-srgb` alone."""
    twin = {"rgba8unorm": "rgba8unorm-srgb", "rgba8unorm-srgb": "rgba8unorm"}.get(format)
    if twin and random.random() < 0.6:
        return twin
    return random.choice([other for other in (FOUR_COLORS if samples == 4 else COLOR_FORMATS) if other != format])


def new_view(world: World, texture: Call, view: Call) -> Thing:
    made = world.texture_as(texture["usage"] != 0, texture)
    thing = world.make("v", {"do": "createView", "texture": made.name, **view}, made.good and view["mips"] == texture["mips"])
    thing.texture, thing.of = made, (made, {"baseMip": 0})
    world.views.append(thing)
    return thing


@change_begin
def invalid_view(world: World, begin: Call) -> None:
    item, key = world.random.choice(attached(begin))
    bad = [thing for thing in world.views if not thing.good]
    item[key] = world.random.choice(bad).name if bad and world.random.random() < 0.3 else view_like(world, item[key], "invalid")


@change_begin
def too_many_colors(world: World, begin: Call) -> None:
    """One more than there may be, by nulls or by what is attached twice then."""
    random = world.random
    count = MOST_COLORS + random.choice([1, 1, 1, 2, 40]) - len(begin["colors"])
    begin["colors"] += [random.choice([None, *begin["colors"]])] * count


@change_begin
def nothing_attached(world: World, begin: Call) -> None:
    begin.pop("depth", None)
    begin["colors"] = [None] * world.random.choice([0, 1, 8, 9])


@change_begin
def wrong_color(world: World, begin: Call) -> None:
    """Rule 302, at times of a color beside others."""
    colors = [color for color in begin["colors"] if color is not None]
    if not colors or world.random.random() < 0.2 and len(begin["colors"]) < MOST_COLORS:
        colors = [{"view": attached(begin)[0][0]["view"], "load": "clear", "store": "store"}]
        begin["colors"] += colors
    color = world.random.choice(colors)
    color["view"] = view_like(world, color["view"], world.random.choice(["usage", "usage", "format", "mips", "layers", "dim", "dim"]))


@change_begin
def wrong_depth(world: World, begin: Call) -> None:
    """Rule 303."""
    if "depth" not in begin:
        add_depth(world, begin)
    how = world.random.choice(["usage", "format", "format", "aspect", "aspect", "mips", "layers", "dim"])
    begin["depth"]["view"] = view_like(world, begin["depth"]["view"], how)


def add_depth(world: World, begin: Call) -> None:
    """A good depth beside colors, of any format that has one."""
    random = world.random
    width, height, samples, _ = size_at(world, attached(begin)[0][0]["view"])
    format = random.choice(DEPTH_FORMATS)
    view = new_view(
        world, {"size": [width, height, 1], "usage": 20, "format": format, "dim": "2d", "mips": 1, "samples": samples}, {"mips": 1}
    )
    begin["depth"] = {"view": view.name}
    for aspect in ASPECTS_OF[format]:
        begin["depth"].update({f"{aspect}Load": random.choice(LOADS), f"{aspect}Store": random.choice(STORES)})


@change_begin
def wrong_loads(world: World, begin: Call) -> None:
    """Rule 304: what is needed is left out, or what may not be given is given."""
    random = world.random
    if "depth" not in begin:
        add_depth(world, begin)
    depth, aspect = begin["depth"], random.choice(["depth", "stencil"])
    load, store, read_only = f"{aspect}Load", f"{aspect}Store", f"{aspect}ReadOnly"
    kind = random.randrange(4)
    if kind == 0 and load in depth:
        depth.pop(random.choice([load, store]), None)
    elif kind == 1 and load in depth:
        depth.pop(load)
        depth.pop(store, None)
    elif load in depth:
        depth[read_only] = True
        if random.random() < 0.6:
            depth.pop(random.choice([load, store]), None)
    else:
        given = {load: random.choice(LOADS), store: random.choice(STORES)}
        depth.update(random.choice([given, given, {load: "load"}, {store: "store"}]))


@change_begin
def wrong_clear(world: World, begin: Call) -> None:
    """Rule 418, of a depth that is cleared; at times of one that is not, which may be."""
    random = world.random
    if "depth" not in begin:
        add_depth(world, begin)
    depth = begin["depth"]
    if "depthLoad" in depth and random.random() < 0.85:
        depth["depthLoad"] = "clear"
    depth["depthClearValue"] = random.choice(["none", fixed_function.ONE + 1, fixed_function.ONE + 1, GREATEST_53])


@change_begin
def many_bytes(world: World, begin: Call) -> None:
    """Rule 411, where the limit is named: colors are attached until they take too many bytes together, or almost."""
    random = world.random
    width, height, samples, _ = size_at(world, attached(begin)[0][0]["view"])
    formats = [None if color is None else size_at(world, color["view"])[3] for color in begin["colors"]]
    while limit(fixed_function.BYTES_LIMIT) and len(formats) < MOST_COLORS and fixed_function.fits(formats):
        format = random.choice(["rgba16float", "rgba8unorm"] if samples == 4 else ["rgba32float", "rgba32float", "rgba16float", "r8unorm"])
        texture: Call = {"size": [width, height, 1], "usage": 20, "format": format, "dim": "2d", "mips": 1, "samples": samples}
        begin["colors"].append({"view": new_view(world, texture, {"mips": 1}).name, "load": "clear", "store": "store"})
        formats.append(format)
    if random.random() < 0.1 and formats:
        begin["colors"].pop()


@change_begin
def wrong_size(world: World, begin: Call) -> None:
    """Rule 305: one of several is of another width or height, or of another count of samples."""
    random = world.random
    items = [item for item, key in attached(begin) if key == "view"]
    how = random.choice(["width", "height", "samples"])
    if len(items) == 1 or random.random() < 0.3:
        if "depth" not in begin and random.random() < 0.4:
            add_depth(world, begin)
            items = [begin["depth"]]
        elif len(begin["colors"]) < MOST_COLORS:
            color = next((item for item in items if item is not begin.get("depth")), None)
            items = [{"view": items[0]["view"] if color is None else color["view"], "load": "load", "store": "store"}]
            begin["colors"].insert(random.randint(0, len(begin["colors"])), items[0])
            if color is None:
                how = "format"
    item = random.choice(items)
    item["view"] = view_like(world, item["view"], how)
    if how == "samples":
        item.pop("resolve", None)


@change_begin
def attached_twice(world: World, begin: Call) -> None:
    """Rule 306: a color twice, a resolve view that is a color, the depth or another resolve view, or has some of these among others."""
    random = world.random
    items = attached(begin)
    item, key = random.choice(items)
    view = known(world.views, item[key])
    part = view.of[1] if hasattr(view, "of") else {"baseMip": 0}
    again = item[key]
    if random.random() < 0.6:
        again = wide_view(world, view.texture, part["baseMip"], part.get("baseLayer", 0), random.random() < 0.4)
    colors = [color for color in begin["colors"] if color is not None and color is not item]
    if key == "resolve" and len(begin["colors"]) < MOST_COLORS and random.random() < 0.5:
        begin["colors"].append({"view": view_like(world, item["view"]), "resolve": again, "load": "clear", "store": "store"})
    elif colors and random.random() < 0.6:
        random.choice(colors)["resolve"] = again
    elif len(begin["colors"]) < MOST_COLORS and item is not begin.get("depth") and (key == "view" or random.random() < 0.5):
        begin["colors"].append({"view": again if key == "view" else item["view"], "load": "clear", "store": "store"})
    else:
        found = [color for color in begin["colors"] if color is not None]
        if found:
            random.choice(found)["resolve"] = again


def wide_view(world: World, texture: Thing, mip: int, layer: int, is_wide: bool) -> str:
    """A view of a subresource, alone or with all others of its texture."""
    call, layers = texture.call, texture.call["size"][2]
    view = {"dim": "2d", "baseMip": mip, "mips": 1, "baseLayer": layer, "layers": 1}
    if call["dim"] == "3d":
        view = {"dim": "3d", "baseMip": 0 if is_wide else mip, "mips": call["mips"] if is_wide else 1, "baseLayer": 0, "layers": 1}
    elif is_wide and call["samples"] == 1:
        view = {"dim": "2d-array", "baseMip": 0, "mips": call["mips"], "baseLayer": 0, "layers": layers}
    thing = world.make("v", {"do": "createView", "texture": texture.name, **view}, True)
    thing.texture, thing.of = texture, (texture, view)
    world.views.append(thing)
    return thing.name


@change_begin
def wrong_resolve(world: World, begin: Call) -> None:
    """Rule 307, of a color that has a resolve view, or is given one."""
    random = world.random
    colors = [color for color in begin["colors"] if color is not None]
    several = [color for color in colors if size_at(world, color["view"])[2] == 4]
    if not several and random.random() < 0.8:
        several = [multisampled(world, begin)]
    color = random.choice(several or colors or [multisampled(world, begin)])
    how = random.choice(["usage", "format", "mips", "layers", "dim", "dim", "samples", "samples", "width", "height"] + ["other format"] * 3)
    color["resolve"] = view_like(world, color["view"], how if several or random.random() < 0.3 else None, is_resolve=True)


def multisampled(world: World, begin: Call) -> Call:
    """The begin attaches one color of four samples, and no more."""
    size = [*world.random.choice([[4, 4], [4, 2], [1, 1]]), 1]
    format = world.random.choice(FOUR_COLORS)
    view = new_view(world, {"size": size, "usage": 20, "format": format, "dim": "2d", "mips": 1, "samples": 4}, {"mips": 1})
    begin.pop("depth", None)
    begin["colors"] = [{"view": view.name, "load": "clear", "store": "discard"}]
    return begin["colors"][0]


@change_begin
def read_only_pass(world: World, begin: Call) -> None:
    """Aspects of the depth become read-only, which the pipelines may write."""
    depth = begin.get("depth", {})
    for aspect in ("depth", "stencil"):
        if f"{aspect}Load" in depth and world.random.random() < 0.7:
            depth.pop(f"{aspect}Load")
            depth.pop(f"{aspect}Store", None)
            depth[f"{aspect}ReadOnly"] = True


@change_call("setPipeline")
def invalid_render_pipeline(world: World, call: Call) -> None:
    bad = [thing for thing in world.render_pipelines if not thing.good]
    if not bad or world.random.random() < 0.2:
        nothing = {"do": "createRenderPipeline", "iface": [], "buffers": [], "targets": [], "samples": 1}
        bad = [add_render_pipeline(world, {**nothing, "layout": pipeline_layout_of(world, [], True).name}, False)]
    call["pipeline"] = world.random.choice(bad).name


@change_call("setPipeline")
def other_targets(world: World, call: Call) -> None:
    """A pipeline that agrees with the pass but for one thing."""
    random, thing = world.random, named(world.render_pipelines, call["pipeline"])
    if thing is None or thing.layouts is None:
        return
    formats, depth, samples = list(thing.signature[0]), thing.signature[1], thing.signature[2]
    kind = random.choice([0, 1, 2, 3, 3, 4, 5, 5, 6])
    if kind == 3 and depth is None or kind == 5 and not set(formats) <= {None, *FOUR_COLORS}:
        kind = random.choice([0, 1, 2])
    if kind == 0 and formats:
        formats.pop()
    elif kind == 1 and len(formats) < MOST_COLORS:
        formats.insert(random.randint(0, len(formats)), random.choice([None, None, random.choice(FOUR_COLORS)]))
    elif kind == 2 and any(formats):
        at, format = random.choice([(at, format) for at, format in enumerate(formats) if format is not None])
        formats[at] = random.choice([None, other_color(random, format, samples)])
    elif kind == 3:
        depth = random.choice([format for format in DEPTH_FORMATS if format != depth])
    elif kind == 4 and depth is not None:
        depth = None
    elif kind == 5:
        samples = 5 - samples
    else:
        formats.reverse()
    if any(formats) or depth is not None:
        layouts = [layout for layout in thing.layouts if not layout.dropped]
        call["pipeline"] = new_render_pipeline(world, layouts, formats, depth, samples, set()).name


def writing_pipeline(world: World, encoder: str, on: str, calls: list[Call]) -> None:
    """A pipeline that may write what is read-only."""
    other_writes(world, encoder, on, calls)
    read_only_pass(world, encoder, on, calls)


@change_call("setPipeline")
def other_writes(world: World, call: Call) -> None:
    thing = named(world.render_pipelines, call["pipeline"])
    if thing is not None and thing.layouts is not None and thing.signature[1] is not None:
        layouts = [layout for layout in thing.layouts if not layout.dropped]
        call["pipeline"] = new_render_pipeline(world, layouts, thing.signature[0], *thing.signature[1:], set()).name


@change_call("setPipeline")
def other_strip(world: World, call: Call) -> None:
    """A pipeline like the one that is set, but of strips, whose format of indices is not said, or may be another."""
    random, thing = world.random, named(world.render_pipelines, call["pipeline"])
    if thing is None or thing.layouts is None or thing.derives:
        return
    topologies = ["triangle-strip"] if thing.call.get("depth", {}).get("bias") else fixed_function.STRIPS
    strips: list[Call] = [{}, {"stripIndexFormat": "uint16"}, {"stripIndexFormat": "uint32"}]
    strip = random.choice(strips)
    old = {key: value for key, value in thing.call.get("primitive", {}).items() if key != "stripIndexFormat"}
    keys = {**thing.call, "primitive": {**old, "topology": random.choice(topologies), **strip}}
    made = world.make("x", keys, thing.good)
    made.layouts, made.lists, made.derives = thing.layouts, thing.lists, False
    made.vertex, made.signature, made.writes = thing.vertex, thing.signature, thing.writes
    world.render_pipelines.append(made)
    call["pipeline"] = made.name


def range_faults(word: str, bit: int, step: int) -> list[Fault]:
    """The faults of a setVertexBuffer or setIndexBuffer, in the order of its rules."""
    @change_call(word)
    def invalid(world: World, call: Call) -> None:
        call["buffer"] = world.buffer(good=False).name

    @change_call(word)
    def usage(world: World, call: Call) -> None:
        call["buffer"] = world.buffer(size=1024, usage=12 | world.random.choice([0, VERTEX + INDEX - bit])).name

    @change_call(word)
    def slot(world: World, call: Call) -> None:
        if "slot" in call:
            call["slot"] = world.random.choice([8, 8, 8, 9, GREATEST_32])

    @change_call(word)
    def offset(world: World, call: Call) -> None:
        """Of an index buffer it may be aligned by 2, which is good for one of the formats."""
        call["offset"] = min(call.get("offset", 0) + world.random.choice([1, 2, 2, 2, 3]), GREATEST_53)

    @change_call(word)
    def past(world: World, call: Call) -> None:
        random, size = world.random, min(size_of(world, call["buffer"]), 2**28)
        first = min(call.get("offset", 0), 2**28)
        kind = random.randrange(4)
        if kind == 0:
            call["size"] = max(size - first, 0) + random.choice([1, 1, 4])
        elif kind == 1:
            call.pop("size", None)
            call["offset"] = size // step * step + random.choice([step, step, 256])
        elif kind == 2:
            call.update(offset=size // step * step + step, size=0)
        else:
            call.update(
                random.choice([{"size": GREATEST_53}, {"offset": GREATEST_53 - 3}, {"offset": GREATEST_53 - 3, "size": GREATEST_53}])
            )

    return [invalid, usage, offset, past] + ([slot] if word == "setVertexBuffer" else [])


def gone(word: str) -> Fault:
    """A call that sets something is left out; so what was set before counts, or nothing."""
    def fault(world: World, encoder: str, on: str, calls: list[Call]) -> None:
        call = some_call(world.random, calls, word)
        if call is not None:
            calls.remove(call)
    return fault


def all_gone(word: str) -> Fault:
    """Nothing of a kind is set."""
    def fault(world: World, encoder: str, on: str, calls: list[Call]) -> None:
        calls[:] = [call for call in calls if call["do"] != word]
    return fault


@change_call("setVertexBuffer")
def other_slot(world: World, call: Call) -> None:
    call["slot"] = (call["slot"] + 1) % 8


@change_call("setVertexBuffer", "setIndexBuffer")
def less_set(world: World, call: Call) -> None:
    """A range that is too short for what is drawn, or empty."""
    size = size_of(world, call["buffer"])
    call["size"] = world.random.choice([0, 1, 2, 3, 4, 15])
    call["offset"] = min(call.get("offset", 0), max(size - 16, 0) // 4 * 4)


@change_call("setIndexBuffer")
def other_format(world: World, call: Call) -> None:
    call["format"] = {"uint16": "uint32", "uint32": "uint16"}[call["format"]]


@change_call("draw", "drawIndexed")
def huge_numbers(world: World, call: Call) -> None:
    """Sums and products past 32 bits."""
    for key in world.random.sample(["vertices" if call["do"] == "draw" else "indices", "instances", "firstInstance"], 2):
        call[key] = world.random.choice([GREATEST_32, GREATEST_32, 2**31, 2**30])


@change_call("draw", "drawIndexed")
def first_more(world: World, call: Call) -> None:
    """One element more, which may be good, also of a draw of nothing."""
    key = world.random.choice(["firstVertex" if call["do"] == "draw" else "firstIndex", "firstInstance"])
    call[key] = min(call.get(key, 0) + 1, GREATEST_32)


def indirect(change: Change) -> Fault:
    """A fault of an indirect draw, which may stand in place of another one."""
    def fault(world: World, encoder: str, on: str, calls: list[Call]) -> None:
        found = places(calls, *DRAWS)
        if found:
            at = first_or_any(world.random, found)
            word = (
                calls[at]["do"]
                if calls[at]["do"] in INDIRECT_BYTES
                else {"draw": "drawIndirect"}.get(calls[at]["do"], "drawIndexedIndirect")
            )
            buffers = [thing for thing in buffers_in(world, INDIRECT) if thing.call["size"] >= INDIRECT_BYTES[word]]
            if buffers:
                if calls[at]["do"] != word:
                    calls[at] = {"do": word, "on": on, "buffer": world.random.choice(buffers).name, "offset": 0}
                change(world, calls[at])
    return fault


@indirect
def indirect_invalid(world: World, call: Call) -> None:
    call["buffer"] = world.buffer(good=False).name


@indirect
def indirect_usage(world: World, call: Call) -> None:
    call["buffer"] = world.buffer(size=world.random.choice([12, 16, 20, 64]), usage=12 | world.random.choice([0, 16, 32, 64, 128])).name


@indirect
def indirect_offset(world: World, call: Call) -> None:
    call["offset"] = min(call["offset"] + world.random.choice([1, 2, 3]), GREATEST_53)


@indirect
def indirect_past(world: World, call: Call) -> None:
    size, length = min(size_of(world, call["buffer"]), 2**28) // 4 * 4, INDIRECT_BYTES[call["do"]]
    call["offset"] = world.random.choice([max(size - length + 4, 0), max(size - length + 4, 0), size, GREATEST_53 - 3, GREATEST_53])


@indirect
def indirect_instead(world: World, call: Call) -> None:
    """An indirect draw in place of another one, which may be good."""


def other_kind(world: World, encoder: str, on: str, calls: list[Call]) -> None:
    """A draw of vertices becomes one of indices, or the other way; there may be an index buffer for it or not."""
    random = world.random
    call = some_call(random, calls, *DRAWS)
    if call is not None:
        twin = {"draw": "drawIndexed", "drawIndexed": "draw", "drawIndirect": "drawIndexedIndirect", "drawIndexedIndirect": "drawIndirect"}
        keys = {"vertices": "indices", "indices": "vertices", "firstVertex": "firstIndex", "firstIndex": "firstVertex"}
        calls[calls.index(call)] = {**{keys.get(key, key): value for key, value in call.items()}, "do": twin[call["do"]]}


BEGIN_FAULTS = [
    invalid_view, too_many_colors, nothing_attached, wrong_color, wrong_depth, wrong_loads, wrong_size, attached_twice, wrong_resolve,
    wrong_slice, slice_twice, wrong_clear, wrong_clear, many_bytes, many_bytes,
]
VERTEX_FAULTS = range_faults("setVertexBuffer", VERTEX, 4)
INDEX_FAULTS = range_faults("setIndexBuffer", INDEX, 4)
DRAW_FAULTS = [
    no_pipeline, no_group, other_index, other_layout, other_owner, other_owner,
    gone("setVertexBuffer"),
    gone("setVertexBuffer"),
    gone("setIndexBuffer"),
    all_gone("setVertexBuffer"),
    all_gone("setIndexBuffer"),
    all_gone("setIndexBuffer"),
    other_slot, less_set, less_set, other_format, huge_numbers, first_more, first_more, indirect_invalid, indirect_usage, indirect_offset,
    indirect_past, indirect_past, indirect_instead, other_kind, other_kind, other_strip, other_strip, other_strip,
]
PIPELINE_FAULTS = [invalid_render_pipeline] + [other_targets] * 5 + [writing_pipeline] * 3
ORDER_FAULTS = [pop_too_many, push_too_many, dead_pass, dead_pass, dead_pass, dead_pass, on_encoder, on_encoder, shuffled]
FAULTS = (
    BEGIN_FAULTS * 3
    + [
        wrong_color, wrong_depth, wrong_loads, wrong_size, attached_twice, attached_twice, wrong_resolve, wrong_resolve, wrong_slice,
        slice_twice,
    ]
    * 2
    + SETTING_FAULTS
    + OFFSET_FAULTS
    + VERTEX_FAULTS * 3
    + INDEX_FAULTS * 3
    + DRAW_FAULTS * 2
    + PIPELINE_FAULTS * 2
    + ORDER_FAULTS * 2
    + QUERY_FAULTS
    + [other_owner] * 6
    + [other_strip] * 6
    + STATE_FAULTS * 2
    + NULL_FAULTS * 2
)


def spoil_render(world: World, encoder: str, on: str, calls: list[Call]) -> None:
    """Faults in a render pass; where there is nothing that they could change, others are tried."""
    for _ in range(4):
        before = [dict(call) for call in calls]
        faults(world, encoder, on, calls)
        if calls != before:
            return


def faults(world: World, encoder: str, on: str, calls: list[Call]) -> None:
    """One fault as a rule, at times two or three, often of one call, so that the order of rules shows."""
    random, kind = world.random, world.random.random()
    if random.random() < world.queries / 2:
        several = random.sample(QUERY_FAULTS, random.choice([1, 1, 2]))
    elif random.random() < world.bundled:
        several = random.sample(EXECUTE_FAULTS, random.choice([1, 1, 2]))
    elif kind < 0.12:
        several = random.sample(BEGIN_FAULTS, 2)
    elif kind < 0.22:
        several = random.sample(random.choice([VERTEX_FAULTS, INDEX_FAULTS]), random.choice([2, 3]))
    elif kind < 0.34:
        several = random.sample(DRAW_FAULTS, 2)
    elif kind < 0.37:
        several = random.sample(STATE_FAULTS + NULL_FAULTS, 2)
    elif kind < 0.42:
        several = random.sample(FAULTS, 2)
    else:
        several = [random.choice(FAULTS)]
    for fault in several:
        fault(world, encoder, on, calls)


def writing_in_bundle(world: World, encoder: str, on: str, calls: list[Call]) -> None:
    """A pipeline that may write what is read-only in the bundle."""
    other_writes(world, encoder, on, calls)
    for aspect in ("depth", "stencil"):
        if world.random.random() < 0.7:
            calls[0] = {**calls[0], f"{aspect}ReadOnly": True}


BUNDLE_FAULTS = (
    SETTING_FAULTS * 2
    + OFFSET_FAULTS
    + VERTEX_FAULTS * 3
    + INDEX_FAULTS * 3
    + DRAW_FAULTS * 2
    + [invalid_render_pipeline, invalid_render_pipeline]
    + [other_targets] * 8
    + [other_strip] * 4
    + [writing_in_bundle] * 5
    + [pop_too_many, push_too_many] * 3
    + [shuffled] * 3
    + NULL_FAULTS * 3
)


def spoil_bundle(world: World, on: str, calls: list[Call]) -> None:
    """A fault in the calls of a bundle encoder, or two."""
    random, kind = world.random, world.random.random()
    if kind < 0.25:
        several = random.sample(CREATE_FAULTS, random.choice([1, 1, 2]))
    elif kind < 0.35:
        several = random.sample(random.choice([VERTEX_FAULTS, INDEX_FAULTS]), random.choice([2, 3]))
    else:
        several = random.sample(BUNDLE_FAULTS, random.choice([1, 1, 1, 2]))
    for fault in several:
        fault(world, on, on, calls)
