"""Ways to leave a rule of bundles unmet: those of the making of a bundle encoder, which change its calls from its making to its finish, and
those of the bundles that a render pass executes. As in `pass_faults`, what they need is made before."""

from __future__ import annotations

import copy
from typing import TYPE_CHECKING, Callable

from . import fixed_function
from .bundling import ASPECTS, bundle_of, create_call, executes, new_bundle, own_target, parts_of
from .dispatching import known, new_layout
from .drawing import sampled_attachment
from .grouping import usable
from .limiting import of as limit
from .pass_faults import GREATEST_32, WORK, first_or_any, places
from .resources import COLOR_FORMATS, DEPTH_FORMATS
from .targets import FOUR_COLORS, MOST_COLORS, Target
from .targets import parts_of as spot_parts

if TYPE_CHECKING:
    from random import Random

    from .handed import Call, Cell, Fault
    from .world import Thing, World

# INDEX, VERTEX, UNIFORM and STORAGE.
DRAWN_AND_BOUND = 16 | 32 | 64 | 128
ONE_COLORS = [format for format in COLOR_FORMATS if format not in FOUR_COLORS]


def of_create(change: Callable[[Random, Call], None]) -> Fault:
    """A fault of a createBundleEncoder: made of a function that may change all of its call."""
    def fault(world: World, encoder: str, on: str, calls: list[Call]) -> None:
        call = copy.deepcopy(calls[0])
        change(world.random, call)
        calls[0] = call
    return fault


@of_create
def too_many_colors(random: Random, call: Call) -> None:
    call["colors"] += [random.choice([None, "rgba8unorm"])] * (MOST_COLORS + random.choice([1, 1, 1, 2, 40]) - len(call["colors"]))


@of_create
def depth_as_color(random: Random, call: Call) -> None:
    at = random.randint(0, len(call["colors"]))
    call["colors"][at:at + random.choice([0, 1])] = [random.choice(DEPTH_FORMATS)]


@of_create
def color_as_depth(random: Random, call: Call) -> None:
    call["depth"] = random.choice(COLOR_FORMATS)


@of_create
def no_targets(random: Random, call: Call) -> None:
    call.pop("depth", None)
    call["colors"] = [None] * random.choice([0, 1, MOST_COLORS, MOST_COLORS, MOST_COLORS + 1])


@of_create
def wrong_samples(random: Random, call: Call) -> None:
    call["samples"] = random.choice([0, 2, 3, 5, 8, GREATEST_32])


@of_create
def no_four_samples(random: Random, call: Call) -> None:
    call["samples"] = 4
    call["colors"] = [*call["colors"], random.choice(ONE_COLORS)][-MOST_COLORS:]


@of_create
def too_many_bytes(random: Random, call: Call) -> None:
    """Rule 411, where the limit is named."""
    if limit(fixed_function.BYTES_LIMIT):
        fixed_function.too_many_bytes(random, call["colors"])


CREATE_FAULTS = [
    too_many_colors, depth_as_color, color_as_depth, no_targets, wrong_samples, no_four_samples, too_many_bytes, too_many_bytes,
]


def target_of(world: World, begin: Call) -> Target | None:
    """What a pass draws to, by its begin, which is good."""
    textures = [None if color is None else known(world.views, color["view"]).texture.call for color in begin["colors"]]
    depth = known(world.views, begin["depth"]["view"]).texture.call if "depth" in begin else None
    some = next((texture for texture in [*textures, depth] if texture is not None), None)
    formats = [None if texture is None else texture["format"] for texture in textures]
    read_only = {aspect for aspect in ASPECTS if begin.get("depth", {}).get(f"{aspect}ReadOnly")}
    return None if some is None else Target(begin, formats, None if depth is None else depth["format"], some["samples"], read_only, {})


def insert(world: World, on: str, calls: list[Call], bundles: list[Thing]) -> None:
    """Bundles are executed at the begin of a pass, or anywhere in it."""
    at = world.random.choice([1, 1, world.random.randint(1, len(calls) - 1)])
    calls.insert(at, {"do": "executeBundles", "on": on, "bundles": [thing.name for thing in bundles]})


def beside(world: World, target: Target, bad: list[Thing]) -> list[Thing]:
    """A bad bundle alone or with one that is good, before or after it."""
    random = world.random
    good = [new_bundle(world, own_target(world, target))] if random.random() < 0.4 else []
    return random.sample([*good, *bad], len(good) + len(bad))


def other_targets(world: World, encoder: str, on: str, calls: list[Call]) -> None:
    """A bundle that agrees with the pass but for one thing."""
    target = target_of(world, calls[0])
    own = None if target is None else almost(world.random, target)
    if target is not None and own is not None:
        insert(world, on, calls, beside(world, target, [new_bundle(world, own)]))


def almost(random: Random, target: Target) -> Target | None:
    """What is drawn to but for one thing, or None where that leaves nothing, or cannot be."""
    own, depth, samples = target.signature()
    formats, kind = list(own), random.choice([0, 1, 2, 3, 4, 5, 6, 7, 7])
    colors = FOUR_COLORS if samples == 4 else COLOR_FORMATS
    if kind == 0:
        formats = formats[:-1]
    elif kind == 1:
        formats.append(random.choice(colors))
    elif kind == 2:
        formats.insert(random.randint(0, max(len(formats) - 1, 0)), None)
    elif kind == 3 and formats:
        at = random.randrange(len(formats))
        formats[at] = random.choice([format for format in [None, *colors] if format != formats[at]])
    elif kind == 4:
        formats.reverse()
    elif kind == 5:
        depth = random.choice(DEPTH_FORMATS) if depth is None else None
    elif kind == 6 and depth is not None:
        depth = random.choice([format for format in DEPTH_FORMATS if format != depth])
    else:
        samples = 5 - samples
    if len(formats) > MOST_COLORS or not any(formats) and depth is None or samples == 4 and set(formats) & set(ONE_COLORS):
        return None
    return Target(create_call(formats, depth, samples, target.read_only), formats, depth, samples, set(target.read_only), {})


def not_read_only(world: World, encoder: str, on: str, calls: list[Call]) -> None:
    """An aspect of the depth becomes read-only in the pass, be it one that the format does not have; and the bundle has only others so."""
    random, begin = world.random, copy.deepcopy(calls[0])
    if "depth" in begin:
        for aspect in random.sample(ASPECTS, random.choice([1, 1, 2])):
            begin["depth"] = {key: value for key, value in begin["depth"].items() if key not in (f"{aspect}Load", f"{aspect}Store")}
            begin["depth"][f"{aspect}ReadOnly"] = True
        calls[0], target = begin, target_of(world, begin)
        assert target is not None
        read_only = set(random.sample(ASPECTS, random.choice([0, 1, 1, 2])))
        formats, depth, samples = target.formats, target.depth, target.samples
        own = Target(create_call(formats, depth, samples, read_only), formats, depth, samples, read_only, {})
        more = [almost(random, target)] if random.random() < 0.15 else []
        insert(world, on, calls, beside(world, target, [new_bundle(world, one) for one in [own, *more] if one is not None]))


def invalid_bundle(world: World, encoder: str, on: str, calls: list[Call]) -> None:
    """A bundle that is invalid: of an encoder that is, by what was recorded, or since it comes of a second finish."""
    target = target_of(world, calls[0])
    bad = [thing for thing in world.bundles if not thing.good and not thing.dropped]
    if target is not None:
        if not bad or world.random.random() < 0.2:
            fault = world.random.choice(CREATE_FAULTS)
            bad = [new_bundle(world, own_target(world, target), spoil=lambda *what: fault(what[0], what[1], *what[1:]))]
        insert(world, on, calls, beside(world, target, [world.random.choice(bad[-6:])]))


def unset(world: World, encoder: str, on: str, calls: list[Call]) -> None:
    """Bundles are executed right before a draw, or between what is set for it, be it none."""
    random, found, target = world.random, places(calls, *WORK), target_of(world, calls[0])
    if target is not None:
        at = first_or_any(random, found) if found else len(calls) - 1
        at = random.choice([at, at, max(at - 1, 1), max(at - 2, 1)])
        none = {"do": "executeBundles", "on": on, "bundles": []}
        calls.insert(at, none if random.random() < 0.5 else executes(world, on, target, False))


def beside_the_pass(world: World, encoder: str, on: str, calls: list[Call]) -> None:
    """A bundle that uses a buffer which the pass uses, or samples what it attaches, in the same role or in one that clashes."""
    random, target = world.random, target_of(world, calls[0])
    if target is None:
        return
    target.uses.update({part: "attachment" for part in attached_parts(world, calls[0])})
    group = sampled_attachment(world, target, True) if random.random() < 0.4 else None
    shared = {part[1] for part, _ in parts_of(world, calls[1:-1]) if part[0] == "b"}
    buffers = [
        thing for thing in usable(world, world.buffers) if thing.name in shared and thing.call["usage"] & DRAWN_AND_BOUND == DRAWN_AND_BOUND
    ]
    body: list[Call] = []
    if group is None and buffers:
        thing = random.choice(buffers)
        group = storage_of(world, thing) if random.random() < 0.5 and thing.call["size"] >= 16 else None
        settings: list[Call] = [
            {"do": "setVertexBuffer", "slot": 7},
            {"do": "setIndexBuffer", "format": "uint16", "offset": thing.call["size"] // 2 * 2},
        ]
        setting = random.choice(settings)
        body = [{**setting, "buffer": thing.name}]
    if group is not None:
        body = [{"do": "setBindGroup", "index": 3, "group": group.name}]
    if group is not None or buffers:
        insert(world, on, calls, [bundle_of(world, own_target(world, target), body)])


def storage_of(world: World, buffer: Thing) -> Thing:
    """A group that binds the first bytes of a buffer as storage, which is written or not."""
    kind = {"kind": world.random.choice(["storage", "storage", "read-only-storage"]), "dynamic": False, "minSize": 0}
    layout = new_layout(world, [{"binding": 0, "visibility": world.random.choice([0, 2]), **kind}])
    group = world.make(
        "k", {"do": "createBindGroup", "layout": layout.name, "entries": [{"binding": 0, "buffer": buffer.name, "size": 16}]}, True
    )
    group.bound, group.shape = [(layout.entries[0], [("b", buffer.name, 0, 16)])], layout.shape
    world.groups.append(group)
    return group


def attached_parts(world: World, begin: Call) -> list[Cell]:
    """The subresources of the views that a begin attaches, where their mip level and layer are known."""
    views = [known(world.views, color["view"]) for color in begin["colors"] if color is not None]
    found = [(view.of[0], view.of[1]["baseMip"], view.of[1].get("baseLayer", 0)) for view in views if hasattr(view, "of")]
    return [part for spot in found for part in spot_parts(spot)]


EXECUTE_FAULTS = [other_targets] * 4 + [not_read_only] * 3 + [invalid_bundle, unset, unset] + [beside_the_pass] * 4
