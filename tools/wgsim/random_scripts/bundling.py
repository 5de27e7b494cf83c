"""Render passes as a whole, with queries and bundles among their draws; the few that are bare; and bundle encoders.

A bundle has what it draws to in `target`, the parts that it uses in `parts`, each with its role in a usage scope, and in `names` what its
commands name.
"""

from __future__ import annotations

from typing import TYPE_CHECKING, Sequence

from . import states
from .dispatching import named, new_layout
from .drawing import draw_call, joins, new_render_pipeline, parts_of_group
from .fixed_function import fitting
from .grouping import usable
from .querying import with_queries
from .rendering import drawn
from .resources import COLOR_FORMATS, DEPTH_FORMATS
from .targets import FOUR_COLORS, MOST_COLORS, Target, begin

if TYPE_CHECKING:
    from .handed import Call, Cell, Spoil
    from .world import Thing, World

ASPECTS = ["depth", "stencil"]


def render_calls(
    world: World, encoder: str, on: str, wanted: str | None, counts: Sequence[int] = (0, 1, 1, 1, 2, 2, 3)
) -> tuple[list[Call], bool]:
    """The calls of a pass from its begin to its end, with one of so many settings with draws, and whether its usage scope clashes.

    `wanted` is what is to be wrong with it: `overlap`, `scope`, a key of PAST, or None.
    """
    random = world.random
    target = begin(world, encoder, on)

    def between(is_any: bool) -> list[Call]:
        return [executes(world, on, target, is_any)] if random.random() < world.bundled else []

    calls = drawn(world, on, target, wanted, counts, between)
    if random.random() < world.queries:
        with_queries(world, target.begin, on, calls)
    states.in_render_pass(world, on, target.begin, calls)
    return [target.begin, *calls, {"do": "end", "on": on}], target.clashes


def bare_calls(world: World, encoder: str | None, on: str) -> list[Call]:
    """A pass of no draw, or of draws by a pipeline that asks for nothing, or of bundles alone."""
    random = world.random
    target = begin(world, encoder, on)
    calls = []
    if random.random() < 0.6:
        none: list[Thing] = []
        layouts = random.choice([none, [new_layout(world, [])]])
        pipeline = new_render_pipeline(world, layouts, target.formats, target.depth, target.samples, target.read_only)
        calls.append({"do": "setPipeline", "on": on, "pipeline": pipeline.name})
        if not any(pipeline.vertex):
            calls.append(draw_call(world, on, "draw", pipeline, {}))
    while random.random() < world.bundled:
        calls.insert(random.choice([0, len(calls)]), executes(world, on, target, False))
    if random.random() < world.queries:
        with_queries(world, target.begin, on, calls)
    states.in_render_pass(world, on, target.begin, calls)
    return [target.begin, *calls, {"do": "end", "on": on}]


def executes(world: World, on: str, target: Target, is_any: bool) -> Call:
    """An executeBundles of bundles that agree with a pass: of one as a rule, of several, one of them twice at times, or of none."""
    random, found = world.random, []
    for _ in range(random.choice([0, 1, 1, 1, 1, 2, 2, 3])):
        thing = bundle_for(world, target, is_any)
        if thing is not None:
            found.append(thing)
    if found and random.random() < 0.15:
        found.insert(random.randint(0, len(found)), random.choice(found))
    return {"do": "executeBundles", "on": on, "bundles": [thing.name for thing in found]}


def bundle_for(world: World, target: Target, is_any: bool) -> Thing | None:
    """A bundle that agrees with a pass, and with its usage scope, often one that is there; or None."""
    random = world.random
    old = [thing for thing in usable(world, world.bundles) if hasattr(thing, "target") and agrees(thing.target, target)]
    old = [thing for thing in old if is_any or all(target.uses.get(part, role) == role for part, role in thing.parts)]
    if random.random() > 0.1:
        old = [
            thing for thing in old if not any(other.destroyed or other.mapped for other in world.resources() if other.name in thing.behind)
        ]
    thing = random.choice(old[-5:]) if old and random.random() < 0.55 else new_bundle(world, own_target(world, target, is_any), is_any)
    return thing if thing.good and joins(target, thing.parts, is_any) else None


def agrees(own: Target, target: Target) -> bool:
    """A bundle can be executed in a pass: it draws to the same, and does not write what is only read there."""
    return own.signature() == target.signature() and target.read_only <= own.read_only


def own_target(world: World, target: Target, is_any: bool = False) -> Target:
    """What a bundle draws to that is to agree with a pass. What is only read in the pass is so in the bundle, and at times more is. Where
    the bundle is to agree with the usage scope of the pass, that has what the pass uses."""
    random = world.random
    own, depth, samples = target.signature()
    formats = list(own) + [None] * random.choice([0, 0, 0, 1, MOST_COLORS - len(own)])
    formats = formats[:MOST_COLORS] if formats or depth is not None else formats
    read_only = {aspect for aspect in ASPECTS if aspect in target.read_only or random.random() < 0.12}
    return Target(create_call(formats, depth, samples, read_only), formats, depth, samples, read_only, {} if is_any else dict(target.uses))


def any_target(world: World) -> Target:
    """What a bundle may draw to, whatever passes there are."""
    random = world.random
    samples = random.choice([1, 1, 4])
    formats = [
        random.choice([None, *(FOUR_COLORS if samples == 4 else COLOR_FORMATS)])
        for _ in range(random.choice([0, 1, 1, 1, 2, 3, MOST_COLORS]))
    ]
    formats = fitting(formats)
    depth = random.choice([None, *DEPTH_FORMATS]) if any(formats) else random.choice(DEPTH_FORMATS)
    read_only = {aspect for aspect in ASPECTS if random.random() < 0.3}
    return Target(create_call(formats, depth, samples, read_only), formats, depth, samples, read_only, {})


def create_call(formats: Sequence[str | None], depth: str | None, samples: int, read_only: set[str]) -> Call:
    """A createBundleEncoder with all its keys but for its name."""
    call = {"do": "createBundleEncoder", "colors": formats, **({} if depth is None else {"depth": depth}), "samples": samples}
    return {**call, **{f"{aspect}ReadOnly": aspect in read_only for aspect in ASPECTS}}


def new_bundle(world: World, target: Target, is_any: bool = False, wanted: str | None = None, spoil: Spoil | None = None) -> Thing:
    """A bundle of an encoder of its own. Its calls may be spoiled by a function of the world, the encoder's name and the calls from its
    making to its finish. At times something that it names is dropped before, which is refused, or while it is recorded."""
    random, on = world.random, world.new_name("h")
    wanted = "scope" if is_any and wanted is None else wanted
    body = drawn(world, on, target, wanted, {None: (0, 1, 1, 1, 2), "scope": (1, 2, 2, 3)}.get(wanted, (1,)))
    states.in_bundle(random, on, body)
    calls = [target.begin, *body, {"do": "finishBundle"}]
    if spoil is not None:
        spoil(world, on, calls)
    names = {value for call in body for value in call.values() if isinstance(value, str)} - {on}
    things = [thing for thing in world.everything() if thing.name in names]
    if world.has_fault() and random.random() < 0.12:
        drop_one(world, things)
    good = wanted is None and spoil is None and not any(thing.dropped for thing in things)
    encoder = world.bundle_encoder(calls[0], good or calls[0] == target.begin, on)
    gone = random.randrange(len(calls)) if random.random() < 0.06 else None
    for at, call in enumerate(calls[1:-1]):
        if at == gone:
            drop_one(world, things)
        world.add(call)
    if random.random() < 0.01:
        world.drop(encoder)
    encoder.good = encoder.good and good
    return finished(world, encoder, target, body)


def bundle_of(world: World, target: Target, body: list[Call]) -> Thing:
    """A bundle of an encoder with some calls, each without what it is on."""
    encoder = world.bundle_encoder(target.begin)
    for call in body:
        world.add({**call, "on": encoder.name})
    return finished(world, encoder, target, body)


def finished(world: World, encoder: Thing, target: Target, body: list[Call]) -> Thing:
    """The finish of a bundle encoder, and at times calls on it after that, or a second finish."""
    random = world.random
    thing = world.finish_bundle(encoder)
    thing.target = Target(target.begin, target.formats, target.depth, target.samples, target.read_only, {})
    thing.parts = parts_of(world, body)
    thing.names = {value for call in body for value in call.values() if isinstance(value, str)} - {encoder.name}
    thing.behind = {part[1] for part, _ in thing.parts}
    thing.draws = states.draws_in(world, body)
    if random.random() < 0.04:
        world.add({**late_call(world), "on": encoder.name})
    if random.random() < 0.02:
        world.finish_bundle(encoder)
    return thing


def late_call(world: World) -> Call:
    """A call on a bundle encoder, to which nothing is asked after its finish."""
    buffer = world.buffers[0].name
    calls: list[Call] = [
        {"do": "pushDebugGroup"},
        {"do": "popDebugGroup"},
        {"do": "draw", "vertices": 1},
        {"do": "setVertexBuffer", "slot": 9, "buffer": buffer},
    ]
    calls += [{"do": "drawIndexed", "indices": 1}, {"do": "setIndexBuffer", "buffer": buffer, "format": "uint16", "offset": 1}]
    calls += [{"do": word, "buffer": buffer, "offset": 1} for word in ("drawIndirect", "drawIndexedIndirect")]
    calls += [{"do": "setPipeline", "pipeline": thing.name} for thing in world.render_pipelines[-1:]]
    calls += [{"do": "setBindGroup", "index": 0, "group": thing.name} for thing in world.groups[-1:]]
    return world.random.choice(calls + states.late(world.random, False))


def drop_one(world: World, things: list[Thing]) -> None:
    kept = [thing for thing in things if not thing.dropped]
    if kept:
        world.drop(world.random.choice(kept))


def parts_of(world: World, calls: list[Call]) -> list[tuple[Cell, str]]:
    """The parts that the calls on a bundle encoder use, whatever they leave unmet, each with its role in a usage scope."""
    found = []
    for call in calls:
        if states.is_null(call):
            continue
        if call["do"] == "setBindGroup":
            group = named(world.groups, call["group"])
            found += parts_of_group(group, call.get("offsets", [])) if group is not None and hasattr(group, "bound") else []
        elif "buffer" in call:
            found.append((("b", call["buffer"]), "read"))
    return list(dict.fromkeys(found))


def bundle_alone(world: World, spoil: Spoil) -> None:
    """A bundle that no pass is there for, spoiled half of the time; at times one whose bindings overlap or clash, or whose encoder stays
    open."""
    random = world.random
    target = own_target(world, begin(world, None, "none")) if random.random() < 0.3 else any_target(world)
    kind = random.random()
    if kind < 0.55:
        new_bundle(world, target, spoil=spoil)
    elif kind < 0.75:
        new_bundle(world, target, wanted=random.choice(["overlap", "scope", "scope", "scope", "vertices", "instances", "indices"]))
    elif kind < 0.85:
        encoder = world.bundle_encoder(target.begin)
        for call in drawn(world, encoder.name, target, None, (0, 1)):
            world.add(call)
    else:
        new_bundle(world, target)
