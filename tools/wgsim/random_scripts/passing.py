"""Scripts on passes: dispatches of what is bound, and draws to what is attached, in passes of one or two encoders at once, with commands
in a wrong order or of a wrong kind, and with drops, destroys and completions before and after.

The commands of an encoder are planned as a list of calls before they are added, and what they name is made before; so those of two
encoders can be mixed.
"""

from __future__ import annotations

from typing import TYPE_CHECKING, Any

from . import states
from .bindings import is_written
from .bundling import bare_calls, bundle_alone, render_calls
from .commands import clear_buffer, copy_buffer, write_buffer, write_texture
from .dispatching import (
    INDIRECT, bound_by, buffers_in, kit, new_layout, new_pipeline, offsets_for, pick, pool, pool_buffer, pool_texture, set_call,
    size_of,
)
from .grouping import drop_all, usable
from .pass_faults import places, some_begin, spoil
from .pipelining import render_pipelines
from .querying import resolve_queries, some_set
from .regions import TEXELS, extent
from .render_faults import spoil_bundle, spoil_render
from .rendering import PAST
from .resources import COLOR_FORMATS
from .targets import multisampled_pool, pool_target, target_pool
from .world import Thing, World
from .worlds import complete, last_before_loss, maps, scope, work_done

if TYPE_CHECKING:
    from random import Random

    from .handed import Act, Call, Groups, Now

BUDGETS = [2**53 - 1] * 16 + [40_000, 4_000]


def passes(random: Random, longest: int = 10, renders: float = 0.1, queries: float = 0.2, bundled: float = 0.08) -> tuple[int, list[Call]]:
    """A budget, and calls; so many of the passes are render passes, so many of these have a query set, and before so many of their draws
    bundles are executed."""
    world = World(random, random.choice([0.05, 0.3, 0.6] if renders < 0.5 else [0.02, 0.05, 0.3, 0.5]))
    world.renders, world.queries, world.bundled = renders, queries, bundled
    pool(world)
    if random.random() < 3 * renders:
        target_pool(world)
    kit(world)
    more = [
        (RENDER_ACTS, RENDER_WEIGHTS, renders > 0.5),
        (QUERY_ACTS, QUERY_WEIGHTS, queries > 0.5),
        (BUNDLE_ACTS, BUNDLE_WEIGHTS, bundled > 0.3),
    ]
    acts, weights = [sum([one[place] for one in more if one[2]], start) for place, start in enumerate([ACTS, WEIGHTS])]
    count = random.randint(min(3, longest), longest)
    last = last_before_loss(random, count, 0.12)
    for act in range(count):
        if act == last:
            world.lose()
        if act == 0 and random.random() < 0.7:
            without_faults(world)
        else:
            random.choices(acts, weights)[0](world)
    if random.random() < 0.5:
        drop_all(world)
        world.complete(world.issued)
    return random.choice(BUDGETS), world.calls


def rendering(random: Random, longest: int = 10) -> tuple[int, list[Call]]:
    """The same, mostly of render passes."""
    return passes(random, longest, 0.85)


def queries(random: Random) -> tuple[int, list[Call]]:
    """The same, with a query set in most of the passes, and resolves between them."""
    return passes(random, 10, 0.9, 0.8)


def bundles(random: Random) -> tuple[int, list[Call]]:
    """The same, with bundles in most of the passes."""
    return passes(random, 10, 0.9, 0.1, 0.5)


class Plan:
    """The commands of an encoder that is made later, with the things that they name, or bind where they do not name them. A plan is
    good where its commands leave no rule unmet; it clashes where a usage scope is to do so."""

    def __init__(self, encoder: str) -> None:
        self.encoder = encoder
        self.good = True
        self.clashes = False
        self.calls: list[Call] = []
        self.named: list[Thing] = []
        self.bound: list[Thing] = []


def some_pipeline(world: World) -> Thing:
    """A pipeline for which there are groups; at times a new one."""
    random = world.random
    old = [thing for thing in usable(world, world.pipelines) if hasattr(thing, "layouts") and thing.layouts is not None]
    return random.choice(old[-4:]) if old and random.random() < 0.85 else kit(world)


def clashing(world: World, wanted: str | None, counts: str | None) -> tuple[Thing, Groups] | None:
    """A pipeline that asks for what may clash, and the groups and offsets that do; or None."""
    for _ in range(4):
        pipeline = some_pipeline(world)
        entries = [entry for layout in pipeline.own_layouts() for entry in layout.entries if entry["kind"] != "sampler"]
        if any(is_written(entry) for entry in entries) and (len(entries) > 1 or counts is not None and wanted == "scope"):
            found = bound_by(world, pipeline, wanted, counts)
            if found is not None:
                return pipeline, found
    return None


def dispatch_call(world: World, on: str, counts: str | None) -> Call:
    """A dispatch, or an indirect one whose counts stand in a buffer; at times the last of it."""
    random = world.random
    if counts is not None:
        last = (size_of(world, counts) - 12) // 4 * 4
        return {"do": "dispatchIndirect", "on": on, "buffer": counts, "offset": random.choice([0, last, 4 * random.randint(0, last // 4)])}
    call = {"do": "dispatch", "on": on, "x": random.choice([1, 4, 0, 65_535])}
    return {**call, **random.choice([{}, {}, {"y": random.choice([1, 2, 0, 65_535])}, {"z": 2}, {"y": 3, "z": random.choice([0, 65_535])}])}


def dispatches(world: World, on: str, wanted: str | None) -> list[Call]:
    """The settings and dispatches of a pass: what was set before is set again at times, and the pipeline anew. A group may be set at the
    end, for no dispatch."""
    random = world.random
    calls: list[Call] = []
    now: Now = {}
    for number in range(random.choice([1, 1, 2, 2, 3, 4])):
        buffer = pick(world, buffers_in(world, INDIRECT)) if random.random() < 0.35 else None
        counts = None if buffer is None or buffer.call["size"] < 12 else buffer.name
        chosen = clashing(world, wanted, counts) if wanted is not None and number == 0 else None
        pipeline = chosen[0] if chosen is not None else some_pipeline(world)
        found = chosen[1] if chosen is not None else bound_by(world, pipeline, None, counts)
        if found is None:
            continue
        settings: list[tuple[object, object, Call]] = []
        settings.append((("pipeline",), pipeline.name, {"do": "setPipeline", "on": on, "pipeline": pipeline.name}))
        for index, (group, offsets) in found.items():
            settings.append(((index,), (group.name, offsets), set_call(random, on, index, group, offsets)))
        settings = [one for one in settings if now.get(one[0]) != one[1] or random.random() < 0.3]
        now.update({key: value for key, value, _ in settings})
        random.shuffle(settings)
        calls += stray(world, on, [index for index in range(4) if index not in found], now)
        calls += [call for _, _, call in settings]
        calls += [dispatch_call(world, on, counts) for _ in range(random.choice([1, 1, 1, 2]))]
    one = pick(world, [thing for thing in usable(world, world.groups) if hasattr(thing, "shape")])
    if one is not None and random.random() < 0.15:
        calls.append(set_call(random, on, random.randrange(4), one, offsets_for(world, one)))
    return calls


def stray(world: World, on: str, free: list[int], now: Now) -> list[Call]:
    """Settings at an index that no group is asked for at, or that are replaced later; debug groups."""
    random = world.random
    calls = []
    group = pick(world, [thing for thing in usable(world, world.groups) if hasattr(thing, "shape")])
    if group is not None and free and random.random() < 0.2:
        index, offsets = random.choice(free), offsets_for(world, group)
        now[(index,)] = (group.name, offsets)
        calls.append(set_call(random, on, index, group, offsets))
    if random.random() < 0.08:
        calls += [{"do": "pushDebugGroup", "on": on}, {"do": "popDebugGroup", "on": on}]
    return calls


def one_pass(world: World, plan: Plan) -> None:
    """A pass of either kind, good as a rule; else with a fault or two."""
    random = world.random
    is_render = random.random() < world.renders
    on = world.new_name("r" if is_render else "q")
    fault = world.has_fault()
    if is_render:
        wanted = random.choice([None] * 16 + ["overlap", "scope", "scope", "scope", *PAST]) if fault else None
        calls, clashes = render_calls(world, plan.encoder, on, wanted)
    else:
        wanted = random.choice([None] * 6 + ["overlap", "scope", "scope"]) if fault else None
        body = dispatches(world, on, wanted)
        states.in_compute_pass(random, on, body)
        calls = [{"do": "beginComputePass", "on": plan.encoder, "as": on}, *body, {"do": "end", "on": on}]
        clashes = wanted == "scope"
    if fault and wanted is None:
        (spoil_render if is_render else spoil)(world, plan.encoder, on, calls)
    plan.good = plan.good and not fault
    plan.clashes = plan.clashes or clashes
    if not fault and random.random() < 0.12:
        calls += again(world, on, calls)
    if random.random() < 0.1:
        calls += late_on_pass(world, on, is_render)
    plan.calls += calls


def again(world: World, on: str, calls: list[Call]) -> list[Call]:
    """The same pass once more, under another name."""
    name = world.new_name("a")
    return [{**call, **({"on": name} if call.get("on") == on else {"as": name})} for call in calls]


def late_on_pass(world: World, on: str, is_render: bool) -> list[Call]:
    """Calls on a pass after its end."""
    random, buffer = world.random, world.buffers[0].name
    calls: list[Call] = [{"do": "end"}, {"do": "popDebugGroup"}, {"do": "pushDebugGroup"}]
    if is_render:
        calls += [
            {"do": "draw", "vertices": 1},
            {"do": "drawIndexed", "indices": 1},
            {"do": "setVertexBuffer", "slot": 9, "buffer": buffer},
        ]
        calls += [{"do": word, "buffer": buffer, "offset": 1} for word in ("drawIndirect", "drawIndexedIndirect")]
        calls += [{"do": "beginOcclusionQuery", "index": random.choice([0, 1])}, {"do": "endOcclusionQuery"}]
        calls.append({"do": "setIndexBuffer", "buffer": buffer, "format": "uint32", "offset": 1})
    else:
        calls += [{"do": "dispatch", "x": 1}, {"do": "dispatchIndirect", "buffer": buffer, "offset": 1}]
    pipelines = world.render_pipelines if is_render else world.pipelines
    calls += [{"do": "setPipeline", "pipeline": thing.name} for thing in pipelines[-1:]]
    calls += [{"do": "setBindGroup", "index": 0, "group": thing.name} for thing in world.groups[-1:]]
    calls += states.late(random, is_render)
    return [{**call, "on": on} for call in random.sample(calls, random.choice([1, 1, 2]))]


def outside(world: World, plan: Plan) -> None:
    """Commands on the encoder between passes. What they need is made before."""
    random = world.random
    encoder = Thing(plan.encoder, {}, True)
    for _ in range(random.choice([0, 0, 1, 1, 2])):
        good = not world.has_fault() or random.random() < (0.8 if world.renders < 0.5 else 0.95)
        kept, world.calls = world.calls, []
        if random.random() < world.queries:
            resolve_queries(world, encoder, good)
        else:
            random.choice([clear_buffer, copy_buffer, image_copy, image_copy] if good else [clear_buffer, copy_buffer])(
                world, encoder, good
            )
        added, world.calls = world.calls, kept
        world.calls += [call for call in added if "on" not in call]
        plan.calls += [call for call in added if "on" in call]
        plan.good = plan.good and good
    if random.random() < 0.06:
        plan.calls += [{"do": "pushDebugGroup", "on": plan.encoder}, {"do": "popDebugGroup", "on": plan.encoder}]
    if random.random() < 0.04:
        plan.calls.append(states.marker(random, plan.encoder))
    if world.has_fault() and random.random() < 0.06:
        plan.calls.append({"do": random.choice(["pushDebugGroup", "popDebugGroup"]), "on": plan.encoder})
        plan.good = False


def image_copy(world: World, encoder: Thing, good: bool) -> None:
    """A copy of a layer of a mip level of what was bound, or of a slice or some slices: to another layer, or from or to a buffer."""
    random = world.random
    images = [thing for thing in usable(world, world.textures) if not thing.destroyed and thing.call["samples"] == 1]
    image = pick(world, [thing for thing in images if thing.call["usage"] & 3 == 3 and thing.call["format"] in COLOR_FORMATS])
    if image is None:
        return
    mip = random.randrange(image.call["mips"])
    width, height, layers = extent(image.call, mip)
    at, other = random.randrange(layers), random.randrange(layers)
    size = [width, random.choice([height, height, 1]), 1]
    if at != other and image.call["dim"] == "2d":
        call = {"do": "copyTextureToTexture", "on": encoder.name, "source": image.name, "target": image.name, "size": size}
        world.add({**call, "sourceMip": mip, "targetMip": mip, "sourceOrigin": [0, 0, at], "targetOrigin": [0, 0, other]})
        return
    if image.call["dim"] == "3d":
        size[2] = random.choice([1, 1, layers - at])
    bytes_of = 256 * (size[1] * size[2] - 1) + width * TEXELS[image.call["format"]]
    buffers = [thing for thing in usable(world, world.buffers) if not thing.destroyed and not thing.mapped]
    buffer = pick(world, [thing for thing in buffers if thing.call["usage"] & 12 == 12 and thing.call["size"] >= bytes_of])
    if buffer is not None:
        word = random.choice(["copyBufferToTexture", "copyTextureToBuffer"])
        spot = {"texture": image.name, "mip": mip, "origin": [0, 0, at], "size": size}
        world.add({"do": word, "on": encoder.name, "buffer": buffer.name, "bytesPerRow": 256, "rowsPerImage": size[1], **spot})


def end_gone(random: Random, plan: Plan) -> None:
    """The last pass is not ended, and nothing follows on the encoder as a rule."""
    last = places(plan.calls, "end")[-1]
    on = plan.calls[last]["on"]
    following = [call for call in plan.calls[last + 1:] if call["on"] == on or random.random() < 0.1]
    plan.calls[last:] = following
    if random.random() < 0.3:
        plan.calls.insert(0, {"do": "pushDebugGroup", "on": plan.encoder})
    plan.good = False


def planned(world: World) -> Plan:
    """The commands of one encoder, which is not made yet."""
    if len(buffers_in(world, INDIRECT)) < 2:
        pool_buffer(world)
    plan = Plan(world.new_name("e"))
    outside(world, plan)
    for _ in range(world.random.choice([1, 1, 1, 2, 3])):
        one_pass(world, plan)
        outside(world, plan)
    if world.has_fault() and world.random.random() < 0.12 and places(plan.calls, "end"):
        end_gone(world.random, plan)
    everything = world.resources() + world.views + world.groups + world.pipelines + world.render_pipelines + world.bundles
    names = {name for call in plan.calls for name in names_in(call)}
    plan.named = [thing for thing in everything if thing.name in names]
    plan.bound = behind(world, plan.named)
    return plan


def behind(world: World, things: list[Thing]) -> list[Thing]:
    """What takes memory and stands behind some things: what is bound in a group, attached by a view, or used by a bundle."""
    names = {cell[1] for thing in things for _, cells in getattr(thing, "bound", []) for cell in cells}
    names |= {thing.texture.name for thing in things if hasattr(thing, "texture")}
    names |= {name for thing in things for name in getattr(thing, "behind", ())}
    return [thing for thing in world.buffers + world.textures if thing.name in names]


def names_in(value: Any) -> list[str]:
    """The texts in a call, among them the names that it uses."""
    if isinstance(value, str):
        return [value]
    items = value.values() if isinstance(value, dict) else value if isinstance(value, list) else []
    return [name for item in items for name in names_in(item)]


def make_encoder(world: World, plan: Plan) -> Thing:
    """The encoder of a plan, at times after something was dropped that its commands name, or that is bound."""
    random = world.random
    if random.random() < (0.3 if plan.clashes else 0.04):
        drop_some(world, plan.named)
    elif random.random() < 0.06:
        drop_some(world, [thing for thing in plan.bound + world.views if thing not in plan.named])
    plan.good = plan.good and not any(thing.dropped for thing in plan.named)
    thing = Thing(plan.encoder, {"do": "createEncoder"}, not world.is_lost)
    world.add({"do": "createEncoder", "as": plan.encoder})
    world.encoders.append(thing)
    return thing


def drop_some(world: World, things: list[Thing]) -> None:
    kept = [thing for thing in things if not thing.dropped]
    for thing in world.random.sample(kept, min(len(kept), world.random.choice([1, 1, 2]))):
        world.drop(thing)


def let_go(world: World, plans: list[Plan]) -> None:
    """A group, a view or a bundle that a plan names is dropped, with all that stands behind it and the views of that, in some order; some
    of it may be destroyed."""
    random = world.random
    one = pick(world, [thing for plan in plans for thing in plan.named if behind(world, [thing])])
    if one is None:
        return
    things = behind(world, [one]) + [thing for thing in world.groups if thing.name in getattr(one, "names", ())]
    things += [thing for thing in world.views if getattr(thing, "texture", None) in things and thing is not one] + [one]
    for thing in random.sample(things, len(things)):
        if thing in world.resources() and not thing.dropped and not thing.destroyed and random.random() < 0.15:
            world.destroy(thing)
        if not thing.dropped and random.random() < 0.9:
            world.drop(thing)


def mixed(random: Random, lists: list[list[Call]]) -> list[Call]:
    """The items of some lists in one, each list in its order."""
    lists, found = [list(one) for one in lists if one], []
    while lists:
        one = random.choice(lists)
        found.append(one.pop(0))
        lists = [one for one in lists if one]
    return found


def work(world: World) -> None:
    """One or two encoders with passes, which are finished and submitted as a rule."""
    random = world.random
    plans = [planned(world) for _ in range(random.choice([1, 1, 1, 2]))]
    encoders = [make_encoder(world, plan) for plan in plans]
    if random.random() < 0.15:
        drop_some(world, [thing for plan in plans for thing in plan.named + plan.bound])
    elif random.random() < 0.06:
        let_go(world, plans)
    calls = mixed(random, [plan.calls for plan in plans])
    early = random.randrange(len(calls)) if random.random() < 0.02 else None
    for place, call in enumerate(calls):
        if place == early:
            world.drop(encoders[0])
        world.add(call)
    made = []
    for plan, encoder in zip(plans, encoders):
        encoder.good = encoder.good and plan.good
        if random.random() < 0.02:
            world.drop(encoder)
        if random.random() < 0.95:
            made.append((plan, world.finish(encoder)))
            if random.random() < 0.12:
                late(world, plan)
    between(world, plans)
    good = [one for _, one in made if one.good]
    for _, one in made:
        if not one.good and random.random() < 0.25:
            submit(world, plans, [one])
    if good and random.random() < 0.93:
        submit(world, plans, good if random.random() < 0.93 else [one for _, one in made])
    if random.random() < 0.2:
        drop_some(world, [thing for plan in plans for thing in plan.named + plan.bound])
    elif random.random() < 0.2:
        let_go(world, plans)
    if random.random() < 0.4:
        complete(world)


def without_faults(world: World) -> None:
    """Work that is good; so most scripts have some that is accepted."""
    fault, world.fault = world.fault, 0
    work(world)
    world.fault = fault


def submit(world: World, plans: list[Plan], ones: list[Thing]) -> None:
    """A submit of some command buffers; what they use may be gone."""
    used = [thing for plan in plans for thing in plan.named + plan.bound]
    is_gone = any(thing.destroyed or thing.mapped for thing in used)
    kept = world.issued
    world.submit(ones)
    if is_gone:
        world.issued = kept
    if ones and world.random.random() < 0.03:
        world.submit(ones)


def between(world: World, plans: list[Plan]) -> None:
    """What may be done before the submit: a buffer that is mapped is unmapped, something is destroyed or dropped, or written."""
    random = world.random
    for thing in dict.fromkeys(thing for plan in plans for thing in plan.named + plan.bound):
        if thing.mapped and random.random() < 0.7:
            world.unmap(thing)
    bound = list(dict.fromkeys(thing for plan in plans for thing in plan.bound if not thing.destroyed))
    sets = [thing for thing in world.query_sets if not thing.destroyed and any(thing in plan.named for plan in plans)]
    if sets and random.random() < 0.08:
        world.destroy(random.choice(sets))
    if bound and random.random() < 0.08:
        for thing in random.sample(bound, min(len(bound), random.choice([1, 2]))):
            world.destroy(thing)
    if random.random() < 0.08:
        drop_some(world, [thing for plan in plans for thing in plan.named + plan.bound] + world.views)
    elif random.random() < 0.06:
        let_go(world, plans)
    if random.random() < 0.1:
        write(world)


def late(world: World, plan: Plan) -> None:
    """Calls on an encoder that has ended, and on its passes; at times a pass that is begun only then."""
    random = world.random
    begun = [(call["as"], call["do"] == "beginRenderPass") for call in plan.calls if call["do"] in ("beginComputePass", "beginRenderPass")]
    kind = random.randrange(3)
    if kind == 0:
        calls: list[Call] = [{"do": "pushDebugGroup"}, {"do": "insertDebugMarker"}, {"do": "clearBuffer", "buffer": world.buffers[0].name}]
        if random.random() < world.queries:
            resolve = {"do": "resolveQuerySet", "queries": some_set(world).name, "first": 0, "count": 1}
            calls = [{**resolve, "buffer": world.buffers[0].name, "offset": 0}]
        world.add({**random.choice(calls), "on": plan.encoder})
    elif kind == 1:
        for call in late_on_pass(world, *random.choice(begun)):
            world.add(call)
    else:
        name, is_render = world.new_name("d"), random.random() < max(world.renders, 0.2)
        world.add(some_begin(world, plan.encoder, name, is_render))
        for call in late_on_pass(world, name, is_render):
            world.add(call)
    if random.random() < 0.2:
        world.add({"do": "finish", "on": plan.encoder, "as": world.new_name("c")})


def spoiled(world: World) -> None:
    """A few encoders, each with one render pass that has a fault, and is not submitted as a rule."""
    random = world.random
    for _ in range(random.choice([2, 3, 4])):
        encoder, on = world.new_name("e"), world.new_name("r")
        wanted = random.choice([None] * 24 + ["overlap", "overlap", "scope", *PAST])
        calls, _ = render_calls(world, encoder, on, wanted, counts=(1,))
        if wanted is None:
            spoil_render(world, encoder, on, calls)
        thing = Thing(encoder, {"do": "createEncoder"}, False)
        world.encoders.append(thing)
        world.add({"do": "createEncoder", "as": encoder})
        for call in calls:
            world.add(call)
        made = world.finish(thing)
        if random.random() < 0.1:
            world.submit([made])


def resolves(world: World) -> None:
    """A few encoders of a resolve or two, half of them with a fault."""
    random = world.random
    for _ in range(random.choice([1, 2, 3, 4])):
        encoder, good = world.encoder(), random.random() < 0.4
        for number in range(random.choice([1, 1, 2])):
            resolve_queries(world, encoder, good or number > 0)
        encoder.good = good
        made = world.finish(encoder)
        if random.random() < (0.8 if good else 0.1):
            world.submit([made])


def bundled(world: World) -> None:
    """Bundles that no pass is there for, some of them with a fault, and such whose encoder stays open."""
    for _ in range(world.random.choice([2, 3, 4, 5])):
        bundle_alone(world, spoil_bundle)


def bare(world: World) -> None:
    """A pass of few commands: with nothing set, or of a pipeline that asks for nothing."""
    random = world.random
    if random.random() < world.renders:
        on = world.new_name("r")
        calls = bare_calls(world, None, on)
        encoder = world.encoder()
        for call in [{**calls[0], "on": encoder.name}, *calls[1:]]:
            world.add(call)
        world.submit([world.finish(encoder)])
        return
    none: list[Thing] = []
    pipeline = new_pipeline(world, random.choice([none, [new_layout(world, [])]]))
    encoder, on = world.encoder(), world.new_name("q")
    world.add({"do": "beginComputePass", "on": encoder.name, "as": on})
    if random.random() < 0.8:
        world.add({"do": "setPipeline", "on": on, "pipeline": pipeline.name})
        world.add(dispatch_call(world, on, None))
        if random.random() < 0.3:
            for call in stray(world, on, [0, 1, 3], {}) + [dispatch_call(world, on, None)]:
                world.add(call)
    world.add({"do": "end", "on": on})
    world.submit([world.finish(encoder)])


def write(world: World) -> None:
    world.random.choice([write_buffer, write_buffer, write_texture])(world, True)


def more(world: World) -> None:
    """More of what there is, so that later work has it new."""
    if world.random.random() < world.queries / 2:
        world.query_set(not world.has_fault())
    elif world.random.random() < world.renders:
        targets: list[Act] = [pool_buffer, pool_target, multisampled_pool, target_pool]
        world.random.choice(targets)(world)
    else:
        others: list[Act] = [pool_buffer, pool_texture, kit]
        world.random.choice(others)(world)


def destroy(world: World) -> None:
    things = [thing for thing in world.resources() if not thing.destroyed]
    if len(things) > 2:
        world.destroy(world.random.choice(things))


def drop(world: World) -> None:
    """Of what was not dropped; what holds something else more often."""
    random = world.random
    kept = [thing for thing in world.everything() if not thing.dropped]
    holding = [thing for thing in kept if thing in world.groups + world.views + world.pipelines + world.render_pipelines]
    if kept:
        world.drop(random.choice(holding if holding and random.random() < 0.5 else kept))


def unmap(world: World) -> None:
    found = [thing for thing in world.buffers if thing.mapped]
    if found:
        world.unmap(world.random.choice(found))


ACTS: list[Act] = [work, bare, kit, more, write, destroy, drop, unmap, complete, maps, scope, work_done]
WEIGHTS = [40, 2, 4, 3, 5, 1, 3, 4, 4, 1, 3, 1]

# In scripts that are mostly of render passes these come besides.
RENDER_ACTS: list[Act] = [spoiled, render_pipelines]
RENDER_WEIGHTS = [25, 10]

# And in those of query sets and of bundles these.
QUERY_ACTS: list[Act] = [resolves]
QUERY_WEIGHTS = [12]
BUNDLE_ACTS: list[Act] = [bundled]
BUNDLE_WEIGHTS = [30]
