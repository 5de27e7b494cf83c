"""Ways to leave one rule of a compute pass unmet, and those of passes of either kind. A fault changes the list of the calls of a pass,
from its begin to its end, on an encoder of some name; what it needs is made before."""

from __future__ import annotations

from typing import TYPE_CHECKING, Callable, Sequence, TypeVar

from . import states
from .dispatching import INDIRECT, STEP, buffers_in, dynamic_of, known, named, near_group, new_group, new_layout, pick, rival, size_of
from .grouping import usable
from .querying import some_set
from .targets import begin

if TYPE_CHECKING:
    from random import Random

    from .handed import Call, Change, Fault
    from .world import Thing, World

Item = TypeVar("Item")
GREATEST_32, GREATEST_53 = 2**32 - 1, 2**53 - 1
WORK = ["dispatch", "dispatchIndirect", "draw", "drawIndexed", "drawIndirect", "drawIndexedIndirect"]


def places(calls: list[Call], *words: str) -> list[int]:
    """Where calls of some words stand."""
    return [at for at, call in enumerate(calls) if call["do"] in words]


def some_call(random: Random, calls: list[Call], *words: str) -> Call | None:
    """One of the calls of some words that do not unset by null, often the first, or None."""
    found = [calls[at] for at in places(calls, *words) if not states.is_null(calls[at])]
    return first_or_any(random, found) if found else None


def first_or_any(random: Random, things: Sequence[Item]) -> Item:
    """Often the first, since what comes after a rule that is unmet shows nothing, and since two faults then meet."""
    return things[0] if random.random() < 0.6 else random.choice(things)


def change_call(*words: str) -> Callable[[Change], Fault]:
    """A fault that changes one call of some words, if there is one: made of a function of the world and the call."""
    def decorate(change: Change) -> Fault:
        def fault(world: World, encoder: str, on: str, calls: list[Call]) -> None:
            call = some_call(world.random, calls, *words)
            if call is not None:
                change(world, call)
        return fault
    return decorate


@change_call("setPipeline")
def invalid_pipeline(world: World, call: Call) -> None:
    bad = [thing for thing in world.pipelines if not thing.good]
    if not bad or world.random.random() < 0.2:
        bad = [bad_pipeline(world)]
    call["pipeline"] = world.random.choice(bad).name


def bad_pipeline(world: World) -> Thing:
    layout = pick(world, world.pipeline_layouts)
    iface = [{"group": 4, "binding": 0, "kind": "sampler"}]
    name = "auto" if layout is None or world.random.random() < 0.3 else layout.name
    thing = world.make("p", {"do": "createComputePipeline", "layout": name, "iface": iface}, False)
    thing.layouts = None
    world.pipelines.append(thing)
    return thing


@change_call("setBindGroup")
def invalid_group(world: World, call: Call) -> None:
    bad = [thing for thing in world.groups if not thing.good]
    if not bad or world.random.random() < 0.2:
        layout = pick(world, [thing for thing in world.group_layouts if thing.entries]) or new_layout(world)
        bad = [world.make("k", {"do": "createBindGroup", "layout": layout.name, "entries": []}, False)]
        world.groups += bad
    call["group"] = world.random.choice(bad).name
    if world.random.random() < 0.5:
        call.pop("offsets", None)


@change_call("setBindGroup")
def index_past(world: World, call: Call) -> None:
    call["index"] = world.random.choice([4, 4, 4, 5, GREATEST_32])


@change_call("setBindGroup")
def offset_missing(world: World, call: Call) -> None:
    call["offsets"] = call.get("offsets", [])[:-1]


@change_call("setBindGroup")
def offset_more(world: World, call: Call) -> None:
    call["offsets"] = [*call.get("offsets", []), world.random.choice([0, 256, 4])]


def with_offsets(change: Callable[[World, Call, int], None]) -> Fault:
    """A fault of one setBindGroup that has offsets."""
    def fault(world: World, encoder: str, on: str, calls: list[Call]) -> None:
        found = [call for call in calls if call.get("offsets") and not states.is_null(call)]
        if found:
            call = first_or_any(world.random, found)
            call["offsets"] = list(call["offsets"])
            change(world, call, world.random.randrange(len(call["offsets"])))
    return fault


@with_offsets
def offset_unaligned(world: World, call: Call, at: int) -> None:
    call["offsets"][at] += world.random.choice([128, 128, 4, 255, 1])


@with_offsets
def offset_past(world: World, call: Call, at: int) -> None:
    """Just past the end, or far."""
    group = named(world.groups, call["group"])
    cells = dynamic_of(group) if group is not None and hasattr(group, "bound") else []
    if at < len(cells):
        _, name, _, high = cells[at]
        past = (size_of(world, name) - high) // STEP + 1
        call["offsets"][at] = world.random.choice([STEP * past, STEP * past, GREATEST_32 - 255])


@with_offsets
def offsets_turned(world: World, call: Call, at: int) -> None:
    """In another order, which may be good."""
    call["offsets"].reverse()


def no_pipeline(world: World, encoder: str, on: str, calls: list[Call]) -> None:
    first = min(places(calls, *WORK), default=0)
    calls[:first] = [call for call in calls[:first] if call["do"] != "setPipeline"]


def no_group(world: World, encoder: str, on: str, calls: list[Call]) -> None:
    call = some_call(world.random, calls, "setBindGroup")
    if call is not None:
        calls.remove(call)


def other_index(world: World, encoder: str, on: str, calls: list[Call]) -> None:
    call = some_call(world.random, calls, "setBindGroup")
    if call is not None:
        call["index"] = (call["index"] + 1) % 4


@change_call("setBindGroup")
def other_layout(world: World, call: Call) -> None:
    """A group of a layout that is almost equivalent."""
    group = named(world.groups, call["group"])
    layouts = [thing for thing in usable(world, world.group_layouts) if thing.entries and hasattr(thing, "shape")]
    layouts = [thing for thing in layouts if thing.shape == getattr(group, "shape", None)]
    if layouts:
        made = near_group(world, layouts[0])
        entries = known(world.group_layouts, made.call["layout"]).entries
        call.update(group=made.name, offsets=[0] * sum(entry.get("dynamic", False) for entry in entries))


@change_call("setBindGroup")
def other_owner(world: World, call: Call) -> None:
    """A group of a layout with the same entries that another pipeline has derived, or none has."""
    group = named(world.groups, call["group"])
    layout = group and named(usable(world, world.group_layouts + world.derived_layouts), group.call["layout"])
    other = rival(world, layout) if layout and layout.entries and hasattr(layout, "shape") else None
    made = new_group(world, other) if other is not None and other.good else None
    if made is not None and other is not None:
        call.update(group=made.name, offsets=[0] * sum(entry.get("dynamic", False) for entry in other.entries))


@change_call("dispatch")
def count_past(world: World, call: Call) -> None:
    call[world.random.choice(["x", "y", "z"])] = world.random.choice([65_536, 65_536, GREATEST_32])


def indirect(change: Change) -> Fault:
    """A fault of an indirect dispatch, which may stand in place of another one."""
    def fault(world: World, encoder: str, on: str, calls: list[Call]) -> None:
        found = places(calls, "dispatch", "dispatchIndirect")
        buffers = [thing for thing in buffers_in(world, INDIRECT) if thing.call["size"] >= 12]
        if found and buffers:
            at = first_or_any(world.random, found)
            if calls[at]["do"] == "dispatch":
                calls[at] = {"do": "dispatchIndirect", "on": on, "buffer": world.random.choice(buffers).name, "offset": 0}
            change(world, calls[at])
    return fault


@indirect
def indirect_invalid(world: World, call: Call) -> None:
    call["buffer"] = world.buffer(good=False).name


@indirect
def indirect_usage(world: World, call: Call) -> None:
    call["buffer"] = world.buffer(size=world.random.choice([8, 12, 16]), usage=12 | world.random.choice([0, 64, 128, 512])).name


@indirect
def indirect_offset(world: World, call: Call) -> None:
    call["offset"] += world.random.choice([1, 2, 3])


@indirect
def indirect_past(world: World, call: Call) -> None:
    size = size_of(world, call["buffer"])
    call["offset"] = world.random.choice([max(size // 4 * 4 - 8, 0), max(size // 4 * 4 - 8, 0), size, GREATEST_53 - 3, GREATEST_53])


def pop_too_many(world: World, encoder: str, on: str, calls: list[Call]) -> None:
    calls.insert(world.random.randint(1, len(calls) - 1), {"do": "popDebugGroup", "on": on})


def push_too_many(world: World, encoder: str, on: str, calls: list[Call]) -> None:
    calls.insert(world.random.randint(1, len(calls) - 1), {"do": "pushDebugGroup", "on": on})


def dead_pass(world: World, encoder: str, on: str, calls: list[Call]) -> None:
    """A second pass within the first, with commands and mostly an end of its own; at times it goes on after the end of the first. It may
    be of the other kind."""
    random, name = world.random, world.new_name("d")
    is_render = random.random() < 0.5
    is_alike = is_render == (calls[0]["do"] == "beginRenderPass")
    of_any = ("setBindGroup", "end", "pushDebugGroup", "popDebugGroup", "insertDebugMarker")
    fit = [call for call in calls[1:] if is_alike or call["do"] in of_any]
    dead = [{**call, "on": name} for call in random.sample(fit, random.randint(0, min(len(fit), 3)))]
    dead += [{"do": "end", "on": name}] * random.choice([0, 1, 1, 2])
    at = random.randint(1, len(calls) - 1)
    calls.insert(at, some_begin(world, encoder, name, is_render))
    for call in dead:
        at = random.randint(at + 1, len(calls))
        calls.insert(at, call)


def some_begin(world: World, encoder: str, name: str, is_render: bool) -> Call:
    """The begin of a pass that need not be good."""
    random = world.random
    if not is_render:
        return {"do": "beginComputePass", "on": encoder, "as": name}
    if random.random() < 0.3:
        return {"do": "beginRenderPass", "on": encoder, "as": name, "colors": random.choice([[], [None], [None] * 9])}
    return begin(world, encoder, name).begin


def on_encoder(world: World, encoder: str, on: str, calls: list[Call]) -> None:
    """A command on the encoder while the pass is open."""
    random, buffer = world.random, world.random.choice(world.buffers).name
    others: list[Call] = [
        {"do": "pushDebugGroup"}, {"do": "popDebugGroup"}, {"do": "insertDebugMarker"}, {"do": "clearBuffer", "buffer": buffer},
        {"do": "copyBufferToBuffer", "source": buffer, "sourceOffset": 1, "target": world.buffers[0].name, "targetOffset": 0, "size": 4},
    ]
    if world.textures and random.random() < 0.5:
        image, nothing = random.choice(world.textures).name, [0, 0, 0]
        copy = {"buffer": buffer, "texture": image, "size": nothing}
        others = [{**copy, "do": "copyBufferToTexture"}, {**copy, "do": "copyTextureToBuffer"}]
        others.append({"do": "copyTextureToTexture", "source": image, "target": image, "size": nothing})
    if random.random() < world.queries / 2:
        others = [
            {
                "do": "resolveQuerySet",
                "queries": some_set(world).name,
                "first": 0,
                "count": random.choice([0, 1]),
                "buffer": buffer,
                "offset": 0,
            }
        ]
    calls.insert(random.randint(1, len(calls) - 1), {**random.choice(others), "on": encoder})


def shuffled(world: World, encoder: str, on: str, calls: list[Call]) -> None:
    """The commands in any order; a dispatch may come before what it needs."""
    body = calls[1:-1]
    world.random.shuffle(body)
    calls[1:-1] = body


# In the order in which several of them can be made.
SETTING_FAULTS = [offset_past, offset_unaligned, offset_more, offset_missing, index_past, invalid_group]
DISPATCH_FAULTS = [
    no_pipeline, no_pipeline, no_group, no_group, other_index, other_layout, other_owner, count_past, count_past, indirect_invalid,
    indirect_invalid, indirect_usage, indirect_offset, indirect_past, indirect_past,
]
ORDER_FAULTS = [invalid_pipeline, pop_too_many, push_too_many, dead_pass, dead_pass, on_encoder, on_encoder, on_encoder, shuffled]
OFFSET_FAULTS = [offset_past, offset_past, offset_unaligned, offsets_turned]
FAULTS = SETTING_FAULTS * 2 + OFFSET_FAULTS + DISPATCH_FAULTS + ORDER_FAULTS + [other_layout] * 10 + [other_owner] * 12
FAULTS += states.NULL_FAULTS * 2


def spoil(world: World, encoder: str, on: str, calls: list[Call]) -> None:
    """Faults in a pass; where there is nothing that they could change, others are tried."""
    for _ in range(4):
        before = [dict(call) for call in calls]
        faults(world, encoder, on, calls)
        if calls != before:
            return


def faults(world: World, encoder: str, on: str, calls: list[Call]) -> None:
    """One fault as a rule, at times two or three, often of one command, so that the order of rules shows."""
    random, kind = world.random, world.random.random()
    settings = [call for call in calls if call["do"] == "setBindGroup" and not states.is_null(call)]
    settings.sort(key=lambda call: -len(call.get("offsets", [])))
    if kind < 0.15 and settings:
        for change in sorted(random.sample(SETTING_FAULTS, random.choice([2, 3, 4])), key=SETTING_FAULTS.index):
            change(world, encoder, on, settings[:1])
    elif kind < 0.3:
        for change in random.sample(DISPATCH_FAULTS if random.random() < 0.7 else FAULTS, 2):
            change(world, encoder, on, calls)
    else:
        random.choice(FAULTS)(world, encoder, on, calls)
