"""Scripts on what is bound: samplers, layouts, bind groups and compute pipelines, pipelines that derive their layouts, and layouts that are
got of pipelines, with the buffers, textures and views that they need; with drops, destroys, writes, submits, error scopes and loss among
them."""

from __future__ import annotations

from typing import TYPE_CHECKING, Iterable

from .bindings import (
    COMPUTE, COUNTED, GREATEST_32, KINDS, SAMPLERS, border_of_dynamic, border_of_stage, counted, dynamic_entries, most_dynamic, of_sort,
    other_value, parts_of, seen_entries, some_entries, some_kind, spoil_entries, told, used_by, with_binding,
)
from .bound import bound_entries, faults_for, sampler
from .commands import clear_buffer, copy_buffer, write_buffer
from .deriving import any_layout, any_pipeline
from .fixed_function import sampler_fields, spoil_sampler
from .limiting import of as limit
from .world import World
from .worlds import complete, last_before_loss, maps, scope

if TYPE_CHECKING:
    from random import Random

    from .handed import Act, Call, Entry, Faults
    from .world import Thing

BUDGETS = [2**53 - 1] * 18 + [2_000_000, 40_000, 2_000]


def groups(random: Random) -> tuple[int, list[Call]]:
    """A budget, and calls."""
    world = World(random, random.choice([0.1, 0.4, 0.5]))
    count = random.randint(15, 70)
    last = last_before_loss(random, count, 0.12)
    for act in range(count):
        if act == last:
            world.lose()
        random.choices(ACTS, WEIGHTS)[0](world)
    if random.random() < 0.4:
        drop_all(world)
    return random.choice(BUDGETS), world.calls


def layout_of(world: World, entries: list[Entry], good: bool) -> Thing:
    """A bind group layout of some entries."""
    call = {"do": "createBindGroupLayout", "entries": [told(world.random, entry) for entry in entries]}
    thing = world.make("g", call, good)
    thing.entries = entries
    world.group_layouts.append(thing)
    return thing


def group_layout(world: World) -> Thing:
    """A layout, mostly at a border, be it within or just past."""
    random, good = world.random, not world.has_fault()
    if not good:
        entries = some_entries(random)
        spoil_entries(random, entries)
    else:
        entries = random.choice([some_entries, border_of_stage, border_of_stage, border_of_dynamic])(random)
    return layout_of(world, entries, good)


def usable(world: World, things: Iterable[Thing], most: int | None = None) -> list[Thing]:
    """Good objects that were not dropped; of layouts those that have so many entries at most."""
    return [thing for thing in things if thing.good and not thing.dropped and (most is None or len(thing.entries) <= most)]


def some_layout(world: World, most: int) -> Thing:
    """A layout of a few entries, which is there or new."""
    old = usable(world, world.group_layouts, most)
    if old and world.random.random() < 0.6:
        return world.random.choice(old[-6:])
    return layout_of(world, some_entries(world.random, most), True)


def bad_layout(world: World) -> Thing:
    """A layout that is dropped or invalid."""
    random = world.random
    old = [thing for thing in world.group_layouts if not thing.good or thing.dropped]
    if old and random.random() < 0.5:
        return random.choice(old)
    if random.random() < 0.5:
        entries = some_entries(random)
        spoil_entries(random, entries)
        return layout_of(world, entries, False)
    thing = layout_of(world, some_entries(random), True)
    world.drop(thing)
    return thing


def shared_limit(random: Random, more: int) -> list[list[Entry]]:
    """Lists of entries that together have just as many of one sort as there may be, or so many more."""
    sort, stage = random.choice(list(COUNTED)), random.choice([1, 2, 4])
    kinds, most, dynamic = counted(sort)
    if dynamic is not None and random.random() < 0.6:
        return parts_of(random, dynamic_entries(random, sort, dynamic + more))
    return parts_of(random, seen_entries(random, sort, stage, most + more))


def twice_limit(random: Random, more: int) -> tuple[list[Entry], list[Entry]]:
    """The entries of one layout that stands there twice; an odd one more in a second."""
    sort, stage = random.choice(list(COUNTED)), random.choice([1, 2, 4])
    kinds, most, dynamic = counted(sort)
    if dynamic is not None and random.random() < 0.6:
        return dynamic_entries(random, sort, dynamic // 2), dynamic_entries(random, sort, more)
    return seen_entries(random, sort, stage, most // 2), seen_entries(random, sort, stage, more)


def past_several(world: World) -> list[Thing]:
    """Layouts that leave several rules unmet: what a stage sees, what is dynamic, and at times their number or one of them."""
    random = world.random
    sort = random.choice(["uniform buffer", "storage buffer"])
    lists = parts_of(
        random,
        seen_entries(
            random, *random.choice([("texture", 1), ("sampler", 2), ("storage texture", 4)]), limit("maxSampledTexturesPerShaderStage") + 1
        ),
        2,
    )
    lists += parts_of(random, dynamic_entries(random, sort, most_dynamic(sort) + 1), 2)
    random.shuffle(lists)
    layouts = [layout_of(world, part, True) for part in lists]
    change = random.randrange(4)
    if change == 0:
        layouts.append(layouts[0])
    elif change == 1:
        layouts.insert(random.randint(0, 4), bad_layout(world))
    return layouts


def layouts_for(world: World, good: bool) -> list[Thing]:
    """Layouts of a pipeline layout."""
    random, more = world.random, 0 if good else 1
    if not good and random.random() < 0.12:
        return past_several(world)
    own = usable(world, world.derived_layouts)
    if not good and own and random.random() < 0.3:
        layouts = [some_layout(world, 5) for _ in range(random.choice([0, 0, 1, 2, 3, 4]))]
        layouts.insert(random.randint(0, len(layouts)), random.choice(own[-5:]))
        return layouts + [bad_layout(world)] * (random.random() < 0.15)
    kind = random.randrange(6)
    if kind <= 1:
        return [layout_of(world, part, True) for part in shared_limit(random, more)]
    if kind == 2:
        entries, others = twice_limit(random, more)
        layouts = [layout_of(world, entries, True)] * 2
        return layouts + [layout_of(world, others, True)] * (more or random.random() < 0.3)
    layouts = [some_layout(world, 5) for _ in range(random.choice([0, 1, 1, 2, 3, 4]))]
    if not good and kind == 3:
        layouts = [layout_of(world, some_entries(random, 1), True)] * random.choice([5, 5, 5, 6, 40])
    elif not good:
        layouts.insert(random.randint(0, len(layouts)), bad_layout(world))
        if random.random() < 0.3:
            layouts.insert(random.randint(0, len(layouts)), bad_layout(world))
    elif kind == 3:
        layouts = [some_layout(world, 2) for _ in range(4)]
    return layouts


def pipeline_layout(world: World) -> Thing:
    good = not world.has_fault()
    layouts = layouts_for(world, good)
    return pipeline_layout_of(world, layouts, good)


def pipeline_layout_of(world: World, layouts: list[Thing], good: bool) -> Thing:
    """A pipeline layout of some layouts; in place of those that have no entry null may stand, and so it may beside those that are too
    many."""
    random = world.random
    is_good = good and all(layout.good and not layout.dropped for layout in layouts)
    names = [layout.name if layout.entries or random.random() < 0.5 else None for layout in layouts]
    if not good and random.random() < 0.1:
        names = (names + [None] * 5)[:random.choice([5, 5, 6])]
        random.shuffle(names)
    thing = world.make("l", {"do": "createPipelineLayout", "layouts": names}, is_good)
    thing.layouts = layouts
    world.pipeline_layouts.append(thing)
    return thing


def exclusive(world: World) -> None:
    """A pipeline layout of layouts of which one is exclusive to a pipeline."""
    random, own = world.random, usable(world, world.derived_layouts)
    if own:
        layouts = [some_layout(world, 3) for _ in range(random.choice([0, 0, 1, 2, 3, 4]))]
        layouts.insert(random.randint(0, len(layouts)), random.choice(own))
        pipeline_layout_of(world, layouts, False)


def bind_group(world: World) -> Thing:
    """A bind group of a layout of a few entries, or at times of many."""
    random, good = world.random, not world.has_fault()
    layout = some_layout(world, 20 if random.random() < 0.1 else 3)
    own = usable(world, world.derived_layouts, 6)
    if own and random.random() < 0.15:
        layout = random.choice(own[-5:])
    if not layout.entries and random.random() < 0.7:
        layout = layout_of(world, with_binding(random, [some_kind(random) for _ in range(random.choice([1, 1, 2]))]), True)
    faults = {} if good else faults_for(random, layout.entries)
    if not good and random.random() < 0.15:
        layout = bad_layout(world)
    return group_of(world, layout, faults)


def group_of(world: World, layout: Thing, faults: Faults) -> Thing:
    entries = bound_entries(world, layout.entries, faults)
    thing = world.make(
        "k", {"do": "createBindGroup", "layout": layout.name, "entries": entries}, not faults and layout.good and not layout.dropped
    )
    world.groups.append(thing)
    return thing


def compute_pipeline(world: World) -> Thing:
    """A pipeline whose interface is some of what its layout has, or has one entry that the layout does not offer."""
    random, good = world.random, not world.has_fault()
    layout = some_pipeline_layout(world, not good and random.random() < 0.15)
    if not good and random.random() < 0.05:
        world.drop(layout)
    places = [(group, entry) for group, one in enumerate(layout.own_layouts()) for entry in one.entries]
    seen = [place for place in places if place[1]["visibility"] & COMPUTE]
    iface = [used_by(random, *place) for place in random.sample(seen, min(len(seen), random.choice([0, 1, 2, 3, 3, 20])))]
    if not good:
        iface.insert(random.randint(0, len(iface)), not_offered(random, layout, places, seen))
    call = {"do": "createComputePipeline", "layout": layout.name, "iface": [told(random, entry) for entry in iface]}
    if not iface and random.random() < 0.7:
        del call["iface"]
    thing = world.make("p", call, good and layout.good and not layout.dropped)
    thing.lists, thing.derives = [one.entries for one in layout.own_layouts()], False
    world.pipelines.append(thing)
    return thing


def some_pipeline_layout(world: World, is_bad: bool) -> Thing:
    random = world.random
    if is_bad and world.pipeline_layouts:
        return random.choice(world.pipeline_layouts)
    old = usable(world, world.pipeline_layouts)
    if old and random.random() < 0.6:
        return random.choice(old[-5:])
    layouts = [some_layout(world, 5) for _ in range(random.choice([1, 1, 2, 4]))]
    if random.random() < 0.5:
        layouts.insert(0, layout_of(world, with_binding(random, [some_kind(random) for _ in range(3)]), True))
    return pipeline_layout_of(world, layouts[:4], True)


def not_offered(random: Random, layout: Thing, places: list[tuple[int, Entry]], seen: list[tuple[int, Entry]]) -> Entry:
    """An entry of an interface that the layout does not offer: no such group or binding, not seen, or of another kind."""
    fault = random.randrange(10)
    hidden = [place for place in places if place not in seen]
    if fault == 0 or not places:
        kind = (
            some_kind(random)
            if not seen
            else {key: value for key, value in random.choice(seen)[1].items() if key not in ("binding", "visibility")}
        )
        count = len(layout.own_layouts())
        return {"group": random.choice([count, count, 4, GREATEST_32]), "binding": 0, **kind}
    if fault == 1 or not hidden + seen:
        group, entry = random.choice(places)
        return {**used_by(random, group, entry), "binding": random.choice([17, 998, GREATEST_32])}
    if fault in (2, 3) and hidden:
        return used_by(random, *random.choice(hidden))
    group, entry = random.choice(seen or places)
    used = used_by(random, group, entry)
    if fault in (4, 5):
        twin = {"storage": "read-only-storage", "read-only-storage": "storage"}.get(used["kind"])
        word = twin if twin and random.random() < 0.5 else other_value(random, "kind", used["kind"])
        return {**{key: used[key] for key in ("group", "binding")}, **some_kind(random, word)}
    keys = [key for key in ("type", "sample", "dim", "multi", "access", "format") if key in used]
    if not keys:
        return {**{key: used[key] for key in ("group", "binding")}, **of_sort(random, "texture")}
    key = random.choice(keys)
    used[key] = other_value(random, key, used[key])
    return used


def any_sampler(world: World) -> None:
    """A sampler of some kind, or one that leaves a rule unmet."""
    random, kind = world.random, world.random.choice(SAMPLERS)
    if not world.has_fault() and random.random() < 0.8:
        sampler(world, kind)
        return
    keys = sampler_fields(random, kind)
    spoil_sampler(random, keys)
    thing = world.make("s", {"do": "createSampler", **keys}, False)
    thing.kind = kind
    world.samplers.append(thing)


def drop(world: World) -> None:
    """Of anything, mostly of what was not dropped, and more often of what holds something else."""
    random = world.random
    kept = [thing for thing in world.everything() if not thing.dropped or random.random() < 0.03]
    holding = [thing for thing in kept if thing in world.groups + world.views + world.pipelines + world.pipeline_layouts]
    things = holding if holding and random.random() < 0.4 else kept
    if things:
        world.drop(random.choice(things))


def drop_all(world: World) -> None:
    """All that is there, in some order; so each buffer and texture is given back at some time."""
    things = [thing for thing in world.everything() if not thing.dropped]
    world.random.shuffle(things)
    for thing in things:
        world.drop(thing)
        if world.random.random() < 0.1:
            complete(world)


def chain(world: World) -> None:
    """A bind group whose views, textures and buffers are dropped while it holds them, and then itself."""
    random = world.random
    before = len(world.everything())
    marks = {id(thing) for thing in world.everything()}
    entries = with_binding(random, [some_kind(random, random.choice(KINDS)) for _ in range(random.choice([1, 2, 3]))])
    made = group_of(world, layout_of(world, entries, True), {})
    if random.random() < 0.3:
        group_of(world, world.group_layouts[-1], {})
    new = [thing for thing in world.everything() if id(thing) not in marks] if before else world.everything()
    random.shuffle(new)
    for thing in new[:random.choice([len(new), len(new), random.randint(0, len(new))])]:
        if not thing.dropped:
            world.drop(thing)
    if not made.dropped and random.random() < 0.5:
        world.drop(made)


def destroy(world: World) -> None:
    things = [thing for thing in world.resources() if not thing.destroyed]
    if things:
        world.destroy(world.random.choice(things[-8:]))


def write(world: World) -> None:
    write_buffer(world, not world.has_fault())


def work(world: World) -> None:
    """An encoder of a command, which is submitted as a rule."""
    random = world.random
    encoder = world.encoder()
    random.choice([clear_buffer, copy_buffer])(world, encoder, not world.has_fault())
    if random.random() < 0.8:
        command_buffer = world.finish(encoder)
        if random.random() < 0.8:
            world.submit([command_buffer])


ACTS: list[Act] = [
    group_layout, pipeline_layout, bind_group, compute_pipeline, any_pipeline, any_layout, exclusive, any_sampler, chain, drop, destroy,
    write, work, complete, maps, scope,
]
WEIGHTS = [9, 6, 36, 9, 9, 4, 1, 1, 2, 7, 1, 1, 2, 2, 1, 3]
