"""Pipelines that derive their layouts from what their interface names, and layouts that are got of pipelines.

A pipeline has in `lists` the entries of its layouts by group, as far as the maker knows them, and in `derives` whether it derives them. A
layout that was got has the pipeline in `owner` where that has derived it, and is in a list of its own then, since no pipeline layout takes
it. """

from __future__ import annotations

from typing import TYPE_CHECKING, Any

from .bindings import (
    COMPUTE, COUNTED, GREATEST_32, border_of_stage, counted, other_value, parts_of, seen_entries, some_entries, some_kind, spoil_entries,
    told, used_by,
)

if TYPE_CHECKING:
    from random import Random

    from .handed import Call, Entry, Named
    from .world import Thing, World

STAGES = {"vertex": 1, "fragment": 2}
NOT_OF_KIND = ("binding", "visibility", "dynamic", "minSize")


def naming(random: Random, lists: list[list[Entry]], is_render: bool) -> Named:
    """What an interface names of lists of entries: triples of a group, an entry, and the stage that names it, which sees it; of a compute
    pipeline that is None. Some are named twice."""
    found: Named = []
    for group, entries in enumerate(lists):
        for entry in entries:
            seen: list[str | None] = (
                [stage for stage, bit in STAGES.items() if entry["visibility"] & bit]
                if is_render
                else [None] * bool(entry["visibility"] & COMPUTE)
            )
            stages = random.sample(seen, random.randint(1, len(seen))) if seen else []
            found += [(group, entry, stage) for stage in stages + stages * (random.random() < 0.08)]
    random.shuffle(found)
    return found


def iface_of(random: Random, named: Named) -> list[Entry]:
    return [told(random, {**used_by(random, group, entry), **({} if stage is None else {"stage": stage})}) for group, entry, stage in named]


def derived(named: Named) -> list[list[Entry]]:
    """The entries of the layouts that are derived of what is named, by group, if that can be."""
    seen: dict[tuple[int, int], int] = {}
    kinds: dict[tuple[int, int], Entry] = {}
    for group, entry, stage in named:
        place = group, entry["binding"]
        seen[place] = seen.get(place, 0) | (COMPUTE if stage is None else STAGES[stage])
        kind = {key: value for key, value in entry.items() if key not in NOT_OF_KIND}
        kinds[place] = {**kind, **({"dynamic": False, "minSize": 0} if "dynamic" in entry else {})}
    count = 1 + max([group for group, _ in seen], default=-1) if all(group < 4 for group, _ in seen) else 0
    lists: list[list[Entry]] = [[] for _ in range(count)]
    for group, binding in sorted(seen):
        if lists:
            lists[group].append({"binding": binding, "visibility": seen[group, binding], **kinds[group, binding]})
    return lists


def without_iface(random: Random, call: Call) -> Call:
    """A call whose empty interface is left out at times."""
    return {key: value for key, value in call.items() if key != "iface" or value or random.random() < 0.4}


def compute_of(world: World, named: Named, good: bool = True) -> Thing:
    """A compute pipeline that derives its layouts."""
    call = {"do": "createComputePipeline", "layout": "auto", "iface": iface_of(world.random, named)}
    thing = world.make("p", without_iface(world.random, call), good)
    thing.lists, thing.derives, thing.layouts = derived(named) if good else [], True, None
    world.pipelines.append(thing)
    return thing


def render_of(world: World, named: Named, good: bool = True, **keys: Any) -> Thing:
    """A render pipeline that derives its layouts, and draws to a color, or as it is asked for."""
    call = {"do": "createRenderPipeline", "layout": "auto", "iface": iface_of(world.random, named), "targets": ["rgba8unorm"], **keys}
    thing = world.make("x", without_iface(world.random, call), good)
    thing.lists, thing.derives, thing.layouts = derived(named) if good else [], True, None
    world.render_pipelines.append(thing)
    return thing


def shape_of(pipeline: Thing, entries: list[Entry]) -> str:
    """What two layouts have in common that are equivalent."""
    shape = repr(sorted(sorted(entry.items()) for entry in entries))
    return f"{pipeline.name}: {shape}" if pipeline.derives else shape


def got(world: World, pipeline: Thing, index: int) -> Thing:
    """A layout that is got of a pipeline; of an index that it does not have, or of a pipeline that is dropped or invalid, one that is not
    good."""
    lists = getattr(pipeline, "lists", [])
    is_good = pipeline.good and not pipeline.dropped and index < len(lists)
    thing = world.make("y", {"do": "getBindGroupLayout", "pipeline": pipeline.name, "index": index}, is_good)
    thing.entries = lists[index] if is_good else []
    thing.owner = pipeline if is_good and pipeline.derives else None
    if is_good:
        thing.shape = shape_of(pipeline, thing.entries)
    (world.group_layouts if thing.owner is None else world.derived_layouts).append(thing)
    return thing


def got_of_all(world: World, pipeline: Thing) -> list[Thing]:
    """A layout for each group of a pipeline."""
    return [got(world, pipeline, index) for index in range(len(pipeline.lists))]


def is_derived(layout: Thing) -> bool:
    return getattr(layout, "owner", None) is not None


def alike(world: World, layout: Thing) -> Thing | None:
    """A layout with the same entries that another pipeline derives, or almost the same where no pipeline can derive them."""
    random, entries = world.random, layout.entries
    is_render = not any(entry["visibility"] & COMPUTE for entry in entries)
    group = random.choice([0, 0, 1, 3])
    named: Named
    if is_render:
        named = [(group, entry, stage) for entry in entries for stage, bit in STAGES.items() if entry["visibility"] & bit]
    else:
        named = [(group, entry, None) for entry in entries]
    pipeline = render_of(world, named) if is_render else compute_of(world, named)
    return got(world, pipeline, group) if named else None


# Pipelines at the borders of rules 167 and 168, for scripts on what is bound.
def some_lists(random: Random, more: int) -> list[list[Entry]]:
    """Entries by group that a pipeline can derive layouts of, often just as many of one sort as a stage may see, or so many more."""
    kind = random.randrange(5)
    if kind == 0:
        return [border_of_stage(random, more)]
    if kind == 1:
        sort, stage = random.choice(list(COUNTED)), random.choice([1, 2, COMPUTE, COMPUTE])
        return parts_of(random, seen_entries(random, sort, stage, counted(sort)[1] + more))
    return [some_entries(random, random.choice([0, 2, 3])) for _ in range(random.choice([0, 1, 1, 2, 3, 4]))]


def clash(random: Random, lists: list[list[Entry]], named: Named, is_render: bool) -> None:
    """One binding is named in two kinds, for one stage or for two."""
    if not named:
        named.append(
            (
                random.choice([0, 3, 4]),
                {"binding": random.choice([0, 999]), "visibility": 7, **some_kind(random)},
                "fragment" if is_render else None,
            )
        )
    group, entry, stage = random.choice(named)
    keys = [key for key in ("type", "sample", "dim", "multi", "access", "format") if key in entry]
    twin = {"storage": "read-only-storage", "read-only-storage": "storage"}.get(entry["kind"])
    if not keys or random.random() < 0.4:
        word = twin if twin and random.random() < 0.5 else other_value(random, "kind", entry["kind"])
        other = {"binding": entry["binding"], "visibility": 7, **some_kind(random, word)}
    else:
        key = random.choice(keys)
        other = {**entry, key: other_value(random, key, entry[key])}
    named.insert(random.randint(0, len(named)), (group, other, random.choice(list(STAGES)) if is_render else None))


def group_past(random: Random, lists: list[list[Entry]], named: Named, is_render: bool) -> None:
    entry = {"binding": random.choice([0, 0, 999, 1000]), "visibility": 7, **some_kind(random)}
    group = random.choice([4, 4, 4, 5, GREATEST_32])
    named += [(group, entry, random.choice(list(STAGES)) if is_render else None)] * random.choice([1, 1, 2])
    random.shuffle(named)


def spoiled_list(random: Random, lists: list[list[Entry]], named: Named, is_render: bool) -> None:
    """One of the layouts leaves a rule unmet, by what is named of it."""
    group = random.randrange(4)
    entries = some_entries(random, 3)
    spoil_entries(random, entries)
    for entry in entries:
        entry["visibility"] = entry["visibility"] & 7 | (0 if is_render else COMPUTE)
    before: list[list[Entry]] = [[]] * group
    named += naming(random, [*before, entries], is_render)
    random.shuffle(named)


FAULTS = [clash, clash, clash, group_past, spoiled_list, spoiled_list, spoiled_list]


def any_pipeline(world: World) -> None:
    """A pipeline of either kind that derives its layouts, at the border of a rule or just past it, and layouts and groups of it."""
    random, good = world.random, not world.has_fault()
    is_render = random.random() < 0.45
    is_past = not good and random.random() < 0.4
    lists = some_lists(random, 1 if is_past else 0)
    for entry in [entry for entries in lists for entry in entries]:
        entry["visibility"] |= COMPUTE if not is_render and random.random() < 0.8 else 0
    named = naming(random, lists, is_render)
    if not good and not is_past:
        for fault in random.sample(FAULTS, random.choice([1, 1, 1, 2])):
            fault(random, lists, named, is_render)
    others: list[Call] = [{}, {}, {}, {}, {}, {"samples": 2}, {"targets": []}, {"buffers": [{"stride": 2, "attributes": []}]}]
    wrong = random.choice(others) if is_render and not good else {}
    pipeline = render_of(world, named, good, **wrong) if is_render else compute_of(world, named, good)
    if not good and random.random() < 0.6:
        return
    count = len(pipeline.lists)
    for index in random.sample(range(count + 1), random.randint(0, count + 1)):
        got(world, pipeline, index)


def any_layout(world: World) -> None:
    """A layout of any pipeline, which may be dropped or invalid, of an index that it has or just has not."""
    random = world.random
    pipelines = (world.pipelines + world.render_pipelines)[-8:]
    if pipelines:
        pipeline = random.choice(pipelines)
        count = len(getattr(pipeline, "lists", []))
        got(
            world,
            pipeline,
            random.choice([0, 0, max(count - 1, 0), count, 3, 4, GREATEST_32] if world.has_fault() else list(range(count)) or [0]),
        )
