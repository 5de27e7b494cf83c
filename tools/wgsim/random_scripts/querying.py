"""Query sets: occlusion queries among the calls of a render pass, and resolves, good ones and such that leave a rule unmet.

Sets have few queries as a rule, and few of them are there at once; so passes and resolves often meet in one.
"""

from __future__ import annotations

from typing import TYPE_CHECKING

from .resources import MOST_QUERIES

if TYPE_CHECKING:
    from random import Random

    from .handed import Call
    from .world import Thing, World

QUERY_RESOLVE, STEP, BYTES = 512, 256, 8
GREATEST_32, GREATEST_53 = 2**32 - 1, 2**53 - 1


def some_set(world: World, least: int = 1) -> Thing:
    """A query set of so many queries at least, as a rule one that is there."""
    random = world.random
    old = [thing for thing in world.query_sets if thing.good and not thing.dropped and thing.call["count"] >= least]
    old = [thing for thing in old if not thing.destroyed or random.random() < 0.05]
    if old and random.random() < 0.8:
        return random.choice(old[-3:])
    return world.query_set(count=max(least, random.choice([1, 2, 2, 3, 4, 6, 9, MOST_QUERIES])))


def some_indexes(random: Random, count: int, least: int = 0) -> list[int]:
    """Some queries of a set, each once, in any order: often neighbours, or the last one; at times none."""
    fit = sorted(index for index in {0, 1, 2, count - 1, count - 2, random.randrange(max(count, 1))} if 0 <= index < count)
    return random.sample(fit, min(len(fit), max(least, random.choice([0, 1, 1, 1, 2, 2, 3]))))


def with_queries(world: World, begin: Call, on: str, calls: list[Call], least: int = 0) -> None:
    """Gives the begin of a pass a query set, and its calls some queries of that, so many at least; each ends before the next is begun."""
    random = world.random
    thing = some_set(world, max(least, random.choice([0, 1, 1, 1])))
    begin["queries"] = thing.name
    added: list[Call] = []
    for index in some_indexes(random, thing.call["count"], least):
        added += [{"do": "beginOcclusionQuery", "on": on, "index": index}, {"do": "endOcclusionQuery", "on": on}]
    places = sorted(random.randint(0, len(calls)) for _ in added)
    for place, call in reversed(list(zip(places, added))):
        calls.insert(place, call)


def target_of(world: World, size: int) -> Thing:
    """A buffer that so many bytes can be resolved to, at times one that is there already, and often one that they just fill."""
    random = world.random
    old = [thing for thing in world.buffers if thing.call["usage"] & QUERY_RESOLVE and thing.call["size"] >= size]
    old = [thing for thing in old if thing.good and not thing.dropped and not thing.destroyed and not thing.mapped]
    if old and random.random() < 0.7:
        return random.choice(old[-3:])
    usage = QUERY_RESOLVE | random.choice([0, 12, 12, 12 | 64, 12 | 128])
    return world.buffer(
        usage=usage, size=random.choice([size, size, size + 7, STEP + size, 512 + size, 1024 + size]), mapped=random.random() < 0.04
    )


def resolve_queries(world: World, encoder: Thing, good: bool) -> None:
    """A resolve, often of the last queries of a set, or to the last bytes of a buffer that it can have; at times of none."""
    random, thing = world.random, some_set(world)
    most = thing.call["count"]
    first = random.choice([0, 0, most - 1, random.randrange(most)])
    count = random.choice([most - first, most - first, 1, random.randint(0, most - first), 0])
    buffer = target_of(world, BYTES * count)
    last = (buffer.call["size"] - BYTES * count) // STEP
    call = {"do": "resolveQuerySet", "on": encoder.name, "queries": thing.name, "first": first, "count": count, "buffer": buffer.name}
    call["offset"] = STEP * random.choice([0, 0, last, last, random.randint(0, last)])
    if not good:
        for fault in random.sample(FAULTS, random.choice([1, 1, 1, 2])):
            fault(world, call, most, buffer.call["size"])
    world.add(call)


def bad_set(world: World, call: Call, most: int, size: int) -> None:
    bad = [thing for thing in world.query_sets if not thing.good]
    call["queries"] = world.random.choice(bad).name if bad and world.random.random() < 0.5 else world.query_set(good=False).name


def bad_buffer(world: World, call: Call, most: int, size: int) -> None:
    call["buffer"] = world.buffer(good=False).name


def no_usage(world: World, call: Call, most: int, size: int) -> None:
    call["buffer"] = world.buffer(usage=12 | world.random.choice([0, 64, 128, 256]), size=size).name


def first_past(world: World, call: Call, most: int, size: int) -> None:
    """The first query is just behind the set, or far, and none or some are resolved from there on."""
    random = world.random
    call.update(first=random.choice([most, most, most, most + 1, GREATEST_32]), count=random.choice([0, 0, 0, 1, GREATEST_32]))


def no_queries(world: World, call: Call, most: int, size: int) -> None:
    """A set of no queries, of which none can be the first."""
    call.update(queries=world.query_set(count=0).name, first=0, count=world.random.choice([0, 0, 1]))


def count_past(world: World, call: Call, most: int, size: int) -> None:
    """One query too many, or so many that the sum takes more than 32 bits."""
    random = world.random
    call["count"] = random.choice([most - min(call["first"], most) + 1, most - min(call["first"], most) + 1, GREATEST_32])
    if random.random() < 0.2:
        call.update(first=random.choice([1, most - 1]), count=2**32 - random.choice([1, max(most - 1, 1)]))


def offset_unaligned(world: World, call: Call, most: int, size: int) -> None:
    call["offset"] = min(call["offset"] + world.random.choice([128, 128, 8, 255, 1]), GREATEST_53)


def offset_past(world: World, call: Call, most: int, size: int) -> None:
    """The first multiple of 256 from which on the bytes do not fit, or a huge one."""
    last = (size - BYTES * call["count"]) // STEP
    call["offset"] = world.random.choice([STEP * (last + 1) if last >= 0 else 0, STEP * (size // STEP + 1), 2**53 - STEP])


def too_short(world: World, call: Call, most: int, size: int) -> None:
    """A buffer that lacks a byte or a query."""
    wanted = call["offset"] + BYTES * call["count"]
    if wanted < 2**28:
        call["buffer"] = world.buffer(usage=QUERY_RESOLVE, size=max(wanted - world.random.choice([1, 1, 8]), 0)).name


FAULTS = [
    bad_set, bad_buffer, no_usage, no_usage, first_past, first_past, first_past, no_queries, count_past, count_past, count_past,
    offset_unaligned, offset_unaligned, offset_past, too_short, too_short,
]
