"""Scripts of several phases, some of them with several lanes, which work on what earlier phases have made; and such that break a rule of
names or of form.

The calls of a lane are made one after another as if it were alone. What it does to an object that others see too is known only when the
whole phase is made, since in a run either may come first.
"""

from __future__ import annotations

from typing import TYPE_CHECKING, Any

from . import canvases, grouping, holding, passing, worlds
from .dispatching import kit, pool
from .querying import resolve_queries
from .targets import target_pool
from .world import World

if TYPE_CHECKING:
    from random import Random

    from .handed import Act, Call, Given, States
    from .world import Thing

LISTS = [
    "buffers", "textures", "views", "samplers", "group_layouts", "derived_layouts", "pipeline_layouts", "groups", "pipelines",
    "render_pipelines", "query_sets", "command_buffers", "bundles",
]
ACTS: dict[str, tuple[list[Act], list[int]]] = {
    "mixed": (worlds.ACTS, worlds.ACT_WEIGHTS),
    "holders": (holding.ACTS, holding.WEIGHTS),
    "groups": (grouping.ACTS, grouping.WEIGHTS),
    "passes": (passing.ACTS, passing.WEIGHTS),
    "rendering": (passing.ACTS, passing.WEIGHTS),
    "canvases": (canvases.ACTS, canvases.WEIGHTS),
}
SORTS, WEIGHTS = list(ACTS), [8, 6, 1, 3, 2, 6]
MOST_CALLS = 250


class Shared(World):
    """What all lanes of the next phase see. Its encoders and canvases are the lane's own; the encoders of earlier phases can be dropped,
    and no more."""

    def __init__(self, random: Random, fault: float, sort: str) -> None:
        super().__init__(random, fault)
        self.sort = sort
        self.old_encoders: list[Thing] = []
        self.budget = (
            random.choice(holding.BUDGETS)
            if sort == "holders"
            else random.choice(canvases.BUDGETS)
            if sort == "canvases"
            else random.choice([2**53 - 1] * 12 + [40_000, 4_000])
        )
        self.renders = 0.85 if sort == "rendering" else 0.15
        self.bundled = random.choice([0.05, 0.4])

    def everything(self) -> list[Thing]:
        return super().everything() + self.old_encoders


def lanes(random: Random) -> tuple[int, list[Any]]:
    """A budget, and phases of not too many calls."""
    while True:
        budget, phases = with_shared(random)
        if sum(len(lane) for lane in lists_in(phases)) <= MOST_CALLS:
            return budget, phases


def with_shared(random: Random) -> tuple[int, list[Any]]:
    """A budget, and phases: mostly a first one that makes what later ones share."""
    sort = random.choices(SORTS, WEIGHTS)[0]
    world = Shared(random, random.choice([0.0, 0.05, 0.2]), sort)
    losing = random.random() < 0.1
    phases: list[Any] = [[first_lane(world)]] if random.random() < 0.9 else []
    end_of_phase(world, {}, [])
    for _ in range(random.choice([1, 1, 2, 2, 3, 4])):
        count = random.choice([0, 1, 1, 2, 2, 2, 3, 3, 4, 5])
        longest = random.choice([2, 4, 7] if count > 1 else [2, 4])
        phases.append(phase(world, [random.randint(0, longest) for _ in range(count)], losing and random.random() < 0.4))
    return world.budget, phases


def first_lane(world: Shared) -> list[Call]:
    """The objects that all later lanes share."""
    if world.sort in ("passes", "rendering"):
        pool(world)
        target_pool(world)
        kit(world)
    for _ in range(world.random.randint(1, 4)):
        world.buffer(usage=world.random.choice([12, 12, 9, 6, 8]), size=world.random.choice([8, 16, 64]))
    if world.sort in ("mixed", "holders"):
        world.texture(usage=3)
    if world.random.random() < 0.5:
        world.query_set(count=world.random.choice([1, 2, 4]))
    for _ in range(world.random.randint(0, 3)):
        act(world)
    return taken(world)


def act(world: Shared) -> None:
    random = world.random
    if random.random() < 0.15:
        random.choice([together, together, worlds.scope, worlds.complete, worlds.work_done])(world)
    else:
        random.choices(*ACTS[world.sort])[0](world)


def together(world: Shared) -> None:
    """What lanes do to one object: all choose among the same few."""
    random = world.random
    things = world.buffers[:3] + world.textures[:1] + world.query_sets[:1]
    ready = [thing for thing in world.command_buffers if thing.good]
    kind = random.randrange(7)
    if kind == 0 and things:
        world.destroy(random.choice(things))
    elif kind == 1 and things:
        world.drop(random.choice(things + world.old_encoders[:2] + ready[:2]))
    elif kind == 2 and ready:
        world.submit([random.choice(ready)])
    elif kind == 3 and world.buffers[:3]:
        world.map(random.choice(world.buffers[:3]), True, {"mode": random.choice([1, 2]), "size": 4})
    elif kind == 4 and world.buffers[:3]:
        world.unmap(random.choice(world.buffers[:3]))
    elif kind == 5 and world.query_sets:
        encoder = world.encoder()
        resolve_queries(world, encoder, True)
        world.submit([world.finish(encoder)])
    elif world.buffers[:3]:
        encoder, buffer = world.encoder(), random.choice(world.buffers[:3])
        world.add({"do": "clearBuffer", "on": encoder.name, "buffer": buffer.name, "offset": 4 * random.randrange(3), "size": 4})
        made = world.finish(encoder)
        if random.random() < 0.8:
            world.submit([made])


def taken(world: Shared) -> list[Call]:
    """The calls that were made since the last lane."""
    made, world.calls = world.calls, []
    return made


def phase(world: Shared, acts: list[int], is_lost_in_it: bool) -> list[list[Call]]:
    """A phase with a lane for each number of acts. Each lane has its own new objects, and sees the old ones as the phase finds them."""
    before = {name: list(getattr(world, name)) for name in LISTS}
    states = {thing: dict(thing.__dict__) for name in LISTS for thing in before[name]}
    start = {name: getattr(world, name) for name in ("issued", "completed", "scopes", "is_lost")}
    made, gone, found = [], [], []
    loser = world.random.randrange(len(acts)) if acts and is_lost_in_it else None
    for number, count in enumerate(acts):
        last = world.random.randrange(count + 1) if number == loser else None
        for step in range(count):
            if step == last:
                world.lose()
            act(world)
        found.append(taken(world))
        made.append(({name: getattr(world, name)[len(before[name]):] for name in LISTS}, world.encoders + world.bundle_encoders))
        gone.append({thing: dict(thing.__dict__) for thing in states})
        for thing, state in states.items():
            thing.__dict__.update(state)
        for name in LISTS:
            setattr(world, name, list(before[name]))
        is_lost = world.is_lost
        world.encoders, world.bundle_encoders, world.canvases = [], [], []
        for name, value in start.items():
            setattr(world, name, value)
        world.is_lost = is_lost
    for name in LISTS:
        for lists, _ in made:
            setattr(world, name, getattr(world, name) + lists[name])
    world.issued += sum(call["do"] in ("submit", "writeBuffer", "writeTexture") for lane in found for call in lane)
    end_of_phase(world, states, gone)
    world.old_encoders += [encoder for _, encoders in made for encoder in encoders]
    return found


def end_of_phase(world: Shared, states: States, gone: list[States]) -> None:
    """What any lane did to an object is done."""
    world.old_encoders += world.encoders + world.bundle_encoders
    world.encoders, world.bundle_encoders, world.canvases = [], [], []
    for thing in states:
        for ended in gone:
            for key in ("destroyed", "submitted", "mapped"):
                setattr(thing, key, getattr(thing, key) or ended[thing][key])
            thing.dropped_at = thing.dropped_at or ended[thing]["dropped_at"]
    for thing in [thing for name in LISTS for thing in getattr(world, name)] + world.old_encoders:
        thing.made_at = 0
        thing.dropped_at = None if thing.dropped_at is None else -1


def malformed(random: Random) -> tuple[int, list[Any]]:
    """The same with a fault or two: names of other lanes and phases, names that are given twice, or phases and lanes that are none."""
    budget, phases = lanes(random)
    for _ in range(random.choice([1, 1, 1, 2])):
        (of_form if random.random() < 0.15 else of_names)(random, phases)
    return budget, phases


def lists_in(phases: list[Any]) -> list[list[Any]]:
    """The lanes that are lists."""
    return [lane for lanes_of in phases if type(lanes_of) is list for lane in lanes_of if type(lane) is list]


def of_names(random: Random, phases: list[Any]) -> None:
    """A call has another name, mostly one that another lane of its phase or an earlier phase gives; or it moves to another lane."""
    calls = [(lane, at) for lane in lists_in(phases) for at in range(len(lane)) if type(lane[at]) is dict]
    given = [(lane[at]["as"], lane[at]["do"], lane) for lane, at in calls if "as" in lane[at]]
    kind = random.choice(["on", "on", "on", "on", "used", "used", "used", "as", "moved", "listed", "canvas", "canvas", "canvas"])
    if kind == "moved" and calls:
        lane, at = random.choice(calls)
        other = random.choice(lists_in(phases))
        other.insert(random.randint(0, len(other)), lane.pop(at))
        return
    keys = {"on": ["on"], "canvas": ["canvas"], "as": ["as"], "listed": ["buffers", "layouts", "bundles"]}.get(
        kind, ["buffer", "texture", "object", "source", "target", "pipeline", "group", "layout"]
    )
    users = [(lane, at, key) for lane, at in calls for key in keys if key in lane[at]]
    if not users:
        return
    lane, at, key = random.choice(users)
    if kind == "as":
        lane[at] = {**lane[at], key: random.choice(["a b", "", *[name for name, _, _ in given] * 2])}
        return
    value = lane[at][key]
    if type(value) is list and (not value or type(value[0]) is not str):
        return
    old = random.choice(value) if type(value) is list else value
    found = [other for other in (alike(given, old, lane), alike(given, old, None), [name for name, _, _ in given]) if other]
    new = random.choice(found[0] if random.random() < 0.8 else found[-1])
    lane[at] = {**lane[at], key: [*value, new] if type(value) is list else new}


def alike(given: list[Given], old: str, lane: list[Any] | None) -> list[str]:
    """The names of the kind of another one, those of other lanes than one if there is one."""
    words = {do for name, do, _ in given if name == old}
    return [name for name, do, maker in given if do in words and name != old and (lane is None or maker is not lane)]


def of_form(random: Random, phases: list[Any]) -> None:
    """A phase or a lane is none, or there are too many lanes, at times with a call that is wrong before or after it."""
    if not phases:
        return
    at = random.randrange(len(phases))
    if random.random() < 0.3:
        if lists_in(phases):
            random.choice(lists_in(phases)).append(
                random.choice(
                    [
                        7,
                        {"do": "other"},
                        {"do": "complete"},
                        {"do": "complete", "op": -1},
                        {"do": "getBindGroupLayout", "pipeline": "k", "index": -1, "as": "l"},
                    ]
                )
            )
    kind = random.randrange(4)
    if kind == 0:
        phases.insert(at, random.choice([7, None, {}, "x", True]))
    elif kind == 1 and type(phases[at]) is list:
        phases[at].insert(random.randint(0, len(phases[at])), random.choice([7, None, {}, "x", {"do": "lose"}]))
    elif kind == 2 and type(phases[at]) is list:
        phases[at] += [[]] * (random.choice([64, 64, 65, 66]) - len(phases[at]))
    else:
        phases += [[]] * random.choice([1, 1023 - len(phases), 1024 - len(phases), 1025 - len(phases)])
