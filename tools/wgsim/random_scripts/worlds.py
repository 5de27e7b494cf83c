"""Whole scripts: borders of single rules one after another, and mixed work with submits, completes and destroys.

Both have error scopes, promises and mapped buffers; some lose their device, mostly late.
"""

from __future__ import annotations

from typing import TYPE_CHECKING, Callable

from .commands import command, map_async, write_buffer, write_texture
from .world import World

if TYPE_CHECKING:
    from random import Random

    from .handed import Act, Call
    from .world import Thing


def borders(random: Random) -> list[Call]:
    """Many objects, writes and encoders of one or two commands, half of them with a rule just unmet."""
    world = World(random, 0.5)
    count = random.randint(10, 40)
    last = last_before_loss(random, count, 0.15)
    for act in range(count):
        if act == last:
            world.lose()
        if random.random() < 0.3:
            scope(world)
        kind = random.randrange(12)
        if kind == 0:
            random.choice([world.buffer, world.buffer, world.query_set])(not world.has_fault())
        elif kind == 1:
            world.view(world.texture(not world.has_fault()))
        elif kind == 2:
            world.view(world.texture(), not world.has_fault())
        elif kind == 3:
            write_buffer(world, not world.has_fault())
        elif kind == 4:
            write_texture(world, not world.has_fault())
        elif kind == 5:
            random.choice([work_done, complete])(world)
        elif kind in (6, 7):
            maps(world)
        elif kind == 8:
            drop_and_use(world)
        else:
            single(world)
    return world.calls


def last_before_loss(random: Random, count: int, chance: float) -> int | None:
    """The number of the act before which the device is lost: none as a rule, and mostly a late one."""
    if random.random() >= chance:
        return None
    return random.randrange(count) if random.random() < 0.2 else random.randrange(count * 2 // 3, count)


def single(world: World) -> None:
    """An encoder of few commands, finished and submitted."""
    encoder = world.encoder()
    for _ in range(world.random.choice([1, 1, 1, 2, 3])):
        command(world, encoder, not world.has_fault())
    command_buffer = world.finish(encoder)
    if command_buffer.good or world.random.random() < (0.5 if world.is_lost else 0.1):
        world.submit([command_buffer])


def mixed(random: Random, longest: int = 60) -> list[Call]:
    """Work as a program does it: several encoders open at once, few faults."""
    world = World(random, random.choice([0.0, 0.01, 0.05, 0.2]))
    for _ in range(random.randint(1, 3)):
        world.buffer(usage=12)
        world.texture(usage=3)
    count = random.randint(min(3, longest), longest)
    last = last_before_loss(random, count, 0.25)
    for act in range(count):
        if act == last:
            world.lose()
        random.choices(ACTS, ACT_WEIGHTS)[0](world)
    return world.calls


def long(random: Random) -> list[Call]:
    """Mixed work of some hundreds of calls."""
    return mixed(random, 200)


def make(world: World) -> None:
    kind = world.random.randrange(9)
    if kind < 2:
        world.buffer(not world.has_fault())
    elif kind < 4:
        world.texture(not world.has_fault())
    elif kind < 6:
        world.encoder()
    elif kind == 6:
        world.query_set(not world.has_fault())
    elif world.textures:
        texture = world.random.choice(world.textures) if world.random.random() < 0.2 else world.one(world.textures)
        world.view(texture, not world.has_fault())


def write(world: World) -> None:
    world.random.choice([write_buffer, write_texture])(world, not world.has_fault())


def open_encoder(world: World) -> Thing:
    found = [encoder for encoder in world.encoders if not encoder.finished and (not encoder.dropped or random_use(world))]
    return world.random.choice(found) if found else world.encoder()


def record(world: World) -> None:
    command(world, open_encoder(world), not world.has_fault())


def finish(world: World) -> None:
    world.finish(open_encoder(world))


def submit(world: World) -> None:
    ready = [thing for thing in world.command_buffers if thing.good and not thing.submitted and (not thing.dropped or random_use(world))]
    world.random.shuffle(ready)
    world.submit(ready[:world.random.randint(0, 3)])


def complete(world: World) -> None:
    """Mostly an operation that was queued and is not complete; at times the last, the next, or 0."""
    random, issued = world.random, world.issued
    waiting = range(world.completed + 1, issued + 1)
    if waiting and random.random() < 0.7:
        world.complete(random.choice([waiting[0], waiting[-1], random.choice(waiting)]))
    else:
        world.complete(random.choice([issued, issued, random.randint(0, issued), issued + 1, 0]))


def scope(world: World) -> None:
    """Error scopes are opened a little more often than closed, so that several are open; at times one too many is closed."""
    if world.random.random() < (0.45 if world.scopes else 0.1):
        world.pop_scope()
    else:
        world.push_scope()


def maps(world: World) -> None:
    """A map, or the end of one: of a buffer that is mapped or pending as a rule, and at times of any."""
    random = world.random
    mapped = [thing for thing in world.buffers if thing.mapped]
    if mapped and random.random() < 0.55:
        world.unmap(random.choice(mapped if random.random() < 0.9 else world.buffers))
    elif mapped and random.random() < 0.2:
        use_while_mapped(world, random.choice(mapped))
    else:
        map_async(world, not world.has_fault())


def use_while_mapped(world: World, buffer: Thing) -> None:
    """A write, a submit or a destroy of a buffer that is mapped or pending."""
    random = world.random
    kind = random.randrange(3)
    if kind == 0:
        world.destroy(buffer)
    elif kind == 1:
        write_buffer(world, False, buffer)
    else:
        encoder = world.encoder()
        other = world.buffer(usage=12)
        source, target = (buffer, other) if buffer.call["usage"] & 4 else (other, buffer)
        copy = {"do": "copyBufferToBuffer", "on": encoder.name, "source": source.name, "target": target.name}
        world.add({**copy, "sourceOffset": 0, "targetOffset": 0, "size": random.choice([0, 4])})
        command_buffer = world.finish(encoder)
        if random.random() < 0.3:
            world.unmap(buffer)
        world.submit([command_buffer])


def work_done(world: World) -> None:
    world.work_done()


def destroy(world: World) -> None:
    things = world.resources()
    if things:
        world.destroy(world.random.choice(things) if world.random.random() < 0.15 else world.one(things))


def drop(world: World) -> None:
    """A drop of anything, mostly of what was not dropped before."""
    things = [thing for thing in world.everything() if not thing.dropped or random_use(world)]
    if things:
        world.drop(world.random.choice(things))


def random_use(world: World) -> bool:
    """Whether what was dropped is used all the same, which is refused."""
    return world.random.random() < 0.1


def drop_and_use(world: World) -> None:
    """A call on something that was dropped just before, or on an invalid one that was."""
    random, good = world.random, not world.has_fault()
    kind = random.randrange(6)
    if kind == 5:
        queries = world.query_set(good)
        world.drop(queries)
        random.choice([world.destroy, world.drop])(queries)
    elif kind < 2:
        buffer = world.buffer(good)
        world.drop(buffer)
        random.choice(
            [
                world.destroy,
                world.unmap,
                world.drop,
                lambda thing: write_buffer(world, True, thing),
                lambda thing: world.map(thing, True, {"mode": 1}),
            ]
        )(buffer)
    elif kind == 2:
        texture = world.texture(good)
        world.drop(texture)
        written: list[Callable[[Thing], object]] = [lambda thing: write_texture(world, True, thing)]
        acts: list[Callable[[Thing], object]] = [world.destroy, world.drop, world.view, *written * (2 * good)]
        random.choice(acts)(texture)
    elif kind == 3:
        encoder = world.encoder()
        command(world, encoder, good)
        world.drop(encoder)
        world.finish(encoder)
    else:
        before = world.resources()
        command(world, world.encoder(), True)
        for thing in [thing for thing in world.buffers + world.query_sets if thing not in before]:
            world.drop(thing)
        command_buffer = world.finish(world.encoders[-1])
        world.drop(random.choice([command_buffer, world.encoders[-1]]))
        world.submit([command_buffer])


def odd(world: World) -> None:
    """What a script may do that the device refuses: late calls, second finishes, submits that can't be."""
    random = world.random
    kind = random.choices(range(8), [3, 1, 1, 1, 1, 1, 1, 1])[0]
    ended = [encoder for encoder in world.encoders if encoder.finished]
    if kind == 0 and ended:
        command(world, random.choice(ended), True)
    elif kind == 1 and ended:
        world.finish(random.choice(ended))
    elif kind in (2, 3) and world.command_buffers:
        world.submit(random.choices(world.command_buffers, k=random.randint(1, 3)))
    elif kind == 4:
        destroyed_before_submit(world)
    elif kind == 5:
        write_after_destroy(world)
    elif kind == 6 and world.is_lost:
        world.lose()
    else:
        world.complete(random.choice([2**53 - 1, world.issued + 1]))


def destroyed_before_submit(world: World) -> None:
    """An encoder whose objects are destroyed before the submit, some or none of them."""
    encoder = world.encoder()
    seen = len(world.calls)
    command(world, encoder, True)
    named = {value for call in world.calls[seen:] for value in call.values() if isinstance(value, str)}
    command_buffer = world.finish(encoder)
    for thing in world.resources():
        if thing.name in named and world.random.random() < 0.6:
            world.destroy(thing)
    world.submit([command_buffer])


def write_after_destroy(world: World) -> None:
    things = [
        thing for thing in world.buffers + world.textures if thing.good and thing.call["usage"] == (12 if thing in world.buffers else 3)
    ]
    if things:
        thing = world.random.choice(things)
        world.destroy(thing)
        if thing in world.buffers:
            write_buffer(world, True, thing)
        else:
            write_texture(world, True, thing)


ACTS: list[Act] = [make, write, record, finish, submit, complete, destroy, drop, scope, work_done, maps, odd]
ACT_WEIGHTS = [2, 4, 10, 3, 3, 2, 1, 2, 2, 2, 4, 1]
