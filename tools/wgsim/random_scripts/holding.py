"""Scripts on what holds a buffer, texture or query set that was dropped, and on what the budget has room for.

Buffers, textures and query sets are small, and so is the budget: much is out of memory until something is given back.
"""

from __future__ import annotations

from typing import TYPE_CHECKING, Any, Callable

from .querying import BYTES, MOST_QUERIES, QUERY_RESOLVE
from .regions import TEXELS, extent
from .world import World
from .worlds import complete, last_before_loss, scope

if TYPE_CHECKING:
    from random import Random

    from .handed import Act, Call
    from .world import Thing

BUDGETS = [7, 8, 16, 60, 150, 150, 400, 400, 2000, 2**53 - 1]
COLORS = ["r8unorm", "rg8unorm", "rgba8unorm", "r32uint", "rgba16float", "rgba32float"]
DRAWN = 48
OTHERS = ["depth16unorm", "depth24plus", "depth24plus-stencil8", "depth32float", "stencil8"]


def holders(random: Random) -> tuple[int, list[Call]]:
    """A budget, and calls with many drops and few calls on what was dropped."""
    world = World(random, random.choice([0.02, 0.1]))
    world.budget = random.choice(BUDGETS)
    count = random.randint(10, 80)
    last = last_before_loss(random, count, 0.15)
    for act in range(count):
        if act == last:
            world.lose()
        random.choices(ACTS, WEIGHTS)[0](world)
    return world.budget, world.calls


def taken(world: World, thing: Thing, size: int) -> None:
    """An object that takes memory is good only where the budget has room for it beside all that is neither destroyed nor dropped.

    This is a guess: what is held or in use takes its memory longer than that.
    """
    thing.size = size
    thing.good = thing.good and size <= room(world, thing)


def room(world: World, thing: Thing | None = None) -> int:
    """What the budget has room for beside all that takes memory and is another one than a thing, by that guess."""
    others = [other for other in world.resources() if other is not thing and other.good and not other.destroyed and not other.dropped]
    return world.budget - sum(other.size for other in others)


def buffer(world: World) -> None:
    size = world.random.choice([0, 4, 4, 8, 8, 16, 24, 60])
    usage = world.random.choice([12, 12, 12 | DRAWN, 12 | DRAWN, 12 | QUERY_RESOLVE, 9, 6])
    thing = world.buffer(not world.has_fault(), size=size, usage=usage, mapped=world.random.random() < 0.06)
    taken(world, thing, thing.call["size"])


def query_set(world: World) -> None:
    """A set of few queries, often of as many as there is room for, or of one more."""
    random, most = world.random, max(room(world), 0) // BYTES
    count = random.choice([0, 1, 1, 2, 3, most, most, most + 1, most + 1])
    thing = world.query_set(not world.has_fault(), count=count if count <= MOST_QUERIES else random.choice([1, 2, MOST_QUERIES]))
    taken(world, thing, BYTES * thing.call["count"])


def texture(world: World) -> None:
    """A texture of a few texels, at times of several mip levels, layers, slices or samples."""
    random, good = world.random, not world.has_fault()
    kind = random.randrange(6)
    if kind == 0:
        samples_of = {"format": random.choice(["rgba8unorm", "depth24plus-stencil8"]), "usage": 19, "samples": 4, "mips": 1}
        made(world, good, [random.randint(1, 3), random.randint(1, 3), 1], **samples_of)
    elif kind == 1:
        made(world, good, [1, 2, random.randint(1, 3)], format=random.choice(OTHERS), mips=random.randint(1, 2))
    else:
        size = [random.randint(2, 4), random.randint(1, 3), random.randint(1, 3)]
        made(world, good, size, dim=random.choice(["2d", "2d", "3d"]), format=random.choice(COLORS), mips=random.randint(1, 2))


def made(world: World, good: bool, size: list[int], **wanted: Any) -> None:
    usage = 19 if world.random.random() < 0.5 else 3
    call: Call = {"do": "createTexture", "size": size, "usage": usage, "dim": "2d", "samples": 1, **wanted}
    if not good:
        faults: list[Callable[[], None]] = [lambda: call.update(usage=0), lambda: call.update(mips=9), lambda: size.reverse()]
        world.random.choice(faults)()
    thing = world.make("t", call, good)
    world.textures.append(thing)
    texels = sum(width * height * depth for width, height, depth in (extent(call, mip) for mip in range(call["mips"])))
    taken(world, thing, texels * call["samples"] * TEXELS[call["format"]])


def chosen(world: World, things: list[Thing], since: int = 0) -> Thing | None:
    """One of some objects, mostly a good one that was not dropped before a time, or None."""
    fit = [
        thing
        for thing in things
        if thing.good and not thing.destroyed and not thing.mapped and (not thing.dropped or thing.dropped_after(since))
    ]
    if fit and not world.has_fault():
        return world.random.choice(fit[-8:])
    return world.random.choice(things) if things and world.random.random() < 0.3 else None


def view(world: World) -> None:
    found = chosen(world, world.textures, len(world.calls))
    if found is not None:
        call = {"do": "createView", "texture": found.name, "mips": 1}
        if found.call["dim"] == "2d" and found.call["size"][2] > 1:
            call.update({"dim": "2d", "layers": 1})
        if world.has_fault():
            call["mips"] = 0
        thing = world.make("v", call, found.good and call["mips"] == 1)
        thing.texture = found
        world.views.append(thing)


def some_encoder(world: World) -> Thing:
    """One that is not finished; at times it was dropped."""
    found = [thing for thing in world.encoders if not thing.finished and (not thing.dropped or world.has_fault())]
    return world.random.choice(found[-4:]) if found else world.encoder()


def record(world: World) -> None:
    """A command that names what was there before the encoder, and at times what was dropped then."""
    random, on = world.random, some_encoder(world)
    for _ in range(random.choice([1, 1, 2])):
        one, other = chosen(world, world.buffers, on.made_at), chosen(world, world.buffers, on.made_at)
        image, second = chosen(world, world.textures, on.made_at), chosen(world, world.textures, on.made_at)
        kind = random.randrange(8)
        if kind == 7:
            resolve(world, on)
        elif kind == 6:
            attach(world, on)
        elif kind == 0 and one is not None and other is not None and one is not other:
            copy = {
                "do": "copyBufferToBuffer",
                "on": on.name,
                "source": one.name,
                "sourceOffset": 0,
                "target": other.name,
                "targetOffset": 0,
            }
            world.add({**copy, "size": random.choice([0, 0, 4])})
        elif kind in (1, 2) and one is not None and image is not None:
            word = random.choice(["copyBufferToTexture", "copyTextureToBuffer"])
            texels = [0, 1, 1] if image.call["samples"] == 1 and image.call["format"] in COLORS else whole(image)
            size = random.choice([texels, whole(image)])
            world.add(
                {"do": word, "on": on.name, "buffer": one.name, "texture": image.name, "size": size, "bytesPerRow": 256, "rowsPerImage": 4}
            )
        elif kind == 3 and image is not None and second is not None and image is not second:
            world.add(
                {
                    "do": "copyTextureToTexture",
                    "on": on.name,
                    "source": image.name,
                    "target": second.name,
                    "size": random.choice([[1, 1, 1], [0, 0, 0]]),
                }
            )
        elif one is not None:
            world.add({"do": "clearBuffer", "on": on.name, "buffer": one.name, **random.choice([{}, {"size": 0}])})
    if world.has_fault():
        world.add({"do": random.choice(["pushDebugGroup", "popDebugGroup"]), "on": on.name})


def resolve(world: World, on: Thing) -> None:
    """A resolve of all queries of a set, or of none, to a buffer that may be too short for them."""
    found = chosen(world, world.query_sets, on.made_at)
    target = chosen(world, [thing for thing in world.buffers if thing.call["usage"] & QUERY_RESOLVE], on.made_at)
    if found is not None and target is not None:
        count = world.random.choice([0, min(found.call["count"], target.call["size"] // BYTES)])
        if found.call["count"] == 0 and not world.has_fault():
            return
        call = {
            "do": "resolveQuerySet",
            "on": on.name,
            "queries": found.name,
            "first": 0,
            "count": count,
            "buffer": target.name,
            "offset": 0,
        }
        world.add(call)


def attach(world: World, on: Thing) -> None:
    """A render pass of one view, which holds a texture through it, and at times of a query set, of which a query is begun or not."""
    random = world.random
    found = chosen(world, [view for view in world.views if view.texture.call["usage"] & 16], on.made_at)
    if found is None:
        return
    name, load, store = world.new_name("r"), random.choice(["load", "clear"]), random.choice(["store", "discard"])
    begin: Call = {"do": "beginRenderPass", "on": on.name, "as": name, "colors": [{"view": found.name, "load": load, "store": store}]}
    if found.texture.call["format"] not in COLORS:
        aspects = [aspect for aspect in ("depth", "stencil") if aspect in found.texture.call["format"]]
        keys = {f"{aspect}{key}": word for aspect in aspects for key, word in (("Load", load), ("Store", store))}
        begin.update(colors=[], depth={"view": found.name, **keys})
    queries = chosen(world, world.query_sets, on.made_at)
    calls: list[Call] = (
        [{"do": "executeBundles", "bundles": [thing.name for thing in fit_bundles(world, found.texture, on)]}]
        if random.random() < 0.6
        else []
    )
    if queries is not None and random.random() < 0.5:
        begin["queries"] = queries.name
        if queries.call["count"] > 0 and random.random() < 0.5:
            calls += [{"do": "beginOcclusionQuery", "index": queries.call["count"] - 1}, {"do": "endOcclusionQuery"}]
    for call in [begin, *[{**call, "on": name} for call in [*calls, {"do": "end"}]]]:
        world.add(call)


def targets_of(texture: Thing) -> Call:
    """What is drawn to where a texture is attached alone, as the keys of a bundle encoder."""
    color = {"colors": [texture.call["format"]]} if texture.call["format"] in COLORS else {"colors": [], "depth": texture.call["format"]}
    return {"do": "createBundleEncoder", **color, "samples": texture.call["samples"]}


def fit_bundles(world: World, texture: Thing, on: Thing) -> list[Thing]:
    """A bundle or two that draw to what a texture is, or none; at times one that was dropped before an encoder was made."""
    found = [thing for thing in world.bundles if thing.good and thing.target == targets_of(texture)]
    found = [thing for thing in found if not thing.dropped or thing.dropped_after(on.made_at) or world.has_fault()]
    return world.random.sample(found[-4:], min(len(found[-4:]), world.random.choice([0, 1, 1, 2])))


def some_bundle_encoder(world: World) -> Thing:
    """One that is not finished, for a view that there is, or one that draws to nothing, which is invalid."""
    random = world.random
    found = [thing for thing in world.bundle_encoders if not thing.finished and (not thing.dropped or world.has_fault())]
    if found and random.random() < 0.7:
        return random.choice(found[-3:])
    views = [view for view in world.views if view.good and view.texture.call["usage"] & 16]
    if not views or world.has_fault():
        return world.bundle_encoder({"do": "createBundleEncoder", "colors": []}, False)
    return world.bundle_encoder(targets_of(random.choice(views[-3:]).texture))


def bundle(world: World) -> None:
    """Vertex and index buffers that are set on a bundle encoder, which is finished then as a rule."""
    random, on = world.random, some_bundle_encoder(world)
    for _ in range(random.choice([0, 1, 1, 2])):
        thing = chosen(world, [thing for thing in world.buffers if thing.call["usage"] & DRAWN], on.made_at)
        if thing is not None:
            settings: list[Call] = [
                {"do": "setVertexBuffer", "slot": random.choice([0, 7])},
                {"do": "setIndexBuffer", "format": "uint16"},
            ]
            setting = random.choice(settings)
            part: Call = random.choice([{}, {}, {"size": 0}, {"offset": thing.call["size"] // 4 * 4}])
            world.add({**setting, "on": on.name, "buffer": thing.name, **part})
    if random.random() < 0.65:
        world.finish_bundle(on).target = on.call


def whole(image: Thing) -> list[int]:
    return [image.call["size"][0], image.call["size"][1], 1]


def finish(world: World) -> None:
    world.finish(some_encoder(world) if not world.has_fault() or not world.encoders else world.random.choice(world.encoders))


def submit(world: World) -> None:
    """One or two command buffers that can be submitted, and at times any."""
    ready = [thing for thing in world.command_buffers if thing.good and not thing.submitted and not thing.dropped]
    some = world.command_buffers if world.has_fault() else ready
    world.submit(world.random.sample(some, min(len(some), world.random.choice([1, 1, 2]))))


def drop(world: World) -> None:
    """Of everything, that is not dropped as a rule; what takes memory more often than the rest."""
    random = world.random
    kept = [thing for thing in world.everything() if not thing.dropped or world.has_fault()]
    resources = [thing for thing in kept if thing in world.resources()]
    things = resources if resources and random.random() < 0.5 else kept
    if things:
        world.drop(random.choice(things[-12:]))


def destroy(world: World) -> None:
    found = chosen(world, world.resources(), len(world.calls))
    if found is not None:
        world.destroy(found)


def write(world: World) -> None:
    found = chosen(world, world.buffers, len(world.calls))
    if found is not None:
        size = min(found.call["size"] // 4 * 4, world.random.choice([0, 4, 8]))
        world.add({"do": "writeBuffer", "buffer": found.name, "offset": 0, "size": size})
        world.queued(found.good and not found.dropped and found.call["usage"] & 8 != 0)


def mapping(world: World) -> None:
    """A map of a buffer or the end of one."""
    found = chosen(world, [thing for thing in world.buffers if thing.call["usage"] in (9, 6)], len(world.calls))
    if found is not None:
        world.map(found, True, {"mode": 1 if found.call["usage"] == 9 else 2, "size": 4 if found.call["size"] >= 4 else 0})
    mapped = [thing for thing in world.buffers if thing.mapped]
    if mapped and world.random.random() < 0.6:
        world.random.choice([world.unmap, world.unmap, world.destroy])(world.random.choice(mapped))


ACTS: list[Act] = [
    buffer, texture, query_set, view, World.encoder, record, finish, bundle, submit, drop, destroy, complete, write, mapping, scope,
]
WEIGHTS = [6, 4, 3, 4, 3, 8, 4, 5, 4, 10, 2, 4, 3, 2, 1]
