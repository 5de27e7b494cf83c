"""Scripts with canvases: frames one after another, in the right order as a rule, and such in which something comes too early, too late,
twice or not at all.

Few objects and small extents, so that what a present gives back matters under a small budget.
"""

from __future__ import annotations

from typing import TYPE_CHECKING, Callable

from .regions import TEXELS
from .world import Thing, World
from .worlds import complete, destroy, drop, last_before_loss, scope, submit, work_done

if TYPE_CHECKING:
    from random import Random

    from .handed import Act, Call

FORMATS = ["rgba8unorm", "rgba8unorm", "bgra8unorm", "rgba16float"]
USAGES = [None, None, 16, 17, 18, 19, 20, 23, 3, 2]
BAD_USAGES = [0, 32, 63, 2**32 - 1]
BUDGETS = [2**53 - 1] * 6 + [1_000_000, 8, 16, 64, 64, 100, 128, 160, 400]
STORAGE = 8


class Canvas:
    """A canvas of the lane: its extent, what it was configured with last, which is nothing at first, and the texture that is current, or
    None."""

    def __init__(self, name: str, width: int, height: int) -> None:
        self.name = name
        self.extent = [width, height, 1]
        self.setting: tuple[str, int] | None = None
        self.current: Thing | None = None


def canvases(random: Random) -> tuple[int, list[Call]]:
    """A budget, and calls."""
    world = World(random, random.choice([0.02, 0.05, 0.2]))
    if random.random() < 0.5:
        world.buffer(usage=12, size=1024)
    count = random.randint(3, 30)
    last = last_before_loss(random, count, 0.1)
    for act in range(count):
        if act == last:
            world.lose()
        random.choices(ACTS, WEIGHTS)[0](world)
    if random.random() < 0.5:
        world.complete(world.issued)
    return random.choice(BUDGETS), world.calls


def make(world: World) -> Canvas:
    """A canvas, of a small extent as a rule, at times of one that no texture can have, or just can."""
    random = world.random
    width, height = random.choice([1, 2, 4, 4, 4, 8]), random.choice([1, 2, 4, 4])
    if world.has_fault():
        width, height = random.choice(
            [(0, 4), (4, 0), (0, 0), (8192, 1), (1, 8192), (8193, 1), (1, 16384), (16385, 1), (2**32 - 1, 2**32 - 1)]
        )
    canvas = Canvas(world.new_name("k"), width, height)
    world.add({"do": "createCanvas", "width": width, "height": height, "as": canvas.name})
    world.canvases.append(canvas)
    if random.random() < 0.8:
        configure(world, canvas)
    return canvas


def some_canvas(world: World) -> Canvas:
    random = world.random
    return random.choice(world.canvases[-3:]) if world.canvases and random.random() < 0.9 else make(world)


def ended(canvas: Canvas) -> None:
    """The current texture of a canvas, if there is one, is destroyed, and current no more."""
    if canvas.current is not None:
        canvas.current.destroyed = True
    canvas.current = None


def configure(world: World, canvas: Canvas | None = None) -> None:
    """A configureCanvas; what may be left out is, at times."""
    random, canvas = world.random, canvas or some_canvas(world)
    format, usage = random.choice(FORMATS), random.choice(USAGES)
    if format != "bgra8unorm" and random.random() < 0.1:
        usage = (usage or 16) | STORAGE
    if world.has_fault():
        usage = random.choice([*BAD_USAGES, STORAGE])
    world.add({"do": "configureCanvas", "canvas": canvas.name, "format": format, **({} if usage is None else {"usage": usage})})
    ended(canvas)
    canvas.setting = format, 16 if usage is None else usage


def texture(world: World, canvas: Canvas | None = None) -> Thing:
    """A currentTexture. Where there is a texture its new name is the one by which it is used from then on, or not. Without a configure the
    script is refused, which is seldom."""
    random, canvas = world.random, canvas or some_canvas(world)
    if canvas.setting is None and random.random() < 0.9:
        configure(world, canvas)
    name = world.new_name("t")
    world.add({"do": "currentTexture", "canvas": canvas.name, "as": name})
    if canvas.current is None:
        canvas.current = made(world, canvas, name)
        world.textures.append(canvas.current)
    elif random.random() < 0.5:
        canvas.current.name = name
    return canvas.current


def made(world: World, canvas: Canvas, name: str) -> Thing:
    """The texture of a canvas as a thing, which no drop may name."""
    format, usage = canvas.setting or ("rgba8unorm", 16)
    call: Call = {"do": "createTexture", "size": canvas.extent, "usage": usage, "format": format, "dim": "2d", "mips": 1, "samples": 1}
    is_good = 0 < usage < 32 and all(1 <= length <= 8192 for length in canvas.extent) and not (format == "bgra8unorm" and usage & STORAGE)
    thing = Thing(name, call, is_good and not world.is_lost)
    thing.made_at = len(world.calls)
    thing.size = canvas.extent[0] * canvas.extent[1] * TEXELS[format]
    thing.is_shown = True
    return thing


def present(world: World, canvas: Canvas | None = None) -> None:
    canvas = canvas or some_canvas(world)
    world.add({"do": "present", "canvas": canvas.name})
    ended(canvas)


def frame(world: World) -> None:
    """A texture, one or two command buffers that use it, a submit and a present; in another order, or without one of them, at times."""
    random, canvas = world.random, some_canvas(world)
    found = texture(world, canvas)
    if random.random() < 0.2:
        found = texture(world, canvas)
    work = [recorded(world, found) for _ in range(random.choice([0, 1, 1, 1, 2]))]
    if random.random() < 0.15:
        others: list[Callable[[World, Canvas], object]] = [configure, texture, destroyed, written]
        random.choice(others)(world, canvas)
    order = random.choices(["right", "early", "never", "twice", "unsubmitted"], [14, 3, 2, 1, 1])[0]
    if order == "early":
        present(world, canvas)
    if order != "unsubmitted":
        world.submit([thing for thing in work if thing.good or world.has_fault()])
    if order in ("right", "twice"):
        present(world, canvas)
    if order == "twice":
        present(world, canvas)


def destroyed(world: World, canvas: Canvas) -> None:
    """The script itself destroys what is current, and that stays so."""
    if canvas.current is not None:
        world.destroy(canvas.current)


def written(world: World, canvas: Canvas) -> None:
    if canvas.current is not None:
        write(world, canvas.current)


def write(world: World, thing: Thing | None = None) -> None:
    """A write of all or of a part of a texture, of a canvas as a rule."""
    random = world.random
    shown = [each for each in world.textures if each.is_shown]
    thing = thing or (random.choice(shown[-3:]) if shown else texture(world))
    width, height, _ = thing.call["size"]
    size = random.choice([[min(width, 8), min(height, 8), 1], [1, 1, 1], [0, 1, 1]])
    data = 8 * size[0] * size[1] + (world.has_fault() and -8 * size[0])
    world.add({"do": "writeTexture", "texture": thing.name, "size": size, "bytesPerRow": 8 * size[0], "dataSize": max(data, 0)})
    world.queued(thing.good and thing.call["usage"] & 2 != 0 and not thing.destroyed)


def recorded(world: World, thing: Thing) -> Thing:
    """A command buffer that uses a texture: attached, copied to or from, or not at all."""
    random, usage, encoder = world.random, thing.call["usage"], world.encoder()
    for _ in range(random.choice([1, 1, 2])):
        kinds = [kind for kind, bit in ((attach, 16), (copy_to, 2), (copy_from, 1)) if usage & bit or world.has_fault()]
        if kinds:
            random.choice(kinds)(world, encoder, thing)
    return world.finish(encoder)


def attach(world: World, encoder: Thing, thing: Thing) -> None:
    random = world.random
    old = [view for view in world.views if getattr(view, "texture", None) is thing and not view.dropped]
    view = random.choice(old) if old and random.random() < 0.6 else view_of(world, thing)
    name = world.new_name("p")
    color = {"view": view.name, "load": random.choice(["load", "clear"]), "store": random.choice(["store", "store", "discard"])}
    world.add({"do": "beginRenderPass", "on": encoder.name, "colors": [color], "as": name})
    if not world.has_fault():
        world.add({"do": "end", "on": name})
    encoder.good = encoder.good and view.good and thing.call["usage"] & 16 != 0


def view_of(world: World, thing: Thing) -> Thing:
    """A view of a texture, under whatever name of it; one of a second mip level or layer is invalid."""
    random = world.random
    more: Call = (
        random.choice([{"mips": 2}, {"baseMip": 1}, {"layers": 2}, {"baseLayer": 1}])
        if world.has_fault()
        else random.choice([{}, {}, {"dim": "2d-array"}])
    )
    view = world.make("v", {"do": "createView", "texture": thing.name, **more}, thing.good and set(more) <= {"dim"})
    view.texture = thing
    world.views.append(view)
    return view


def some_bytes(world: World) -> Thing:
    """A buffer to copy to and from."""
    old = [
        thing
        for thing in world.buffers
        if thing.call["usage"] == 12 and thing.call["size"] >= 1024 and not thing.destroyed and not thing.dropped
    ]
    return old[-1] if old else world.buffer(usage=12, size=1024)


def copy_to(world: World, encoder: Thing, thing: Thing) -> None:
    copy(world, encoder, thing, "copyBufferToTexture")


def copy_from(world: World, encoder: Thing, thing: Thing) -> None:
    copy(world, encoder, thing, "copyTextureToBuffer")


def copy(world: World, encoder: Thing, thing: Thing, word: str) -> None:
    random, buffer = world.random, some_bytes(world)
    width, height, _ = thing.call["size"]
    size = random.choice([[min(width, 8), min(height, 4), 1], [1, 1, 1], [0, 0, 1]])
    world.add({"do": word, "on": encoder.name, "buffer": buffer.name, "bytesPerRow": 256, "texture": thing.name, "size": size})


ACTS: list[Act] = [make, configure, texture, present, frame, write, submit, complete, scope, work_done, destroy, drop]
WEIGHTS = [2, 2, 3, 3, 12, 2, 1, 3, 1, 1, 1, 1]
