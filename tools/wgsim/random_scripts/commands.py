"""Commands of encoders, and queue writes: good ones, often just within, and ones that leave a rule unmet by one.

Each function adds a call to the world, with the objects that it needs. Where `good` is false one value of it is spoiled.
"""

from __future__ import annotations

from typing import TYPE_CHECKING, Any, Collection

from .querying import resolve_queries
from .regions import TEXELS, bytes_of, layout, region, spoil_layout, spoil_spot
from .resources import ASPECTS, COLOR_FORMATS, DEPTH_FORMATS, ONE_SAMPLE_FORMATS

if TYPE_CHECKING:
    from random import Random

    from .handed import Call
    from .world import Thing, World

COPY_TO_FORMATS = COLOR_FORMATS + ["depth16unorm", "depth24plus-stencil8", "stencil8"]
COPY_FROM_FORMATS = COPY_TO_FORMATS + ["depth32float"]
NAMED = {"depth24plus-stencil8": ["stencil-only"], "stencil8": ["all", "stencil-only"]}
HUGE = [2**53 - 1, 2**53 - 4, 2**32, 2**32 - 4, 2**32 - 1]


def with_usage(world: World, usage: int, size: int | None = None) -> Thing:
    """A buffer with a usage, at times one that is there already."""
    old = [thing for thing in world.buffers if thing.call["usage"] & usage == usage and (size is None or thing.call["size"] >= size)]
    found = world.some(old) if old and world.random.random() < 0.7 else None
    if found is not None:
        return found
    usage = {1: 9, 2: 6}.get(usage) or world.random.choice([usage, 12])
    return world.buffer(usage=usage) if size is None else world.buffer(usage=usage, size=size)


def textures_for(world: World, usage: int, formats: list[str], samples: int = 1, **wanted: Any) -> Thing:
    """A texture with a usage, of one of some formats, at times one that is there already."""
    random = world.random
    old = [
        thing for thing in world.textures
        if thing.call["usage"] & usage == usage and thing.call["format"] in formats and thing.call["samples"] == samples
    ]
    found = world.some(old) if old and not wanted and random.random() < 0.7 else None
    if found is not None:
        return found
    color = [format for format in formats if format in COLOR_FORMATS]
    format = random.choice(formats if random.random() < 0.5 or not color else color)
    dim = "2d" if format in DEPTH_FORMATS else None
    return world.texture(samples=samples, format=format, dim=dim, usage=random.choice([usage, 3]), **wanted)


def byte_range(random: Random, buffer: Thing) -> tuple[int, int]:
    """A range of a buffer whose ends are multiples of 4; often the last that fits."""
    words = buffer.call["size"] // 4
    first = random.choice([0, 0, random.randint(0, words), words])
    count = random.choice([words - first, random.randint(0, words - first), min(words - first, 1), 0])
    return 4 * first, 4 * count


def spoil_range(random: Random, call: Call, offset: str, size: str, buffer: Thing) -> None:
    """An offset or a size that is unaligned, or past the end by one word, or huge."""
    end = buffer.call["size"] // 4 * 4
    fault = random.randrange(6)
    if fault == 0:
        call[offset] += random.choice([1, 2, 3])
    elif fault == 1:
        call[size] += random.choice([1, 2, 3])
    elif fault == 2:
        call[size] = max(end - call[offset], 0) + 4
    elif fault == 3:
        call[offset] = end - call[size] + 4 if end >= call[size] else end + 4
    else:
        call[random.choice([offset, size])] = random.choice(HUGE)


def lacking(world: World, usage: int) -> Thing:
    """A buffer without a usage, or one that is invalid."""
    return world.buffer(usage=12 & ~usage | 16) if world.random.random() < 0.7 else world.buffer(good=False)


def lacking_texture(world: World, usage: int, thing: Thing) -> Thing:
    """A texture like another, without a usage or invalid or with 4 samples."""
    fault = world.random.randrange(3)
    if fault == 0:
        return world.texture(usage=3 & ~usage, samples=1, format=thing.call["format"], dim=thing.call["dim"])
    if fault == 1:
        return world.texture(usage=3, samples=4)
    return world.texture(good=False)


def write_buffer(world: World, good: bool, buffer: Thing | None = None) -> None:
    random = world.random
    buffer = buffer or with_usage(world, 8)
    if not good and random.random() < 0.3:
        buffer = lacking(world, 8)
    call: Call = {"do": "writeBuffer", "buffer": buffer.name}
    call["offset"], call["size"] = byte_range(random, buffer)
    if not good and random.random() < 0.8:
        spoil_range(random, call, "offset", "size", buffer)
    world.add(call)
    world.queued(good)


def map_range(random: Random, buffer: Thing) -> tuple[int, int]:
    """A range that can be mapped: its offset a multiple of 8, its size of 4; often the last that fits."""
    words = buffer.call["size"] // 4
    first = 2 * random.choice([0, 0, random.randint(0, words // 2), words // 2])
    return 4 * first, 4 * random.choice([words - first, random.randint(0, words - first), 0])


MAP_FAULTS = ["usage", "usage", "mode", "range", "range", "range", "offset", "again"]


def map_async(world: World, good: bool) -> None:
    """A map of a buffer, or one that leaves a rule unmet."""
    random, mode = world.random, world.random.choice([1, 2])
    fault = None if good else random.choice(MAP_FAULTS)
    buffer = lacking(world, mode) if fault == "usage" and random.random() < 0.4 else with_usage(world, mode)
    mode = 3 - mode if fault == "usage" else random.choice([0, 3, 4, 2**32 - 1]) if fault == "mode" else mode
    call: Call = {"mode": mode}
    call["offset"], call["size"] = map_range(random, buffer)
    if fault == "range":
        spoil_range(random, call, "offset", "size", buffer)
    elif fault == "offset":
        call["offset"] += random.choice([4, 4, 1, 2])
    if random.random() < 0.3:
        del call["size"]
    if call["offset"] == 0 and random.random() < 0.6:
        del call["offset"]
    if mode == 1 and buffer.good and not buffer.mapped and not buffer.destroyed and buffer.call["usage"] & 8 and random.random() < 0.6:
        write_buffer(world, True, buffer)
    elif mode == 2 and buffer.good and buffer.call["usage"] & 4 and random.random() < 0.4:
        copied_away(world, buffer)
    if fault == "again":
        world.map(buffer, True, call)
    world.map(buffer, good, call)


def copied_away(world: World, buffer: Thing) -> None:
    """A submit that copies from a buffer, at times nothing."""
    encoder, target = world.encoder(), world.buffer(usage=12)
    size = 4 if min(buffer.call["size"], target.call["size"]) >= 4 and world.random.random() < 0.7 else 0
    call: Call = {"do": "copyBufferToBuffer", "on": encoder.name, "source": buffer.name, "target": target.name}
    world.add({**call, "sourceOffset": 0, "targetOffset": 0, "size": size})
    world.submit([world.finish(encoder)])


def clear_buffer(world: World, encoder: Thing, good: bool) -> None:
    random, buffer = world.random, with_usage(world, 8)
    if not good and random.random() < 0.3:
        buffer = lacking(world, 8)
    call: Call = {"do": "clearBuffer", "on": encoder.name, "buffer": buffer.name}
    call["offset"], call["size"] = byte_range(random, buffer)
    if not good:
        spoil_range(random, call, "offset", "size", buffer)
    if random.random() < 0.3:
        del call["size"]
    if random.random() < 0.2:
        del call["offset"]
    world.add(call)


def copy_buffer(world: World, encoder: Thing, good: bool) -> None:
    random = world.random
    source, target = with_usage(world, 4), with_usage(world, 8)
    if source is target and (good or random.random() < 0.8):
        target = world.buffer(usage=12)
    if not good and random.random() < 0.1:
        source = target = world.buffer(usage=12)
    elif not good and random.random() < 0.4:
        source, target = random.choice([(lacking(world, 4), target), (source, lacking(world, 8))])
    call: Call = {"do": "copyBufferToBuffer", "on": encoder.name, "source": source.name, "target": target.name}
    call["sourceOffset"], call["size"] = byte_range(random, source)
    call["targetOffset"], room = byte_range(random, target)
    call["size"] = min(call["size"], room)
    if not good and (source is not target or random.random() < 0.3):
        keys, thing = random.choice([(("sourceOffset", "size"), source), (("targetOffset", "size"), target)])
        spoil_range(random, call, *keys, thing)
    world.add(call)


def texel_spot(random: Random, info: Call, faults: Collection[str], step: int) -> tuple[Call, int]:
    """Place, aspect and layout of a copy between bytes and a texture, and the bytes of a texel."""
    mip, origin, size = region(random, info)
    spot: Call = {"mip": mip, "origin": origin, "size": size, "aspect": random.choice(NAMED.get(info["format"], ["all"]))}
    if "spot" in faults:
        spoil_spot(random, info, spot)
    if "aspect" in faults:
        spot["aspect"] = random.choice(ASPECTS)
    texel = TEXELS[info["format"]]
    spot.update(layout(random, texel, spot["size"], step))
    if "layout" in faults:
        spoil_layout(random, spot, texel, step)
    spot["offset"] = random.choice([0, 0, 1, 2, 3, 64]) * (texel if info["format"] in COLOR_FORMATS else 4)
    if "offset" in faults:
        spot["offset"] = random.choice([spot["offset"] + 1, spot["offset"] + 1, spot["offset"] + 2, *HUGE])
    return spot, texel


TEXEL_FAULTS = ["spot"] * 5 + ["layout"] * 4 + ["texture", "texture", "format", "aspect", "offset", "bytes", "bytes", "buffer"]


def texel_faults(random: Random, good: bool) -> list[str]:
    """What is spoiled of such a copy: one thing as a rule, at times two, so that the order of rules shows."""
    return [] if good else random.sample(TEXEL_FAULTS, random.choice([1, 1, 2]))


def texel_texture(world: World, usage: int, formats: list[str], faults: Collection[str]) -> Thing:
    """The texture of such a copy."""
    texture = textures_for(world, usage, DEPTH_FORMATS if "format" in faults else formats)
    return lacking_texture(world, usage, texture) if "texture" in faults else texture


def usual_left_out(random: Random, spot: Call) -> Call:
    usual = {"mip": 0, "origin": [0, 0, 0], "aspect": "all", "offset": 0}
    return {key: value for key, value in spot.items() if usual.get(key) != value or random.random() < 0.4}


def write_texture(world: World, good: bool, texture: Thing | None = None) -> None:
    random = world.random
    faults = texel_faults(random, good)
    texture = texture or texel_texture(world, 2, COPY_TO_FORMATS, faults)
    spot, texel = texel_spot(random, texture.call, faults, 1)
    size = spot["offset"] + bytes_of(spot, texel)
    size = min(size, 2**53 - 101)
    spot["dataSize"] = max(size - 1, 0) if "bytes" in faults or "buffer" in faults else size + random.choice([0, 0, 0, 1, 100])
    world.add({"do": "writeTexture", "texture": texture.name, **usual_left_out(random, spot)})
    world.queued(good)


def copy_texels(world: World, encoder: Thing, good: bool, do: str) -> None:
    """A copy between a buffer and a texture, either way."""
    random = world.random
    faults = texel_faults(random, good)
    texture_usage, buffer_usage = (2, 4) if do == "copyBufferToTexture" else (1, 8)
    texture = texel_texture(world, texture_usage, COPY_TO_FORMATS if texture_usage == 2 else COPY_FROM_FORMATS, faults)
    spot, texel = texel_spot(random, texture.call, faults, 256)
    size = spot["offset"] + bytes_of(spot, texel)
    if "bytes" in faults:
        buffer = world.buffer(usage=12, size=max(min(size, 2**28) - 1, 0))
    elif "buffer" in faults:
        buffer = lacking(world, buffer_usage)
    else:
        buffer = with_usage(world, buffer_usage, min(size, 2**28))
    world.add({"do": do, "on": encoder.name, "buffer": buffer.name, "texture": texture.name, **usual_left_out(random, spot)})


def twin_of(world: World, texture: Thing, good: bool) -> Thing:
    """A texture that one can be copied to: itself, or one of a format that fits."""
    random, format = world.random, texture.call["format"]
    if random.random() < 0.4 and (texture.call["usage"] & 2 or not good):
        return texture
    if format.startswith("rgba8unorm") and random.random() < 0.5:
        format = random.choice(["rgba8unorm", "rgba8unorm-srgb"])
    if not good and random.random() < 0.3:
        format = random.choice(COLOR_FORMATS)
    samples = texture.call["samples"] if good or random.random() < 0.8 else 5 - texture.call["samples"]
    if samples == 4 and format in ONE_SAMPLE_FORMATS:
        format = texture.call["format"] if texture.call["samples"] == 4 else "rgba8unorm"
    return textures_for(world, 2, [format], samples)


def copy_texture(world: World, encoder: Thing, good: bool) -> None:
    random = world.random
    samples = 4 if random.random() < 0.1 else 1
    formats = ["rgba8unorm", "rgba8unorm", "depth24plus", "depth24plus-stencil8"] if samples == 4 else COLOR_FORMATS + DEPTH_FORMATS
    source = textures_for(world, 1, formats, samples)
    target = twin_of(world, source, good)
    if not good and random.random() < 0.3:
        source, target = random.choice([(lacking_texture(world, 1, source), target), (source, lacking_texture(world, 2, target))])
    mip, origin, size = region(random, source.call)
    other, target_origin, room = region(random, target.call)
    if not (source.call["format"] in DEPTH_FORMATS or samples == 4) or good and random.random() < 0.5:
        size = [min(one, two) for one, two in zip(size, room)]
    spots: list[Call] = [{"mip": mip, "origin": origin, "size": list(size)}, {"mip": other, "origin": target_origin, "size": list(size)}]
    if source is target and random.random() < 0.6 and source.call["dim"] == "2d":
        spots[1].update(mip=mip, origin=[*origin[:2], origin[2] + size[2] - (0 if good else 1) if random.random() < 0.8 else 0])
    if not good and random.random() < 0.6:
        at = random.randrange(2)
        spoil_spot(random, (source, target)[at].call, spots[at])
        size = spots[at]["size"]
    world.add(told_copy(random, encoder, source, target, spots, size))


def told_copy(random: Random, encoder: Thing, source: Thing, target: Thing, spots: list[Call], size: list[int]) -> Call:
    call: Call = {"do": "copyTextureToTexture", "on": encoder.name, "source": source.name, "target": target.name, "size": size}
    for key, spot in zip(("source", "target"), spots):
        for part, usual in (("mip", 0), ("origin", [0, 0, 0])):
            if spot[part] != usual or random.random() < 0.4:
                call[key + part.capitalize()] = [max(length, 0) for length in spot[part]] if part == "origin" else spot[part]
    return call


def debug_group(world: World, encoder: Thing, good: bool) -> None:
    if good and world.random.random() < 0.25:
        world.add({"do": "insertDebugMarker", "on": encoder.name})
    elif encoder.groups > 0 and world.random.random() < 0.5 or not good:
        world.add({"do": "popDebugGroup", "on": encoder.name})
        encoder.groups = max(encoder.groups - 1, 0)
    else:
        world.add({"do": "pushDebugGroup", "on": encoder.name})
        encoder.groups += 1


def to_texture(world: World, encoder: Thing, good: bool) -> None:
    copy_texels(world, encoder, good, "copyBufferToTexture")


def to_buffer(world: World, encoder: Thing, good: bool) -> None:
    copy_texels(world, encoder, good, "copyTextureToBuffer")


COMMANDS = [copy_buffer, to_texture, to_buffer, copy_texture, clear_buffer, debug_group, resolve_queries]
WEIGHTS = [4, 5, 5, 7, 3, 2, 3]


def command(world: World, encoder: Thing, good: bool) -> None:
    """Some command on an encoder."""
    world.random.choices(COMMANDS, WEIGHTS)[0](world, encoder, good)
    encoder.commands += 1
    encoder.good = encoder.good and good
