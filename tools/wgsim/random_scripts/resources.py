"""Buffers, textures, views and query sets: good ones, often with a rule just met, and ways to leave one rule unmet by one."""

from __future__ import annotations

import copy
from typing import TYPE_CHECKING, Any

from .limiting import of as limit
from model.limits import DEFAULTS

if TYPE_CHECKING:
    from random import Random

    from .handed import Call, CallFault

COLOR_FORMATS = [
    "r8unorm", "rg8unorm", "rgba8unorm", "rgba8unorm-srgb", "bgra8unorm", "r32uint", "r32float", "rgba16float", "rgba32float",
]
DEPTH_FORMATS = ["depth16unorm", "depth24plus", "depth24plus-stencil8", "depth32float", "stencil8"]
STORAGE_FORMATS = ["rgba8unorm", "r32uint", "r32float", "rgba16float", "rgba32float"]
SAMPLED_FORMATS = ["rgba8unorm", "rgba8unorm-srgb", "bgra8unorm", "rgba16float"] + DEPTH_FORMATS
ONE_SAMPLE_FORMATS = ["r8unorm", "rg8unorm", "r32uint", "r32float", "rgba32float"]
MOST_QUERIES = 4096
ASPECTS = ["all", "depth-only", "stencil-only"]
VIEW_DIMS = ["1d", "2d", "2d-array", "cube", "cube-array", "3d"]


def most_extents(dim: str) -> list[int]:
    """The greatest width, height, and depth or layers of a dimension."""
    if dim == "3d":
        return [limit("maxTextureDimension3D")] * 3
    if dim == "1d":
        return [limit("maxTextureDimension1D"), 1, 1]
    return [limit("maxTextureDimension2D"), limit("maxTextureDimension2D"), limit("maxTextureArrayLayers")]


def good_buffer(random: Random) -> Call:
    greatest = limit("maxBufferSize")
    size = random.choice([0, 4, 7, 8, 16, 16, 16, 32, 64, 256, 1024, 4096, 65536, greatest])
    usage = random.choice([12, 12, 12, 12, 12, 4, 8, 1, 2, 9, 6, 1020, 12 + 16 * random.randrange(64)])
    call = {"do": "createBuffer", "size": size, "usage": usage}
    if random.random() < 0.08 and size % 4 == 0 and size < DEFAULTS["maxBufferSize"]:
        return {**call, "mapped": True}
    return {**call, "mapped": False} if random.random() < 0.1 else call


BUFFER_FAULTS = [
    lambda random, call: call.update(usage=0),
    lambda random, call: call.update(usage=1024 + random.choice([0, 12])),
    lambda random, call: call.update(usage=1 | random.choice([2, 4, 12, 16, 520])),
    lambda random, call: call.update(usage=2 | random.choice([8, 12, 32, 516])),
    lambda random, call: call.update(size=limit("maxBufferSize") + 1),
    lambda random, call: call.update(size=2**53 - 1),
    lambda random, call: call.update(size=random.choice([1, 2, 3, 6, 4094]), mapped=True),
]


def most_mips(dim: str, size: list[int]) -> int:
    """The greatest count of mip levels."""
    if dim == "1d":
        return 1
    return max(size if dim == "3d" else size[:2]).bit_length()


def extents(random: Random, dim: str) -> list[int]:
    """Width, height, and depth or layers: small as a rule, so that copies meet, and now and then at the limit."""
    small = [1, 1, 2, 3, 4, 4, 5, 7, 8, 16]
    size = [random.choice(small) for _ in range(3)]
    if dim == "2d":
        size[2] = random.choice([1, 1, 1, 2, 3, 4, 6, 7, 12, 13])
        if random.random() < 0.3:
            size[1] = size[0]
    if random.random() < 0.06:
        at = random.randrange(3)
        size[at] = most_extents(dim)[at] - random.choice([0, 0, 1])
    return [max(size[0], 1), 1, 1] if dim == "1d" else [max(length, 1) for length in size]


def good_texture(
    random: Random, dim: str | None = None, samples: int | None = None, format: str | None = None, usage: int | None = None
) -> Call:
    """A createTexture with all its keys."""
    dim = dim or random.choices(["1d", "2d", "3d"], [2, 8, 3])[0]
    samples = samples or (4 if dim == "2d" and random.random() < 0.08 else 1)
    size = extents(random, dim)
    if samples == 4:
        size[2] = 1
        format = format or random.choice(SAMPLED_FORMATS)
        usage = 16 | (usage or random.choice([0, 1, 2, 3, 7]))
    format = format or random.choice(COLOR_FORMATS + (DEPTH_FORMATS if dim == "2d" else []))
    usage = usage or random.choice([1, 2, 3, 3, 3, 3, 3, 7, 4])
    if samples == 1 and random.random() < 0.2:
        usage |= 16 if dim != "1d" else 4
        usage |= 8 if format in STORAGE_FORMATS else 0
    most = most_mips(dim, size) if samples == 1 else 1
    mips = random.choice([1, 1, most, random.randint(1, most)])
    return {"do": "createTexture", "size": size, "usage": usage, "format": format, "dim": dim, "mips": mips, "samples": samples}


def past_limit(at: int) -> CallFault:
    def change(random: Random, call: Call) -> None:
        call["size"][at] = most_extents(call["dim"])[at] + 1
    return change


def no_extent(at: int) -> CallFault:
    def change(random: Random, call: Call) -> None:
        call["size"][at] = 0
    return change


def four_samples(**values: Any) -> CallFault:
    def change(random: Random, call: Call) -> None:
        call.update(good_texture(random, dim="2d", samples=4))
        call.update(copy.deepcopy(values))
    return change


def more_of(**values: Any) -> CallFault:
    def change(random: Random, call: Call) -> None:
        call.update(copy.deepcopy(values))
    return change


def not_color(random: Random, call: Call) -> None:
    dim = random.choice(["1d", "3d"])
    call.update(good_texture(random, dim=dim))
    call.update(format=random.choice(DEPTH_FORMATS))


TEXTURE_FAULTS = [
    more_of(usage=0), more_of(usage=32), more_of(usage=35), no_extent(0), no_extent(1), no_extent(2), past_limit(0), past_limit(1),
    past_limit(2), more_of(mips=0),
    lambda random, call: call.update(mips=most_mips(call["dim"], call["size"]) + 1),
    lambda random, call: call.update(samples=random.choice([0, 2, 3, 5, 8])),
    four_samples(dim="1d", size=[4, 1, 1]), four_samples(dim="3d"), four_samples(mips=2, size=[2, 2, 1]), four_samples(size=[2, 2, 2]),
    four_samples(usage=3), four_samples(usage=24, format="rgba8unorm"),
    lambda random, call: four_samples(format=random.choice(ONE_SAMPLE_FORMATS))(random, call),
    not_color, not_color, more_of(dim="1d", size=[4, 1, 1], mips=1, samples=1, format="r8unorm", usage=18),
    more_of(samples=1, usage=10, format="r8unorm"), more_of(dim="1d", size=[8, 1, 1], mips=2, samples=1, format="r8unorm", usage=3),
    lambda random, call: call.update(samples=1, usage=10, dim="2d", format=random.choice(COLOR_FORMATS + DEPTH_FORMATS)),
]


def layers_of(texture: Call) -> int:
    return texture["size"][2] if texture["dim"] == "2d" else 1


def good_view(random: Random, texture: Call) -> Call:
    """A createView of a texture, with some keys left out."""
    layers, square = layers_of(texture), texture["size"][0] == texture["size"][1]
    dims = [texture["dim"]]
    if texture["dim"] == "2d" and texture["samples"] == 1:
        dims += ["2d-array"] + (["cube", "cube-array", "cube-array"] if square and layers >= 6 else [])
    dim = random.choice(dims)
    call = {"do": "createView", "dim": dim, "baseMip": random.randrange(texture["mips"])}
    call["mips"] = random.choice([texture["mips"] - call["baseMip"], random.randint(1, texture["mips"] - call["baseMip"])])
    count = {"cube": 6, "cube-array": random.choice([6, layers // 6 * 6]), "2d-array": random.randint(1, layers)}.get(dim, 1)
    call["layers"] = count
    call["baseLayer"] = random.choice([0, layers - count])
    if random.random() < 0.3:
        call["aspect"] = "all"
    return without_some(random, call, ["dim", "mips", "baseMip", "baseLayer", "layers"])


def without_some(random: Random, call: Call, keys: list[str]) -> Call:
    """Leaves some keys out, mostly none."""
    if random.random() < 0.5:
        return call
    return {key: value for key, value in call.items() if key not in keys or random.random() < 0.5}


def mips_past(random: Random, call: Call, texture: Call) -> None:
    base = random.randrange(texture["mips"] + 1)
    call.update(baseMip=base, mips=texture["mips"] - base + 1)


def layers_past(random: Random, call: Call, texture: Call) -> None:
    base = random.randrange(layers_of(texture) + 1)
    call.update(baseLayer=base, layers=layers_of(texture) - base + 1)


VIEW_FAULTS = [
    lambda random, call, texture: call.update(aspect=random.choice(ASPECTS)),
    lambda random, call, texture: call.update(mips=0),
    lambda random, call, texture: call.update(layers=0),
    mips_past, layers_past, layers_past,
    lambda random, call, texture: call.update(baseMip=texture["mips"]),
    lambda random, call, texture: call.update(baseLayer=layers_of(texture)),
    lambda random, call, texture: call.update(dim=random.choice(VIEW_DIMS)),
    lambda random, call, texture: call.update(dim=random.choice(VIEW_DIMS), layers=1, baseLayer=0),
    lambda random, call, texture: call.update(
        dim=random.choice(["2d", "cube", "cube-array"]), layers=random.choice([2, 5, 7, 11, 13]), baseLayer=0
    ),
    lambda random, call, texture: call.update(dim="cube", layers=6, baseLayer=0),
    lambda random, call, texture: call.update(dim="cube-array", layers=6, baseLayer=0),
    lambda random, call, texture: call.update(baseMip=2**32 - 1, mips=2**32 - 1),
    lambda random, call, texture: call.update(baseLayer=2**32 - 1, layers=random.choice([1, 2**32 - 1])),
]


def good_query_set(random: Random) -> Call:
    """Few queries as a rule; now and then none, or as many as there may be."""
    return {"do": "createQuerySet", "count": random.choice([1, 2, 2, 2, 3, 3, 4, 5, 8, 33, 0, MOST_QUERIES - 1, MOST_QUERIES])}


QUERY_SET_FAULTS = [
    lambda random, call: call.update(count=MOST_QUERIES + 1),
    lambda random, call: call.update(count=random.choice([MOST_QUERIES + 1, 2 * MOST_QUERIES, 2**16, 2**29, 2**31, 2**32 - 1])),
]
