"""Places in textures and layouts of texels: good ones, often just within, and ways to miss one rule by one."""

from __future__ import annotations

from typing import TYPE_CHECKING

from .resources import DEPTH_FORMATS, layers_of

if TYPE_CHECKING:
    from random import Random

    from .handed import Call, SpotFault

TEXELS = {
    "r8unorm": 1, "rg8unorm": 2, "rgba8unorm": 4, "rgba8unorm-srgb": 4, "bgra8unorm": 4, "r32uint": 4, "r32float": 4, "rgba16float": 8,
    "rgba32float": 16, "depth16unorm": 2, "depth24plus": 4, "depth24plus-stencil8": 1, "depth32float": 4, "stencil8": 1,
}


GREATEST = 2**32 - 1


def extent(texture: Call, mip: int) -> list[int]:
    """The extent of a mip level; of one that the texture lacks, some small extent."""
    shift = min(mip, 40)
    width, height, depth = texture["size"]
    if texture["dim"] == "3d":
        return [max(width >> shift, 1), max(height >> shift, 1), max(depth >> shift, 1)]
    return [max(width >> shift, 1), max(height >> shift, 1), max(layers_of(texture), 1)]


def needs_whole(texture: Call) -> bool:
    """Depth, stencil and multisampled textures are copied in whole width and height."""
    return texture["format"] in DEPTH_FORMATS or texture["samples"] == 4


def region(random: Random, texture: Call, mip: int | None = None) -> tuple[int, list[int], list[int]]:
    """A mip level, an origin and a size that are in the texture."""
    mip = random.randrange(max(min(texture["mips"], 20), 1)) if mip is None else mip
    origin, size = [], []
    whole = random.random() < 0.4
    for at, length in enumerate(extent(texture, mip)):
        if (at < 2 and (whole or needs_whole(texture))) or random.random() < 0.15:
            first, count = 0, length
        else:
            first = random.choice([0, 0, random.randrange(length), length])
            count = random.choice([length - first, length - first, random.randint(0, length - first), min(1, length - first)])
        if at == 2 and count > 3 and random.random() < 0.8:
            count = random.randint(1, 3)
        origin.append(first)
        size.append(count)
    return mip, origin, size


def no_mip(random: Random, texture: Call, spot: Call) -> None:
    spot["mip"] = texture["mips"]


def past(at: int, by_size: bool) -> SpotFault:
    """One more than the extent, in size or in origin."""
    def change(random: Random, texture: Call, spot: Call) -> None:
        length = extent(texture, spot["mip"])[at]
        if by_size:
            spot["size"][at] = length - min(spot["origin"][at], length) + 1
        else:
            spot["origin"][at] = length - spot["size"][at] + 1
    return change


def part_of(at: int, by_size: bool) -> SpotFault:
    """One less than the whole width or height, at its begin or its end."""
    def change(random: Random, texture: Call, spot: Call) -> None:
        length = extent(texture, spot["mip"])[at]
        spot["size"][at] = length - 1
        spot["origin"][at] = 0 if by_size else 1
    return change


def huge(random: Random, texture: Call, spot: Call) -> None:
    """The greatest numbers of 32 bits, whose sums have more."""
    key = random.choice(["mip", "origin", "size", "both"])
    at = random.randrange(3)
    if key == "mip":
        spot["mip"] = GREATEST
    if key in ("origin", "both"):
        spot["origin"][at] = GREATEST
    if key in ("size", "both"):
        spot["size"][at] = GREATEST


SPOT_FAULTS = [no_mip, huge] + [past(at, by_size) for at in range(3) for by_size in (False, True)]
WHOLE_FAULTS = [part_of(at, by_size) for at in range(2) for by_size in (False, True)]


def spoil_spot(random: Random, texture: Call, spot: Call) -> None:
    """Leaves rule 258 or 207 unmet by one."""
    faults = SPOT_FAULTS + (WHOLE_FAULTS * 2 if needs_whole(texture) else [])
    random.choice(faults)(random, texture, spot)


def round_up(number: int, step: int) -> int:
    return -(-number // step) * step


def layout(random: Random, texel: int, size: list[int], step: int) -> Call:
    """bytesPerRow, a multiple of the step, and rowsPerImage: left out where they may be, and often the least that is right."""
    width, height, depth = size
    found = {}
    if height > 1 or depth > 1 or random.random() < 0.5:
        found["bytesPerRow"] = min(round_up(width * texel, step) + random.choice([0, 0, 0, step, 2 * step]), GREATEST)
    if depth > 1 or random.random() < 0.3:
        found["rowsPerImage"] = min(height + random.choice([0, 0, 0, 1, 3]), GREATEST)
    if depth > 1 and random.random() < 0.03:
        found.update(bytesPerRow=GREATEST // step * step, rowsPerImage=max(random.choice([2**20, 2**21, GREATEST]), found["rowsPerImage"]))
    return found


def bytes_of(spot: Call, texel: int) -> int:
    """The bytes that a layout takes; a foretaste, the model finds them apart."""
    width, height, depth = spot["size"]
    if depth == 0:
        return 0
    row, rows = spot.get("bytesPerRow", 0), spot.get("rowsPerImage", 0)
    last = row * (height - 1) + width * texel if height else 0
    return row * rows * (depth - 1) + last


def spoil_layout(random: Random, spot: Call, texel: int, step: int) -> None:
    """Leaves the layout wrong by one, where it can be."""
    width, height, depth = spot["size"]
    fault = random.randrange(5)
    if fault == 0:
        spot.pop("bytesPerRow", None)
        if depth > 1 and random.random() < 0.5:
            spot["size"][1] = min(height, 1)
    elif fault == 1:
        spot.pop("rowsPerImage", None)
    elif fault == 2 and width > 0:
        spot["bytesPerRow"] = (width * texel - 1) // step * step
    elif fault == 3 and height > 0:
        spot["rowsPerImage"] = height - 1
    else:
        spot["bytesPerRow"] = min(round_up(width * texel, step) + 1, GREATEST)
