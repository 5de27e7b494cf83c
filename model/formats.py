"""Texture formats, and the extents of textures and their mip levels."""

from __future__ import annotations

from typing import Any

ASPECT_WORDS = ("all", "depth-only", "stencil-only")
TEXTURE_DIMS = ("1d", "2d", "3d")
VIEW_DIMS = ("1d", "2d", "2d-array", "cube", "cube-array", "3d")
SAMPLE_WORDS = ("float", "unfilterable-float", "depth", "sint", "uint")
ACCESS_WORDS = ("read-only", "write-only", "read-write")

# The bytes that an attribute of a vertex buffer takes, for each of its formats.
VERTEX_FORMATS = {
    "uint8x2": 2,
    "uint8x4": 4,
    "unorm8x4": 4,
    "uint16x2": 4,
    "float16x2": 4,
    "float32": 4,
    "uint32": 4,
    "sint32": 4,
    "float16x4": 8,
    "float32x2": 8,
    "float32x3": 12,
    "float32x4": 16,
}

# The aspects in the order in which they are printed.
ASPECTS = ("color", "depth", "stencil")

COLOR, DEPTH, STENCIL, BOTH = ("color",), ("depth",), ("stencil",), ("depth", "stencil")

# Of each format: its aspects, whether it can be accessed as storage, and whether a texture of it may have 4 samples.
FORMATS = {
    "r8unorm": (COLOR, False, False),
    "rg8unorm": (COLOR, False, False),
    "rgba8unorm": (COLOR, True, True),
    "rgba8unorm-srgb": (COLOR, False, True),
    "bgra8unorm": (COLOR, False, True),
    "r32uint": (COLOR, True, False),
    "r32float": (COLOR, True, False),
    "rgba16float": (COLOR, True, True),
    "rgba32float": (COLOR, True, False),
    "depth16unorm": (DEPTH, False, True),
    "depth24plus": (DEPTH, False, True),
    "depth24plus-stencil8": (BOTH, False, True),
    "depth32float": (DEPTH, False, True),
    "stencil8": (STENCIL, False, True),
}

# As what the color aspect of each format is sampled; a depth aspect is sampled as depth, and a stencil aspect as uint.
COLOR_SAMPLED = {
    "r8unorm": "float",
    "rg8unorm": "float",
    "rgba8unorm": "float",
    "rgba8unorm-srgb": "float",
    "bgra8unorm": "float",
    "rgba16float": "float",
    "r32float": "unfilterable-float",
    "rgba32float": "unfilterable-float",
    "r32uint": "uint",
}

# The formats that shaders may both read and write as storage; all that are accessed as storage may be read, or written.
READ_WRITE = ("r32uint", "r32float")

# The bytes that a texel takes in the memory of a device, for each format, in all of its aspects together.
MEMORY_OF_TEXEL = {
    "r8unorm": 1,
    "rg8unorm": 2,
    "rgba8unorm": 4,
    "rgba8unorm-srgb": 4,
    "bgra8unorm": 4,
    "r32uint": 4,
    "r32float": 4,
    "rgba16float": 8,
    "rgba32float": 16,
    "depth16unorm": 2,
    "depth24plus": 4,
    "depth24plus-stencil8": 5,
    "depth32float": 4,
    "stencil8": 1,
}

# Of each color format what a pipeline asks of its targets: whether what is drawn may be blended with what is there, and whether there is an
# alpha channel.
BLENDED = ("r8unorm", "rg8unorm", "rgba8unorm", "rgba8unorm-srgb", "bgra8unorm", "rgba16float")
WITH_ALPHA = ("rgba8unorm", "rgba8unorm-srgb", "bgra8unorm", "rgba16float", "rgba32float")

# The bytes that a sample of a color takes among those of all colors that are drawn to, and of what its first byte is a multiple.
SAMPLE_BYTES = {
    "r8unorm": (1, 1),
    "rg8unorm": (2, 1),
    "rgba8unorm": (8, 1),
    "rgba8unorm-srgb": (8, 1),
    "bgra8unorm": (8, 1),
    "r32uint": (4, 4),
    "r32float": (4, 4),
    "rgba16float": (8, 2),
    "rgba32float": (16, 4),
}

# The bytes of a texel in a copy from a texture, for each format and aspect that can be copied from.
TEXELS_FROM = {
    ("r8unorm", "color"): 1,
    ("rg8unorm", "color"): 2,
    ("rgba8unorm", "color"): 4,
    ("rgba8unorm-srgb", "color"): 4,
    ("bgra8unorm", "color"): 4,
    ("r32uint", "color"): 4,
    ("r32float", "color"): 4,
    ("rgba16float", "color"): 8,
    ("rgba32float", "color"): 16,
    ("depth16unorm", "depth"): 2,
    ("depth24plus-stencil8", "stencil"): 1,
    ("depth32float", "depth"): 4,
    ("stencil8", "stencil"): 1,
}

# The same for copies to a texture: depth32float is copied from the texture only.
TEXELS_TO = {place: count for place, count in TEXELS_FROM.items() if place[0] != "depth32float"}


def aspects_of(format: Any) -> Any:
    return FORMATS[format][0]


def has_storage_access(format: str) -> bool:
    return FORMATS[format][1]


def has_access(format: str, access: str) -> bool:
    """The format can be accessed as storage in one of the three ways."""
    return format in READ_WRITE if access == "read-write" else has_storage_access(format)


def sampled_as(format: str, aspect: str) -> Any:
    """As what an aspect is sampled."""
    return {"color": COLOR_SAMPLED.get(format), "depth": "depth", "stencil": "uint"}[aspect]


def may_have_four_samples(format: str) -> bool:
    return FORMATS[format][2]


def bytes_per_sample(colors: list[Any]) -> int:
    """The bytes of a sample of some colors together, which lie one behind another in their order. One that is null takes none."""
    end = 0
    for length, alignment in (SAMPLE_BYTES[format] for format in colors if format is not None):
        end += -end % alignment + length
    return end


def is_color(format: Any) -> bool:
    return aspects_of(format) == COLOR


def named_aspects(format: str, named: Any) -> Any:
    """The aspects of a format that a word names: all of them, or the depth alone, or the stencil alone."""
    if named == "all":
        return aspects_of(format)
    return tuple(aspect for aspect in aspects_of(format) if f"{aspect}-only" == named)


def copied_aspect(format: str, named: str) -> Any:
    """The one aspect that a copy between a buffer and a texture takes, or None where the word doesn't name one alone."""
    aspects = named_aspects(format, named)
    return aspects[0] if len(aspects) == 1 else None


def texel_from(format: str, named: Any) -> Any:
    """The bytes of a texel that is copied from a texture, or None where the aspect can't be."""
    return TEXELS_FROM.get((format, copied_aspect(format, named)))


def texel_to(format: str, named: str) -> Any:
    """The bytes of a texel that is copied to a texture, or None where the aspect can't be."""
    return TEXELS_TO.get((format, copied_aspect(format, named)))


def are_copy_compatible(one: str, other: str) -> bool:
    """What rule 272 asks of two formats."""
    return one.replace("-srgb", "") == other.replace("-srgb", "")


def layer_count(texture: dict[str, Any]) -> int:
    """A 2D texture has its depth as layers; others have one layer."""
    return texture["size"][2] if texture["dim"] == "2d" else 1


def extent(texture: dict[str, Any], mip: Any) -> tuple[int, int, int]:
    """Width, height, and depth or layers of a mip level.

    Each level halves width, height and, of a 3D texture, depth, rounded down, and none falls below 1. Layers stay.
    """
    width, height, depth = texture["size"]
    if texture["dim"] == "3d":
        return max(width >> mip, 1), max(height >> mip, 1), max(depth >> mip, 1)
    return max(width >> mip, 1), max(height >> mip, 1), layer_count(texture)
