"""What is fixed of a pipeline and of a sampler, beside what shaders do: primitives, blending, depth and stencil, and filters."""

from __future__ import annotations

from typing import TYPE_CHECKING, Any

from . import formats
from .calls import ALL_CHANNELS, FACE, OPERATION_KEYS
from .rules import at_most

if TYPE_CHECKING:
    from model.forms import Call, Rules

FILTERS = ("magFilter", "minFilter", "mipmapFilter")
STRIPS = ("line-strip", "triangle-strip")
TRIANGLES = ("triangle-list", "triangle-strip")
FACES = ("stencilFront", "stencilBack")
# The faces that a pipeline draws, by those that it culls.
DRAWN_FACES = {"none": FACES, "front": ("stencilBack",), "back": ("stencilFront",)}


def sampler_rules(call: Call) -> Rules:
    """The rules of createSampler, of which one that says its kind has none."""
    if "kind" in call:
        return
    yield at_most(405, "lodMinClamp", call["lodMinClamp"], call["lodMaxClamp"])
    yield 406, "maxAnisotropy is not 0", call["maxAnisotropy"] >= 1
    for key in FILTERS:
        what = f"{key} {call[key]}, {'anisotropic' if call['maxAnisotropy'] > 1 else 'not anisotropic'}"
        yield 406, what, call["maxAnisotropy"] <= 1 or call[key] == "linear"


def kind_of_sampler(call: Call) -> str:
    """The kind of a sampler: the one that it says, or else what comes of what it does."""
    if "kind" in call:
        return str(call["kind"])
    if call["compare"] is not None:
        return "comparison"
    return "filtering" if any(call[key] == "linear" for key in FILTERS) else "non-filtering"


def is_strip(primitive: Call) -> bool:
    return primitive["topology"] in STRIPS


def strip_rules(primitive: Call) -> Rules:
    """Rule 407."""
    yield 407, f"format of indices, {primitive['topology']}", primitive["stripIndexFormat"] is None or is_strip(primitive)


def target_formats(pipeline: Call) -> list[Any]:
    """The format of each target of a render pipeline, or None where it is null."""
    return [None if target is None else target["format"] for target in pipeline["targets"]]


def blend_rules(targets: list[Call]) -> Rules:
    """Rules 408, 409 and 410, on the targets that are not null, each of which is asked of all of them before the next."""
    blended = [target for target in targets if target["blend"] is not None]
    for target in blended:
        yield 408, f"format {target['format']}", target["format"] in formats.BLENDED
    for target in blended:
        for channels in ("color", "alpha"):
            yield from factor_rules(channels, target["blend"][channels])
    for target in targets:
        yield at_most(410, "writeMask", target["writeMask"], ALL_CHANNELS)


def factor_rules(channels: str, blended: Call) -> Rules:
    """Rule 409, on the color or the alpha of a blend."""
    is_extreme = blended["operation"] in ("min", "max")
    for key in ("srcFactor", "dstFactor"):
        what = f"{key} of {channels}, {blended['operation'] if is_extreme else 'neither min nor max'}"
        yield 409, what, not is_extreme or blended[key] == "one"


def bytes_rules(colors: list[Any], limits: dict[str, Any]) -> Rules:
    """Rule 411, on the formats of colors that are drawn to. Where a script does not name the limit nothing is asked."""
    most = limits["maxColorAttachmentBytesPerSample"]
    if most is not None:
        yield at_most(411, "bytes", formats.bytes_per_sample(colors), most)


def depth_rules(depth: Call, primitive: Call) -> Rules:
    """The rules of `depth` of a render pipeline after that on its format, and on what is written of it."""
    aspects = formats.aspects_of(depth["format"])
    compares, writes = depth["depthCompare"], depth["depthWrite"]
    where = "" if "depth" in aspects else ", of a format without depth"
    yield 412, f"depthCompare{where}", compares in ("always", "none") or "depth" in aspects
    yield from face_rules(depth, "stencil" in aspects)
    if "depth" in aspects:
        yield 414, "depthWrite is said", writes != "none"
        yield 415, "depthCompare is said, by what is written", writes is not True or compares != "none"
        for key in FACES:
            operation = "keep" if depth[key]["depthFailOp"] == "keep" else "other than keep"
            yield 415, f"depthCompare is said, {key} {operation}", operation == "keep" or compares != "none"
    yield 416, f"bias, {primitive['topology']}", not depth["bias"] or primitive["topology"] in TRIANGLES


def face_rules(depth: Call, has_stencil: bool) -> Rules:
    """Rule 413, in which masks are not looked at."""
    for face in FACES:
        for key, usual in FACE.items():
            yield 413, f"{key} of {face}", has_stencil or depth[face][key] == usual


def writes_aspect(pipeline: Call, aspect: str) -> bool:
    """Whether a pipeline writes the depth or the stencil of what is attached. Where its keys of stencil are given, it writes stencil
    exactly where the mask has a bit and a face that it draws has another operation than keep."""
    depth = pipeline["depth"]
    if aspect == "depth":
        return depth["depthWrite"] is True
    if "stencilWrite" in depth:
        return depth["stencilWrite"]
    drawn = [depth[face] for face in DRAWN_FACES[pipeline["primitive"]["cullMode"]]]
    return depth["stencilWriteMask"] != 0 and any(face[key] != "keep" for face in drawn for key in OPERATION_KEYS)


def coverage_rules(call: Call) -> Rules:
    """Rule 417."""
    if not call["alphaToCoverage"]:
        return
    yield 417, "four samples", call["samples"] == 4
    yield 417, "a first target", len(call["targets"]) > 0
    first = call["targets"][0]
    yield 417, "the first target is not null", first is not None
    yield 417, "the first target blends", first["format"] in formats.BLENDED
    yield 417, "the first target has alpha", first["format"] in formats.WITH_ALPHA
