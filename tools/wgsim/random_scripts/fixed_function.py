"""What is fixed of a render pipeline and of a sampler beside what shaders do, and to what a pass clears its depth: good keys of these, up
to the edges, and ways to leave a rule of them unmet."""

from __future__ import annotations

from typing import TYPE_CHECKING, Any, Sequence

from .limiting import of as limit
from .resources import COLOR_FORMATS, DEPTH_FORMATS
from model.calls import BLEND_OPERATIONS, FACTORS, OPERATION_KEYS, STENCIL_OPERATIONS, TOPOLOGIES
from model.formats import BLENDED, FORMATS, SAMPLE_BYTES, WITH_ALPHA, bytes_per_sample

if TYPE_CHECKING:
    from random import Random

    from .handed import Call
    from .world import Thing

ONE = 65536
GREATEST_32, GREATEST_53 = 2**32 - 1, 2**53 - 1
BYTES_LIMIT = "maxColorAttachmentBytesPerSample"
MOST_COLORS = 8
FILTERS = ["magFilter", "minFilter", "mipmapFilter"]
COMPARES = ["never", "less", "equal", "less-equal", "greater", "not-equal", "greater-equal", "always"]
ADDRESS_MODES = ["clamp-to-edge", "repeat", "mirror-repeat"]
STRIPS = ["line-strip", "triangle-strip"]
LISTS = [topology for topology in TOPOLOGIES if topology not in STRIPS]
TRIANGLES = ["triangle-list", "triangle-strip"]
LINES = [topology for topology in TOPOLOGIES if topology not in TRIANGLES]
INDEX_FORMATS = ["uint16", "uint32"]
CULLS = ["none", "none", "front", "back"]
FACES = ["stencilFront", "stencilBack"]
OPERATIONS = [operation for operation in STENCIL_OPERATIONS if operation != "keep"]
# What a strip has where the format of its indices is not said.
NOT_SAID = "not said"
USUAL = {
    **dict.fromkeys(FILTERS, "nearest"), "lodMinClamp": 0, "lodMaxClamp": 32 * ONE, "maxAnisotropy": 1,
    **dict.fromkeys(("addressModeU", "addressModeV", "addressModeW"), "clamp-to-edge"), "topology": "triangle-list", "frontFace": "ccw",
    "cullMode": "none", "operation": "add", "srcFactor": "one", "dstFactor": "zero", "writeMask": 15, "compare": "always",
    **dict.fromkeys(OPERATION_KEYS, "keep"), "depthCompare": "always", "bias": False, "depthWrite": False,
}


def without_usual(random: Random, keys: Call) -> Call:
    """Some keys, of which those that have their usual value are left out at times."""
    return {key: value for key, value in keys.items() if USUAL.get(key, ...) != value or random.random() < 0.3}


def sampler_fields(random: Random, kind: str) -> Call:
    """What a sampler does that is of a kind without saying so, often just up to what it may."""
    counts = {"filtering": [1, 1, 2, 3, 3], "comparison": [0, 0, 1, 3], "non-filtering": [0]}[kind]
    linear = random.sample(FILTERS, random.choice(counts))
    lods = [(0, 32 * ONE), (0, 0), (ONE, ONE), (0, 1), (3, 4), (32 * ONE, 32 * ONE), (GREATEST_53, GREATEST_53), (0, GREATEST_53)]
    low, high = random.choice(lods)
    keys: Call = {key: "linear" if key in linear else "nearest" for key in FILTERS}
    keys.update({"lodMinClamp": low, "lodMaxClamp": high, "maxAnisotropy": 1})
    if len(linear) == 3:
        keys["maxAnisotropy"] = random.choice([1, 2, 16, 65535, GREATEST_32])
    keys.update({f"addressMode{axis}": random.choice(ADDRESS_MODES) for axis in "UVW"})
    if kind == "comparison":
        return {"compare": random.choice(COMPARES), **{key: value for key, value in keys.items() if USUAL[key] != value}}
    return without_usual(random, keys) or {random.choice(FILTERS): "nearest"}


def spoil_sampler(random: Random, keys: Call) -> None:
    """Rule 405 or 406, or both; at times what would be wrong is left out again by what stands beside it."""
    kind = random.randrange(4)
    if kind in (0, 3):
        lods = [(1, 0), (ONE, ONE - 1), (ONE, 0), (GREATEST_53, 0), (GREATEST_53, GREATEST_53 - 1)]
        keys["lodMinClamp"], keys["lodMaxClamp"] = random.choice(lods)
        if random.random() < 0.3:
            del keys["lodMaxClamp"]
            keys["lodMinClamp"] = random.choice([32 * ONE, 32 * ONE + 1, 32 * ONE + 1])
    if kind in (1, 3):
        keys["maxAnisotropy"] = 0
    elif kind == 2:
        keys["maxAnisotropy"] = random.choice([2, 2, 16, GREATEST_32])
        keys.update(dict.fromkeys(FILTERS, "linear"))
        for key in random.sample(FILTERS, random.choice([1, 1, 1, 2, 3])):
            keys[key] = "nearest"
            if random.random() < 0.5:
                del keys[key]


def fits(formats: Sequence[str | None]) -> bool:
    """Colors of some formats do not take more bytes together than the limit allows that the script has named, if it has."""
    most: int | None = limit(BYTES_LIMIT)
    return most is None or bytes_per_sample([format for format in formats if format in SAMPLE_BYTES]) <= most


def fitting(formats: Sequence[str | None]) -> list[str | None]:
    """The first of some formats, as many as fit."""
    found = list(formats)
    while not fits(found):
        found.pop()
    return found


def too_many_bytes(random: Random, formats: list[Any]) -> None:
    """Colors are added, or stand in place of others, until they do not fit, if there is a limit; at times they just do."""
    mixed = [["rgba32float", "rgba16float"], ["rgba8unorm", "r8unorm", "r32float"], ["rgba16float", "rg8unorm"]]
    wide = random.choice([["rgba32float"], *mixed])
    while fits(formats) and len(formats) < MOST_COLORS:
        formats.insert(random.choice([len(formats), random.randint(0, len(formats))]), random.choice(wide))
    for at in random.sample(range(len(formats)), len(formats)):
        if not fits(formats):
            break
        formats[at] = "rgba32float"
    if random.random() < 0.1 and len(formats) > 1:
        formats.pop()


def primitive(random: Random) -> Call:
    """A good primitive."""
    keys: Call = {"topology": random.choice([*TOPOLOGIES, "triangle-list", "triangle-strip"])}
    if keys["topology"] in STRIPS and random.random() < 0.75:
        keys["stripIndexFormat"] = random.choice(INDEX_FORMATS)
    return without_usual(random, {**keys, "frontFace": random.choice(["ccw", "cw"]), "cullMode": random.choice(CULLS)})


def topology_of(call: Call) -> str:
    return call.get("primitive", {}).get("topology", "triangle-list")


def strip_of(call: Call) -> str | None:
    """The format of the indices of a pipeline that draws strips, which may not be said; or None of another one."""
    return call.get("primitive", {}).get("stripIndexFormat", NOT_SAID) if topology_of(call) in STRIPS else None


def blended(random: Random) -> Call:
    """How a color or an alpha is blended."""
    operation = random.choice(BLEND_OPERATIONS)
    factors = ("one", "one") if operation in ("min", "max") else (random.choice(FACTORS), random.choice(FACTORS))
    return without_usual(random, {"operation": operation, "srcFactor": factors[0], "dstFactor": factors[1]})


def blended_target(random: Random, format: str) -> Call:
    """A target of a format that blends."""
    target: Call = {"format": format, "blend": {"color": blended(random), "alpha": blended(random)}}
    return {**target, "writeMask": random.choice([15, 0, 7])} if random.random() < 0.4 else target


def target(random: Random, item: Any) -> Any:
    """A target of a format, or null, which is often told by the word of the format alone."""
    if item is None or random.random() < 0.4:
        return item
    if item in BLENDED and random.random() < 0.6:
        return blended_target(random, item)
    return {"format": item, **random.choice([{}, {"writeMask": random.choice([15, 15, 0, 1, 8, 14])}])}


def format_of(item: Any) -> Any:
    """The format of a target, or None where it is null."""
    return item["format"] if isinstance(item, dict) else item


def stencil_keys(random: Random, has_stencil: bool, writes: bool, cull: str) -> Call:
    """Keys of stencil by which it is written or not; a format without stencil has masks and usual faces alone."""
    masks: Call = {"stencilReadMask": random.choice([0, 1, 255, GREATEST_32]), "stencilWriteMask": random.choice([0, 1, 255, GREATEST_32])}
    if not has_stencil:
        more: Call = {face: random.choice([{}, {"compare": "always"}, {"failOp": "keep", "passOp": "keep"}]) for face in FACES}
        every = {**masks, **more}
        return {key: every[key] for key in random.sample(list(every), random.randint(1, len(every)))}
    drawn = [face for face in FACES if face != {"front": "stencilFront", "back": "stencilBack"}.get(cull)]
    faces = {face: some_face(random) for face in FACES}
    if writes:
        masks["stencilWriteMask"] = random.choice([1, 255, 2**31, GREATEST_32])
        faces[random.choice(drawn)][random.choice(OPERATION_KEYS)] = random.choice(OPERATIONS)
    elif random.random() < 0.5:
        masks["stencilWriteMask"] = 0
    else:
        for face in drawn:
            faces[face] = {key: value for key, value in faces[face].items() if key == "compare"}
    if writes and random.random() < 0.3:
        del masks["stencilWriteMask"]
    found: Call = {**{face: said for face, said in faces.items() if said or random.random() < 0.3}, **masks}
    if random.random() < 0.5:
        del found["stencilReadMask"]
    if not found:
        found["stencilReadMask"] = 0
    return found


def some_face(random: Random) -> Call:
    face: Call = {"compare": random.choice([*COMPARES, "always"])}
    face.update({key: random.choice(["keep", "keep", *STENCIL_OPERATIONS]) for key in OPERATION_KEYS})
    return without_usual(random, face)


def spoils_nothing(depth: Call) -> bool:
    """Depth need not be compared: it is not written, and no stencil operation hangs on it."""
    return depth.get("depthWrite") is not True and all(depth.get(face, {}).get("depthFailOp", "keep") == "keep" for face in FACES)


def depth_state(random: Random, depth: Call, call: Call) -> Call:
    """The depth of a pipeline with further keys, which writes the same."""
    aspects, found = FORMATS[depth["format"]][0], dict(depth)
    if random.random() < 0.6:
        writes = found.pop("stencilWrite", False)
        found.update(stencil_keys(random, "stencil" in aspects, writes, call.get("primitive", {}).get("cullMode", "none")))
    compares = [*COMPARES, "always"] if "depth" in aspects else ["always", "none"]
    if random.random() < 0.6:
        need_not = "depth" in aspects and spoils_nothing(found) and random.random() < 0.4
        found["depthCompare"] = "none" if need_not else random.choice(compares)
    if "depth" not in aspects and random.random() < 0.4:
        found["depthWrite"] = "none"
    if random.random() < 0.3:
        found["bias"] = topology_of(call) in TRIANGLES
    return found


def put(random: Random, call: Call) -> None:
    """Gives a createRenderPipeline, whose targets are words or null, further keys of what is fixed, so that it is as good as before, agrees
    with the same passes, and writes the same."""
    if random.random() < 0.4:
        return
    if random.random() < 0.6:
        call["primitive"] = primitive(random)
    if random.random() < 0.6:
        call["targets"] = [target(random, item) for item in call["targets"]]
    if "depth" in call and random.random() < 0.8:
        call["depth"] = depth_state(random, call["depth"], call)
    if random.random() < 0.15:
        call["mask"] = random.choice([0, 1, 15, GREATEST_32])
    if random.random() < 0.5:
        call["alphaToCoverage"] = is_covered(call)


def is_covered(call: Call) -> bool:
    """Alpha may go into the coverage of samples."""
    first = format_of(call["targets"][0]) if call["targets"] else None
    return call.get("samples", 1) == 4 and first in BLENDED and first in WITH_ALPHA


def nulls_among(random: Random, buffers: list[Any], chance: float) -> list[Any]:
    """Vertex buffers with slots that are not read among them, as many as there may be at most."""
    found = list(buffers)
    if random.random() < chance:
        for _ in range(random.choice([1, 1, 2, 8])):
            if len(found) < 8:
                found.insert(random.randint(0, len(found)), None)
    return found


def clear_values(random: Random, depth: Call) -> None:
    """Gives the depth of a begin what it is cleared to, which is in range where it is cleared."""
    if random.random() < 0.35:
        good: list[Any] = [0, ONE, ONE, ONE // 2, 1, ONE - 1]
        others: list[Any] = ["none", "none", 0, ONE, ONE + 1, GREATEST_53]
        depth["depthClearValue"] = random.choice(good if depth.get("depthLoad") == "clear" else others)
    if random.random() < 0.15:
        depth["stencilClearValue"] = random.choice([0, 1, 255, 256, GREATEST_32])


# Ways to leave a rule of a render pipeline unmet.
def strip_of_no_strip(random: Random, call: Call, layout: Thing) -> None:
    """Rule 407."""
    call["primitive"] = {**call.get("primitive", {}), "topology": random.choice(LISTS), "stripIndexFormat": random.choice(INDEX_FORMATS)}
    if random.random() < 0.3:
        del call["primitive"]["topology"]


def with_target(random: Random, call: Call, formats: Sequence[str]) -> Call:
    """One of the targets of a call, now or now anew one of some formats, as an object."""
    at = random.randrange(min(len(call["targets"]) + 1, MOST_COLORS))
    old = call["targets"][at] if at < len(call["targets"]) else None
    made = dict(old) if isinstance(old, dict) else {}
    made["format"] = format_of(old) if format_of(old) in formats else random.choice(formats)
    call["targets"] = [*call["targets"][:at], made, *call["targets"][at + 1:]]
    return made


def blend_of_another_format(random: Random, call: Call, layout: Thing) -> None:
    """Rule 408."""
    made = with_target(random, call, [format for format in COLOR_FORMATS if format not in BLENDED])
    made["blend"] = {"color": blended(random), "alpha": blended(random)}


def factors_of_extremes(random: Random, call: Call, layout: Thing) -> None:
    """Rule 409, of color or of alpha, by either factor, which may be left out."""
    made = with_target(random, call, BLENDED)
    wrong: list[Call] = [{"srcFactor": random.choice(FACTORS)}, {"dstFactor": random.choice(FACTORS)}, {}, {"srcFactor": "one"}]
    key = random.choice(["color", "alpha"])
    one = {"operation": random.choice(["min", "max"]), "srcFactor": "one", "dstFactor": "one"}
    if random.random() < 0.5:
        one.pop("dstFactor")
    made["blend"] = {"color": blended(random), "alpha": blended(random), key: {**one, **random.choice(wrong)}}


def write_mask_past(random: Random, call: Call, layout: Thing) -> None:
    """Rule 410."""
    with_target(random, call, COLOR_FORMATS)["writeMask"] = random.choice([16, 16, 17, 31, 255, GREATEST_32])


def targets_of_many_bytes(random: Random, call: Call, layout: Thing) -> None:
    """Rule 411, where the limit is named."""
    call["targets"] = [format_of(item) for item in call["targets"]]
    too_many_bytes(random, call["targets"])


def depth_of(random: Random, call: Call, formats: Sequence[str]) -> Call:
    """The depth of a call, or a new one, of some formats."""
    depth = dict(call.get("depth", {}))
    if depth.get("format") not in formats:
        depth = {"format": random.choice(formats), "depthWrite": random.random() < 0.3 and "stencil8" not in formats}
    call["depth"] = depth
    return depth


WITH_DEPTH = [format for format in DEPTH_FORMATS if "depth" in FORMATS[format][0]]
WITHOUT_STENCIL = [format for format in DEPTH_FORMATS if "stencil" not in FORMATS[format][0]]
BOTH = ["depth24plus-stencil8"]


def compare_of_no_depth(random: Random, call: Call, layout: Thing) -> None:
    """Rule 412."""
    depth = depth_of(random, call, ["stencil8"])
    depth["depthCompare"] = random.choice(COMPARES[:-1])


def stencil_of_no_stencil(random: Random, call: Call, layout: Thing) -> None:
    """Rule 413, by one key of one face."""
    depth = depth_of(random, call, WITHOUT_STENCIL)
    depth.pop("stencilWrite", None)
    wrong = random.choice([{"compare": random.choice(COMPARES[:-1])}, *({key: random.choice(OPERATIONS)} for key in OPERATION_KEYS)])
    depth[random.choice(FACES)] = wrong
    if random.random() < 0.4:
        depth["stencilWriteMask"] = 0


def depth_write_not_said(random: Random, call: Call, layout: Thing) -> None:
    """Rule 414."""
    depth_of(random, call, WITH_DEPTH)["depthWrite"] = "none"


def depth_compare_not_said(random: Random, call: Call, layout: Thing) -> None:
    """Rule 415, by what is written of depth or by what is done of stencil."""
    depth = depth_of(random, call, WITH_DEPTH)
    depth["depthCompare"] = "none"
    if random.random() < 0.5:
        depth["depthWrite"] = True
    else:
        depth = depth_of(random, call, BOTH)
        depth.pop("stencilWrite", None)
        depth["depthCompare"] = "none"
        depth[random.choice(FACES)] = {random.choice(OPERATION_KEYS[1:2] * 3 + OPERATION_KEYS): random.choice(OPERATIONS)}


def bias_of_lines(random: Random, call: Call, layout: Thing) -> None:
    """Rule 416."""
    depth_of(random, call, DEPTH_FORMATS)["bias"] = True
    call["primitive"] = {key: value for key, value in call.get("primitive", {}).items() if key != "stripIndexFormat"}
    call["primitive"]["topology"] = random.choice(LINES)


def coverage_of_nothing(random: Random, call: Call, layout: Thing) -> None:
    """Rule 417: one sample, no first target, or a null one; often of a pipeline that has other targets, and then of four samples."""
    call["alphaToCoverage"] = True
    kind = random.randrange(4)
    call["samples"] = 4 if kind else 1
    if kind == 1:
        call["targets"] = []
        depth_of(random, call, DEPTH_FORMATS)
    elif kind in (2, 3):
        call["targets"] = [None, random.choice(["rgba8unorm", "rgba16float", {"format": "bgra8unorm"}])]


FAULTS = [
    strip_of_no_strip, blend_of_another_format, factors_of_extremes, factors_of_extremes, write_mask_past, targets_of_many_bytes,
    targets_of_many_bytes, compare_of_no_depth, stencil_of_no_stencil, stencil_of_no_stencil, depth_write_not_said, depth_compare_not_said,
    depth_compare_not_said, bias_of_lines, coverage_of_nothing, coverage_of_nothing,
]


# Calls of scripts that may be refused.
def sampler_with_all(random: Random) -> Call:
    keys = sampler_fields(random, random.choice(["filtering", "non-filtering", "comparison"]))
    return {**keys, **random.choice([{}, {}, {"lodMaxClamp": ONE}])}


def pipeline_with_all(random: Random) -> Call:
    """A createRenderPipeline with most of the keys of what is fixed; it need not be good."""
    depth = {"format": random.choice(DEPTH_FORMATS), "depthCompare": random.choice(COMPARES), "bias": False, "depthWrite": False}
    depth.update(random.choice([{"stencilWrite": False}, stencil_keys(random, True, True, "none")]))
    return {
        "do": "createRenderPipeline", "layout": "auto", "targets": [blended_target(random, "rgba8unorm"), None, "r8unorm"], "depth": depth,
        "primitive": {"topology": "line-strip", "stripIndexFormat": "uint16", "frontFace": "cw", "cullMode": "back"}, "mask": 1,
        "alphaToCoverage": False, "buffers": [None, {"stride": 4, "attributes": []}], "as": "m",
    }
