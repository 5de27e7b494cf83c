"""Scripts that break a rule of scripts: good ones with one or two changes to calls, names, the top, or the text itself."""

from __future__ import annotations

from typing import TYPE_CHECKING, Any

from . import canvases, fixed_function, grouping, labels, limiting, passing, worlds
from .json_forms import Pairs, Raw, text_of

if TYPE_CHECKING:
    from random import Random

    from .handed import Path

WORD_LIMIT, WHOLE_LIMIT = 2**32 - 1, 2**53 - 1
UNKNOWN = [
    "", "createbuffer", "CreateBuffer", "createBuffer ", "getBindGroupLayouts", "setViewPort", "copy", "createBuffer\0", "é", "Lose",
    "onSubmittedWorkDone",
]
UNKNOWN += ["getCurrentTexture", "configure", "Present", "unconfigureCanvas", "setScissorRectangle", "insertMarker", "setImmediates"]
NAME_KEYS = {
    "canvas", "buffer", "texture", "source", "target", "on", "object", "layout", "view", "resolve", "sampler", "pipeline", "group",
    "queries",
}
QUERY_WORDS = ["createQuerySet", "resolveQuerySet", "beginOcclusionQuery", "endOcclusionQuery"]
BUNDLE_WORDS = ["createBundleEncoder", "createBundleEncoder", "finishBundle", "executeBundles", "executeBundles"]
PASS_WORDS = [
    "beginComputePass", "setPipeline", "setBindGroup", "dispatch", "dispatchIndirect", "end", "createRenderPipeline", "beginRenderPass",
    "beginRenderPass", "setVertexBuffer", "setIndexBuffer", "draw", "drawIndexed", "drawIndirect", "drawIndexedIndirect", *QUERY_WORDS,
    *BUNDLE_WORDS, "setViewport", "setScissorRect", "setBlendConstant", "setStencilReference", "insertDebugMarker",
]
NUMBERS = [
    "0", "1", "-1", "-0", "1.0", "1.5", "1e3", "1E3", "1e-3", "0e400", "0.0e999999", "4294967295", "4294967296", "9007199254740991",
    "9007199254740992", "18446744073709551615", "18446744073709551616", "18446744073709551617", "99999999999999999999", "-9007199254740992",
    "-9223372036854775808", "-9223372036854775809", "123456789012345678901234567890", "1" + "0" * 308, "1e308", "-1e308", "1e-400",
    "1" + "0" * 30 + "e-29",
]
NO_NUMBERS = [
    "1e309",
    "-1e309",
    "1e400",
    "1" + "0" * 309,
    "01", "00", "-", "+1", ".5", "1.", "1.e3", "1e", "1e+", "0x10", "NaN", "Infinity", "-Infinity", "1_000", "1e99999999999999999999",
    "١", "-01", "--1",
]
VALUES = [
    None, True, False, "", "x", "all",
    [],
    [0],
    [0, 0, 0],
    {},
    {"a": 1},
    0,
    1,
    WORD_LIMIT,
    WORD_LIMIT + 1,
    WHOLE_LIMIT,
    WHOLE_LIMIT + 1,
    2**64,
    -1,
    1.5,
]
BAD_NAMES = ["", "a" * 65, "a-b", "a b", "é", "a.b", "a\n", "\0", "ａ", "a" * 64 + "é", "_" * 65, "a\ud83d\ude00"[:1] + "😀"]
GOOD_NAMES = ["a" * 64, "_", "0", "9" * 64, "Z_z9", "do", "as"]


def malformed(random: Random) -> bytes:
    """The bytes of a script with one or two faults, the first of which is what the answer tells."""
    asked = limiting.ask(random, 0.15)
    kinds = ["bound", "passes", "renders", "queries", "bundles", "canvases", "others"]
    length, kind = random.choice([3, 12, 30]), random.choices(kinds, [5, 3, 5, 3, 5, 4, 4])[0]
    has_objects = kind in ("bound", "renders", "queries", "bundles")
    if kind in ("passes", "renders", "queries", "bundles"):
        many = {"passes": (0.1, 0.2, 0.05), "renders": (0.85, 0.2, 0.05), "queries": (0.9, 0.9, 0), "bundles": (0.95, 0, 0.7)}[kind]
        calls = passing.passes(random, 1, *many)[1]
    elif kind == "canvases":
        calls = canvases.canvases(random)[1][:length]
    else:
        calls = grouping.groups(random)[1][:length] if kind == "bound" else worlds.mixed(random, length)
    if random.random() < 0.15:
        labels.put(random, [calls])
    top = {"budget": random.choice([0, 1, 1000000, WHOLE_LIMIT]), "phases": [[calls]], **({} if asked is None else {"limits": asked})}
    for _ in range(random.choice([1, 1, 1, 2, 2, 3])):
        top = random.choices([of_call, of_names, of_top, of_limits, same], [14, 5, 2, 2, 1] if has_objects else [10, 6, 3, 3, 1])[0](
            random, top, calls
        )
    text = text_of(top, random)
    if random.random() < 0.15:
        text = of_text(random, text)
    data = text.encode("utf-8", "surrogatepass")
    return of_bytes(random, data) if random.random() < 0.05 else data


def same(random: Random, top: Any, calls: list[Any]) -> Any:
    return top


def on_passes(random: Random, calls: list[Any]) -> list[int]:
    """The places of the calls of one word of those on passes and render pipelines."""
    words = {call["do"] for call in calls if isinstance(call, dict) and call.get("do") in PASS_WORDS}
    word = random.choice(sorted(words)) if words else None
    return [at for at, call in enumerate(calls) if word is not None and isinstance(call, dict) and call.get("do") == word]


def inner_objects(value: Any, path: Path = ()) -> list[Path]:
    """The places of the objects inside a call, each a list of keys and numbers."""
    found = []
    for key, inner in value.items() if isinstance(value, dict) else enumerate(value) if isinstance(value, list) else []:
        found += [(*path, key)] * isinstance(inner, dict) + inner_objects(inner, (*path, key))
    return found


def at_place(value: Any, path: Path) -> Any:
    return at_place(value[path[0]], path[1:]) if path else value


def with_other(value: Any, path: Path, other: Any) -> Any:
    """The value with another at a place of it; what it was made of stays as it is."""
    if not path:
        return other
    copied: Any = dict(value) if isinstance(value, dict) else list(value)
    copied[path[0]] = with_other(copied[path[0]], path[1:], other)
    return copied


def any_call(random: Random, calls: list[Any]) -> int | None:
    """The place of a call that is still an object."""
    places = [at for at, call in enumerate(calls) if isinstance(call, dict)]
    return random.choice(places) if places else None


def of_call(random: Random, top: Any, calls: list[Any]) -> Any:
    """One call, or one value of it, or an object in it, is spoiled."""
    places = [at for at, call in enumerate(calls) if isinstance(call, dict) and inner_objects(call)]
    places = on_passes(random, calls) or places
    at = random.choice(places) if places and random.random() < 0.8 else any_call(random, calls)
    if at is not None:
        call = dict(calls[at])
        calls[at] = call
        if random.random() < 0.35:
            calls[at] = random.choices([automatic, sliced, labeled, based, stated, nulled, fixed], [2, 2, 4, 2, 4, 3, 12])[0](random, call)
            return top
        if random.random() < 0.8 and spoil_object(random, call):
            return top
        changed = random.choices(CALL_CHANGES, CALL_WEIGHTS)[0](random, call)
        if changed is not None:
            calls[at] = changed
    return top


def spoil_object(random: Random, call: Any) -> bool:
    """Spoils an object inside a call, if there is one."""
    places = inner_objects(call)
    if not places:
        return False
    path = random.choice(places)
    item = dict(at_place(call, path))
    changed = random.choices(OBJECT_CHANGES, OBJECT_WEIGHTS)[0](random, item) if item else None
    call.update(with_other(call, path, item if changed is None else changed))
    return True


def any_key(random: Random, call: Any) -> str:
    return random.choice(list(call))


def other_value(random: Random, call: dict[str, Any]) -> None:
    call[any_key(random, call)] = random.choice(VALUES)


def other_number(random: Random, call: Any) -> None:
    numbers = [key for key, value in call.items() if isinstance(value, int)]
    if numbers:
        call[random.choice(numbers)] = Raw(random.choice(NUMBERS))


def border_number(random: Random, call: Any) -> None:
    numbers = [key for key, value in call.items() if isinstance(value, int)]
    if numbers:
        call[random.choice(numbers)] = random.choice([WORD_LIMIT, WORD_LIMIT + 1, WHOLE_LIMIT, WHOLE_LIMIT + 1])


def other_item(random: Random, call: Any) -> None:
    lists = [key for key, value in call.items() if isinstance(value, list) and value]
    if lists:
        key = random.choice(lists)
        items = list(call[key])
        change = random.randrange(4)
        if change == 0:
            items.append(items[0])
        elif change == 1:
            items.pop()
        else:
            items[random.randrange(len(items))] = random.choice(VALUES + [Raw(text) for text in NUMBERS])
        call[key] = items


def null_item(random: Random, call: Any) -> None:
    """A null in a list, which only `targets`, `layouts`, `colors`, be it those of a bundle encoder, and `buffers` of a pipeline may
    have."""
    lists = [key for key, value in call.items() if isinstance(value, list)]
    if lists:
        key = random.choice(lists)
        call[key] = random.choice([[*call[key], None], [None, *call[key]], [None, *call[key][1:]]])


def long_list(random: Random, call: Any) -> None:
    entry, of_pipeline = {"binding": 0, "visibility": 0, "kind": "sampler"}, {"stride": 0, "attributes": []}
    used, buffer = {"group": 0, "binding": 0, "kind": "sampler"}, of_pipeline if call.get("do") == "createRenderPipeline" else "x"
    lists = [("buffers", buffer), ("layouts", "x"), ("entries", entry), ("iface", used), ("offsets", 0), ("size", 1), ("targets", None)]
    for key, item in [*lists, ("colors", None), ("bundles", "x"), ("attributes", {"format": "float32", "offset": 0, "location": 0})]:
        if key in call:
            call[key] = [item] * random.choice([1024, 1025])


def key_gone(random: Random, call: Any) -> None:
    del call[any_key(random, call)]


def key_more(random: Random, call: Any) -> None:
    call[random.choice(MORE_KEYS)] = random.choice(VALUES)


MORE_KEYS = [
    "x", "", "DO", "label", "mapped", "size", "usage", "as", "filter", "op", "queries", "depthSlice", "limits", "mode", "kind", "layout",
    "iface", "binding", "visibility", "group", "type", "dynamic", "minSize", "sample", "multi", "access", "buffer", "offset", "view",
    "sampler", "do", "on", "index", "offsets", "x", "w", "pipeline", "timestampWrites", "stage", "stride", "step", "attributes",
    "location", "targets", "depth", "samples", "colors", "resolve", "load",
    "store",
    "depthLoad", "depthReadOnly", "stencilStore", "slot", "vertices", "firstIndex", "depthWrite", "depthSlice", "queries", "queries",
    "baseVertex", "first", "count", "index", "occlusionQuerySet", "querySet", "queryIndex", "bundles", "bundle", "stencilReadOnly",
    "colorFormats", "depthStencilFormat", "sampleCount", "canvas", "width", "height", "format", "maxDrawCount", "maxDrawCount", "left",
    "above", "y", "minDepth", "maxDepth", "reference", "magFilter", "lodMinClamp", "compare", "maxAnisotropy", "addressModeW", "blend",
    "writeMask", "color", "alpha", "operation", "srcFactor", "depthCompare", "stencilFront", "stencilBack", "stencilReadMask",
    "stencilWriteMask", "stencilWrite", "bias", "primitive", "mask", "alphaToCoverage", "topology", "stripIndexFormat", "cullMode",
    "passOp", "depthClearValue", "stencilClearValue", "unclippedDepth", "depthBias",
]
WRONG_WORDS = [
    "Filtering", "filtering", "nonfiltering", "storage", "readonly-storage", "write", "read-write", "sampled", "unfilterable", "sint",
    "auto", "", "2D", "all", "cube", "2d", "3d-array", "rgba8", "rgba8unorm-SRGB", "depth-only", "color", "Validation", "out-of-memory ",
    "outofmemory", "internal", None, "load", "clear",
    "store",
    "discard", "dont-care", "vertex", "instance", "fragment", "compute", "uint16", "uint32", "float32", "float32x5",
    "unorm8x2", "none", "none", "nearest", "linear", "always", "not-equal", "equals", "less-than", "keep", "replace", "increment",
    "invert", "add", "max", "one", "zero", "src-alpha", "src-alpha-saturated", "src1", "one-minus-constant", "constant-color",
    "triangle-list", "line-strip", "triangle-fan", "ccw", "front", "back", "both", "repeat", "clamp-to-edge", "clamp", "comparison",
]
WORD_KEYS = [
    "format", "dim", "aspect", "filter", "kind", "type", "sample", "access", "stage", "step", "load", "store", "depthLoad", "depthStore",
    "stencilLoad", "stencilStore", "magFilter", "minFilter", "mipmapFilter", "compare", "addressModeU", "addressModeV", "addressModeW",
    "operation", "srcFactor", "dstFactor", "depthCompare", "depthWrite", "failOp", "depthFailOp", "passOp", "topology",
    "stripIndexFormat", "frontFace", "cullMode", "depthClearValue",
]


def other_word(random: Random, call: Any) -> None:
    words = [key for key in WORD_KEYS if key in call]
    if words:
        call[random.choice(words)] = random.choice(WRONG_WORDS)


def other_target(random: Random, call: Any) -> None:
    """A target, or a color of a bundle encoder, that is no format, or may be one; of any other call something else."""
    key = "colors" if call.get("do") == "createBundleEncoder" else "targets"
    if not isinstance(call.get(key), list):
        return other_value(random, call)
    call[key] = [*call[key], random.choice([*WRONG_WORDS, *VALUES])]
    return None


def other_bundle(random: Random, call: Any) -> None:
    """The keys of a bundle encoder, or the bundles of an executeBundles, of a wrong sort or of one that will do; of any other call
    something else."""
    if call.get("do") == "createBundleEncoder":
        key = random.choice(["colors", "depth", "depth", "samples", "depthReadOnly", "stencilReadOnly"])
        call[key] = random.choice(
            [*VALUES, *WRONG_WORDS, "depth24plus", ["rgba8unorm"], [None], ["rgba8unorm", None], {"format": "depth24plus"}]
        )
        return None
    if call.get("do") == "executeBundles":
        bundles = call["bundles"] if isinstance(call.get("bundles"), list) else []
        call["bundles"] = random.choice(
            [[*bundles, random.choice(VALUES)], [random.choice(VALUES), *bundles], random.choice(VALUES), [bundles], [*bundles, *bundles]]
        )
        return None
    return other_value(random, call)


def other_offsets(random: Random, call: Any) -> None:
    """The offsets of a setBindGroup: no list, one with something else than a number of 32 bits, or of another length; of any other call
    something else."""
    if call.get("do") != "setBindGroup":
        return other_value(random, call)
    item = random.choice([*VALUES, WORD_LIMIT + 1, Raw(random.choice(NUMBERS))])
    call["offsets"] = random.choice([item, [item], [0, item], [256, 256], [0] * random.choice([1024, 1025])])
    return None


def canvas(random: Random, call: Any) -> dict[str, Any]:
    """A call of a canvas with one value that is wrong, or may be; a key that it lacks or has not; or what it names is none."""
    calls: list[dict[str, Any]] = [
        {"do": "createCanvas", "width": 4, "height": 4, "as": "k"},
        {"do": "configureCanvas", "canvas": "k", "format": "rgba8unorm"},
        {"do": "configureCanvas", "canvas": "k", "format": "bgra8unorm", "usage": 16},
        {"do": "currentTexture", "canvas": "k", "as": "t"},
        {"do": "present", "canvas": "k"},
    ]
    made = dict(random.choice(calls))
    key = random.choice([key for key in made if key != "do"])
    change = random.randrange(5)
    if change == 0:
        del made[key]
    elif change == 1:
        made[random.choice(["size", "format", "usage", "as", "canvas", "texture", "on"])] = random.choice(VALUES)
    elif change == 2:
        made[key] = Raw(random.choice(NUMBERS))
    elif change == 3:
        made[key] = random.choice([*VALUES, *WRONG_WORDS, "rgba8unorm", "rgba16float", "r8unorm", "rgba8unorm-srgb"])
    return made


def unknown(random: Random, call: Any) -> None:
    call["do"] = random.choice(UNKNOWN + [None, 5, [], {}, True])


def mapped(random: Random, call: Any) -> dict[str, Any]:
    """A buffer whose key `mapped` is of the right type or not; nothing else of it may be wrong."""
    values: list[Any] = [True, True, 1, "true", None, False]
    made = {"do": "createBuffer", "size": 4, "usage": 8, "as": "m", "mapped": random.choice(values)}
    more: list[dict[str, Any]] = [{}, {"x": 1}, {"size": None}, {"usage": -1}, {"do": "createView"}]
    return {**made, **random.choice(more)}


def labeled(random: Random, call: Any) -> dict[str, Any]:
    """A call with a label, faulty or at the edge: one that may have it as a rule."""
    others: list[dict[str, Any]] = [{"do": "createEncoder", "as": "m"}, {"do": "pushDebugGroup", "on": "e"}, {"do": "finish", "on": "e"}]
    made = random.choice(others) if call.get("do") not in labels.LABELED and random.random() < 0.8 else call
    return {**made, "label": random.choice([labels.faulty, labels.faulty, labels.at_the_edge, labels.good])(random)}


def based(random: Random, call: Any) -> dict[str, Any]:
    """An indexed draw, or one of another kind, with a base vertex that may stand there or not."""
    made: dict[str, Any] = {"do": "drawIndexed", "on": call.get("on", "p"), "indices": 3}
    base = random.choice([0, 1, WORD_LIMIT, WORD_LIMIT, WORD_LIMIT + 1, WORD_LIMIT + 1, WHOLE_LIMIT, -1, Raw(random.choice(NUMBERS)), None])
    more: list[dict[str, Any]] = [{}, {}, {}, {}, {"firstIndex": -1}, {"x": 1}, {"do": "draw", "vertices": 3}, {"baseVertex ": 0}]
    return {**made, "baseVertex": base, **random.choice(more)}


def stated(random: Random, call: Any) -> dict[str, Any]:
    """A call that sets something beside what a pass draws with, or a marker, or a begin that says how often its pass may draw, with one
    value that is wrong, or at an edge; a key that it lacks or has not."""
    on = call.get("on", "p")
    calls: list[dict[str, Any]] = [
        {"do": "setViewport", "on": on, "width": 65536, "height": 65536},
        {"do": "setViewport", "on": on, "x": 0, "left": True, "y": 0, "above": False, "width": 0, "height": 0, "minDepth": 0},
        {"do": "setViewport", "on": on, "width": 0, "height": 0, "minDepth": 0, "maxDepth": 0},
        {"do": "setScissorRect", "on": on, "x": 0, "y": 0, "width": 1, "height": 1},
        {"do": "setBlendConstant", "on": on},
        {"do": "setStencilReference", "on": on, "reference": 0},
        {"do": "insertDebugMarker", "on": on},
        {"do": "beginRenderPass", "on": on, "colors": [None], "maxDrawCount": 1, "as": "m"},
    ]
    made = dict(random.choice(calls))
    key = random.choice([key for key in made if key != "do"])
    change = random.randrange(6)
    if change == 0:
        del made[key]
    elif change == 1:
        made[random.choice(["x", "left", "reference", "color", "label", "maxDrawCount", "as", "width", "depth"])] = random.choice(VALUES)
    elif change in (2, 3):
        made[key] = Raw(random.choice(NUMBERS))
    elif change == 4:
        made[key] = random.choice([*VALUES, WORD_LIMIT, WORD_LIMIT + 1, WHOLE_LIMIT, WHOLE_LIMIT + 1])
    return made


def nulled(random: Random, call: Any) -> dict[str, Any]:
    """A call with null where it may stand, or where it may not, and something else wrong or not."""
    on = call.get("on", "p")
    calls: list[dict[str, Any]] = [
        {"do": "setBindGroup", "on": on, "index": 0, "group": None},
        {"do": "setVertexBuffer", "on": on, "slot": 0, "buffer": None},
        {"do": "createPipelineLayout", "layouts": [None] * random.choice([1, 5, 1024, 1025]) + ["x"] * random.choice([0, 1]), "as": "m"},
        {"do": "setIndexBuffer", "on": on, "buffer": None, "format": "uint16"},
        {"do": "setPipeline", "on": on, "pipeline": None},
        {"do": "drawIndirect", "on": on, "buffer": None, "offset": 0},
        {"do": "executeBundles", "on": on, "bundles": [None]},
    ]
    made = random.choice([*calls[:3], *calls])
    more: list[dict[str, Any]] = [{}, {}, {}, {"x": 1}, {"index": -1}, {"slot": None}, {"offset": 4}, {"offsets": [None]}, {"on": None}]
    return {**made, **random.choice(more)}


def fixed(random: Random, call: Any) -> dict[str, Any]:
    """A sampler, a render pipeline or a begin with keys of what is fixed, with one value that is wrong, or may be; a key that it lacks or
    has not, or that may not stand beside the others."""
    depth = {"view": "v", "depthLoad": "clear", "depthStore": "store", "depthClearValue": 0, "stencilClearValue": 0}
    calls: list[dict[str, Any]] = [
        {"do": "createSampler", **fixed_function.sampler_with_all(random), "as": "m"},
        fixed_function.pipeline_with_all(random),
        fixed_function.pipeline_with_all(random),
        {"do": "beginRenderPass", "on": call.get("on", "e"), "colors": [None], "depth": depth, "as": "m"},
    ]
    made = random.choice(calls)
    if made["do"] == "createSampler":
        if random.random() < 0.1:
            del made["as"]
        if random.random() < 0.4:
            more: list[dict[str, Any]] = [{"kind": "filtering"}, {"kind": None}, {"Kind": "nearest"}, {"label": "x"}, {"compare": None}]
            return {**made, **random.choice(more)}
    elif random.random() < 0.85:
        spoil_object(random, made)
        if random.random() < 0.8:
            return made
    changed = random.choices(CALL_CHANGES, CALL_WEIGHTS)[0](random, made)
    return made if changed is None else changed


def automatic(random: Random, call: Any) -> dict[str, Any]:
    """A layout that is the word `auto`, which is a name where it is not that of a pipeline, or a getBindGroupLayout, with something else
    wrong or not."""
    words = ["createComputePipeline", "createRenderPipeline", "createBindGroup"]
    made: dict[str, Any] = {"do": random.choice(words), "layout": "auto", "as": "m"}
    made[random.choice(["iface", "entries"])] = []
    if random.random() < 0.5:
        made = {
            "do": "getBindGroupLayout",
            "pipeline": random.choice(["k", "auto", call.get("as", "k")]),
            "index": random.choice([0, 1, WORD_LIMIT, WORD_LIMIT + 1, Raw(random.choice(NUMBERS))]),
            "as": "m",
        }
        made.pop(random.choice(["do", "pipeline", "index", "as", *["none"] * 8]), None)
    more: list[dict[str, Any]] = [
        {}, {}, {}, {"x": 1}, {"as": None}, {"layout": ["auto"]}, {"layout": "Auto"}, {"pipeline": 7}, {"as": "auto"},
    ]
    return {**made, **random.choice(more)}


def sliced(random: Random, call: Any) -> dict[str, Any]:
    """A begin of a render pass with a slice, good or not, or with its key in another place, and something else wrong or not; `queries`
    stands behind what else the begin has."""
    color: dict[str, Any] = {"view": "v", "load": "load", "store": "store"}
    slices: list[Any] = [0, 1, WORD_LIMIT, WORD_LIMIT + 1, None, "x", -1, 1.5, True, [], Raw(random.choice(NUMBERS))]
    slice = {"depthSlice": random.choice(slices)}
    places: list[dict[str, Any]] = [
        {"colors": [{**color, **slice}]},
        {"colors": [{**color, **slice}]},
        {"colors": [None, color, {**color, **slice}]},
        {"colors": [None, slice]},
        {"colors": [5, [slice], slice]},
        {"colors": [[slice]]},
        {"colors": slice},
        {"depth": {"view": "v", **slice}},
        slice,
        {"colors": [color, {**color, "queries": 0}]},
        {"colors": [None] * 1024 + [slice]},
    ]
    places += [{"queries": value} for value in ("q", None, 0, [])]
    made = {"do": random.choice(["beginRenderPass"] * 5 + ["beginComputePass"]), "on": "e", "colors": [None], "as": "m"}
    more: list[dict[str, Any]] = [{}, {}, {"x": 1}, {"as": None}, {"depth": None}]
    return {**made, **random.choice(places), **random.choice(more)}


def other_kind(random: Random, entry: dict[str, Any]) -> None:
    """An object with other keys than its kind has, or with another kind than its keys are for."""
    change = random.randrange(3)
    if change == 0 and "kind" in entry:
        entry["kind"] = random.choice(["uniform", "storage", "read-only-storage", "sampler", "texture", "storage-texture"])
    elif change == 1:
        entry.update(random.choice([{"buffer": "b"}, {"view": "v"}, {"sampler": "s"}, {"offset": 0}, {"size": 4}, {"format": "r32float"}]))
    else:
        entry.update(
            random.choice(
                [{"dynamic": True}, {"minSize": 4}, {"type": "filtering"}, {"sample": "float"}, {"multi": False}, {"access": "read-only"}]
            )
        )


def needed_gone(random: Random, entry: dict[str, Any]) -> None:
    """An object without a key that it needs."""
    needed = [key for key in NEEDED_KEYS if key in entry]
    if needed:
        del entry[needed[0] if random.random() < 0.3 else random.choice(needed)]


NEEDED_KEYS = [
    "format", "kind", "group", "binding", "visibility", "buffer", "view", "sampler", "stage", "stride", "attributes", "offset",
    "location", "load",
    "store",
]


def past_word(random: Random, entry: dict[str, Any]) -> None:
    """A number of 32 bits that is one too great."""
    words = ("group", "binding", "visibility", "stride", "location", "writeMask", "stencilReadMask", "stencilWriteMask")
    numbers = [key for key in words if key in entry]
    if numbers:
        entry[random.choice(numbers)] = WORD_LIMIT + 1


def no_object(random: Random, call: Any) -> Any:
    return random.choice([None, 5, "createBuffer", [], [call], True, 1.5])


def repeated(random: Random, call: Any) -> Pairs:
    """A repeated key: its last value counts."""
    pairs = list(call.items())
    key, value = random.choice(pairs)
    pairs.insert(random.randint(0, len(pairs)), (key, random.choice([value, random.choice(VALUES)])))
    return Pairs(pairs)


CALL_CHANGES = [
    other_value, other_number, border_number, other_item, null_item, other_target, other_bundle, other_offsets, long_list, key_gone,
    key_more, other_word, canvas, unknown, mapped, no_object, repeated,
]
CALL_WEIGHTS = [4, 4, 3, 4, 3, 3, 4, 3, 2, 4, 3, 3, 2, 3, 3, 2, 3]
OBJECT_CHANGES = [
    other_value, other_number, border_number, past_word, key_gone, needed_gone, key_more, other_word, other_kind, no_object, repeated,
    long_list,
]
OBJECT_WEIGHTS = [3, 3, 2, 5, 1, 6, 3, 4, 5, 2, 2, 1]


def given_by(calls: list[Any]) -> list[str]:
    return [call["as"] for call in calls if isinstance(call, dict) and isinstance(call.get("as"), str)]


def naming_objects(call: Any) -> list[Path]:
    """The places of the objects inside a call that name something."""
    return [path for path in inner_objects(call) if NAME_KEYS & set(at_place(call, path))]


def uses_names(call: Any) -> object:
    return isinstance(call, dict) and (NAME_KEYS & set(call) or any(call.get(key) for key in LIST_KEYS) or naming_objects(call))


# What stands for passes, encoders and pipelines, of which there are two kinds of some, and the keys whose values are lists of names.
KIN = ["beginComputePass", "beginRenderPass", "createEncoder", "createBundleEncoder", "createComputePipeline", "createRenderPipeline"]
LIST_KEYS = ["buffers", "layouts", "bundles"]


def crossed(random: Random, calls: list[Any]) -> None:
    """A call on a pass names a pass or a pipeline of the other kind, if there is one before it."""
    places = [
        at for at, call in enumerate(calls) if isinstance(call, dict) and call.get("do") in PASS_WORDS and {"on", "pipeline"} & set(call)
    ]
    pipelines = [at for at in places if "pipeline" in calls[at]]
    if places:
        at = random.choice(pipelines if pipelines and random.random() < 0.5 else places)
        key = "pipeline" if "pipeline" in calls[at] and random.random() < 0.7 else "on"
        words = KIN[-2:] if key == "pipeline" else KIN[:-2]
        before = [call for call in calls[:at] if isinstance(call, dict) and call.get("do") in words and isinstance(call.get("as"), str)]
        mine = [call["do"] for call in before if call["as"] == calls[at].get(key)]
        others = [call["as"] for call in before if call["do"] not in mine]
        if others:
            calls[at] = {**calls[at], key: random.choice(others)}


def of_names(random: Random, top: Any, calls: list[Any]) -> Any:
    """A name is malformed, given twice, unknown, of a wrong kind, or used before it is given."""
    if random.random() < 0.15:
        crossed(random, calls)
        return top
    users = [at for at, call in enumerate(calls) if uses_names(call)]
    users = on_passes(random, calls) or users if random.random() < 0.6 else users
    at = random.choice(users) if users and random.random() < 0.6 else any_call(random, calls)
    if at is None:
        return top
    call = dict(calls[at])
    earlier, names = given_by(calls[:at]), given_by(calls) or ["x"]
    other = random.choice(earlier if earlier and random.random() < 0.7 else names)
    used = [key for key in call if key in NAME_KEYS]
    change = random.choice([0, 1, 2, 3, 4, 5, 5])
    if naming_objects(call) and random.random() < 0.5:
        rename_inside(random, call, other)
    elif change == 0 and "as" in call:
        call["as"] = random.choice(BAD_NAMES + GOOD_NAMES)
    elif change == 1 and "as" in call:
        call["as"] = other
    elif change == 2 and used:
        call[random.choice(used)] = other
    elif change == 5 and {"on", "pipeline"} & set(used):
        kin = [each["as"] for each in calls[:at] if isinstance(each, dict) and each.get("do") in KIN and isinstance(each.get("as"), str)]
        call[random.choice([key for key in used if key in ("on", "pipeline")])] = random.choice(kin or names)
    elif change == 3 and used:
        call[random.choice(used)] = random.choice(["unknown", "", "é", "a" * 65, names[0].upper(), names[0] + " "])
    elif any(isinstance(call.get(key), list) for key in LIST_KEYS):
        key = next(key for key in LIST_KEYS if isinstance(call.get(key), list))
        call[key] = random.choice([[], call[key]]) + [random.choice([other, other, "unknown"])]
    else:
        place = random.randrange(len(calls))
        calls[at], calls[place] = calls[place], calls[at]
        return top
    calls[at] = call
    return top


def rename_inside(random: Random, call: Any, other: Any) -> None:
    """What an object inside a call names has another name, as what an entry of a bind group binds."""
    path = random.choice(naming_objects(call))
    item = at_place(call, path)
    key = random.choice(sorted(NAME_KEYS & set(item)))
    call.update(with_other(call, path, {**item, key: random.choice([other, other, "unknown", call.get("as", "x")])}))


def of_top(random: Random, top: Any, calls: list[Any]) -> Any:
    """The top, the phases or the lanes are not as they should be."""
    top = dict(top.pairs) if isinstance(top, Pairs) else dict(top) if isinstance(top, dict) else {"budget": 1, "phases": []}
    change = random.randrange(10)
    if change == 0:
        top["budget"] = random.choice([*VALUES, Raw(random.choice(NUMBERS))])
    elif change == 1:
        top.pop(random.choice(["budget", "phases"]), None)
    elif change == 2:
        top[random.choice(["limits", "Limits", "x", "budget ", ""])] = random.choice([None, {}, {"maxBindGroups": 3}])
    elif change == 3:
        top["phases"] = random.choice([*VALUES, [1, 2], [[calls], [calls]], [[calls], 5], [[]] * 1025])
    elif change == 4:
        top["phases"] = [random.choice([*VALUES, [calls, calls], [1, 2], [[]] * 64, [[]] * 65, [calls, None]])]
    elif change == 5:
        top["phases"] = [[random.choice([*VALUES, {"calls": calls}, "lane"])]]
    elif change == 6:
        return random.choice([*VALUES, [top], "script", [[calls]]])
    elif change == 7:
        return {"phases": top.get("phases"), "limits": None}
    elif change == 8:
        return {"phases": [[calls], [calls]]} if random.random() < 0.5 else {"phases": [1, 2], "x": 1}
    return top


def of_limits(random: Random, top: Any, calls: list[Any]) -> Pairs:
    """The limits that are asked for are faulty, as a rule, at times beside what is wrong at the top or with the first phase."""
    top = dict(top.pairs) if isinstance(top, Pairs) else dict(top) if isinstance(top, dict) else {"budget": 1, "phases": []}
    top["limits"] = limiting.faulty(random) if random.random() < 0.85 else {name: limiting.good(random, name) for name in limiting.DEFAULTS}
    others: list[dict[str, Any]] = [
        {}, {}, {}, {}, {}, {}, {}, {},
        {"budget": -1},
        {"phases": 5},
        {"phases": [[]] * 1025},
        {"phases": [7]},
        {"phases": [[[{"do": "present"}]]]},
        {"phases": [[[{"do": "createRenderPipeline", "layout": "auto"}]]]},
        {"x": 1},
    ]
    pairs = list({**top, **random.choice(others)}.items())
    if random.random() < 0.15:
        pairs.insert(random.randint(0, len(pairs)), ("limits", random.choice([{}, None, limiting.faulty(random)])))
    return Pairs(pairs)


def of_text(random: Random, text: str) -> str:
    """The text is no JSON any more, or just still is."""
    at = random.randrange(len(text) + 1)
    change = random.randrange(12)
    if change == 0:
        return text[:at]
    if change == 1:
        return text + random.choice([",", "]", "x", "{}", "null", "//", "\0", "\ufeff", "\u00a0", " \n\t\r", "\f", "\v"])
    if change == 2:
        return random.choice(["\ufeff", "\u00a0", "\f", " \r\n\t", "// c\n", "/**/"]) + text
    if change == 3:
        return (
            text[:at]
            + random.choice([",", ":", "{", "]", '"', "\\", "'", "\x01", "\x1f", "\x7f", "\n", "é", "\u2028", "0", "-", "e"])
            + text[at:]
        )
    if change == 4:
        return text[:max(at - 1, 0)] + text[at:]
    if change == 5:
        return text.replace("]", ",]", 1) if random.random() < 0.5 else text.replace("}", ",}", 1)
    if change == 6:
        return in_budget(random.choice(NO_NUMBERS + NUMBERS), text)
    if change == 7:
        return in_budget(nested(random), text)
    if change == 8:
        return in_budget(random.choice(STRINGS), text)
    if change == 9:
        return text.replace('"do"', random.choice(['"d\\u006f"', '"\\u0064o"', "'do'", "do", '"d\\o"', '"d\\x6f"', '"\\ud864o"']), 1)
    return in_budget(
        random.choice(["True", "nul", "nulll", "tru", "false", "None", "undefined", "[1,,2]", "[,1]", "{1:2}", '{"a"}', '{"a":}']), text
    )


STRINGS = [
    '"\\ud83d\\ude00"',
    '"\\ud83d"',
    '"\\ude00"',
    '"\\ud83dx"',
    '"\\ud83d\\u0041"',
    '"\\ude00\\ud83d"',
    '"\\u12"',
    '"\\u12g4"',
    '"\\uFFFF"',
    '"\\u0000"',
    '"\\a"',
    '"\\/\\b\\f\\n\\r\\t\\"\\\\"',
    '"\t"',
    '"\n"',
    '"\x00"',
    '"\x7f"',
    '"unclosed',
    '"\\"',
    '"\\U0041"',
    '"\\u 123"',
    '"\\u+123"',
    "'x'",
]


def in_budget(value: str, text: str) -> str:
    """Puts a text in place of all else: the top is an object whose budget it is, or the value alone."""
    return value if len(value) % 5 == 0 else '{"budget":' + value + ',"phases":[]}'


def nested(random: Random) -> str:
    """So many lists and objects, about as deep as they may be; the budget stands one deep."""
    depth = random.choice([125, 126, 126, 127, 127, 128, 129])
    if random.random() < 0.5:
        return "[" * depth + "]" * depth
    return '{"a":' * (depth - 1) + "{}" + "}" * (depth - 1)


def of_bytes(random: Random, data: bytes) -> bytes:
    """Bytes that are no UTF-8, or just still are."""
    pieces = [
        b"\xff", b"\xc3", b"\xc0\x80", b"\xed\xa0\x80", b"\xf4\x90\x80\x80", b"\xe2\x82", b"\xc3\xa9", b"\xf0\x9f\x98\x80", b"\x80",
        b"\xef\xbb\xbf", b"\x00", b"\xf0\x80\x80\x80", b"\xfe",
    ]
    at = random.choice([0, len(data), data.find(b'"') + 1, random.randrange(len(data) + 1)])
    return data[:at] + random.choice(pieces) + data[at:]
