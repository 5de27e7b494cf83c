"""The table of calls: for each its keys, in order, with what their values may be.

A key is a tuple of its name, the sort of its value, and the value that it has where it is left out. The names that a call
uses stand in the order in which script rules 10, 11 and 12 look at them.
"""

from __future__ import annotations

from typing import Any, Dict, Iterable, List, Set, Tuple

from .forms import Call, Key
from .formats import ACCESS_WORDS, ASPECT_WORDS, FORMATS, SAMPLE_WORDS, TEXTURE_DIMS, VERTEX_FORMATS, VIEW_DIMS
from .scopes import FILTERS

NEEDED = object()

# Sorts of values.
WHOLE = "whole number"
# A fixed number is read as a whole number, and stands for that over the one that stands for 1.
FIXED = WHOLE
ONE = 65_536
WORD32 = "whole number of 32 bits"
THREE = "three whole numbers of 32 bits"
WORDS32 = "list of whole numbers of 32 bits"
FLAG = "false or true"
NAME = "name that is given"
LABEL = "label"

# Sorts of values that use names: what each may stand for.
BUFFER = ("name", ("buffer",))
TEXTURE = ("name", ("texture", "canvas texture"))
CANVAS = ("name", ("canvas",))
ENCODER = ("name", ("encoder",))
COMPUTE_PASS = ("name", ("compute pass",))
RENDER_PASS = ("name", ("render pass",))
PASS = ("name", ("compute pass", "render pass"))
BUNDLE_ENCODER = ("name", ("bundle encoder",))
BUNDLES = ("names", ("bundle",))
DRAWN_ON = ("name", ("render pass", "bundle encoder"))
SET_ON = ("name", ("compute pass", "render pass", "bundle encoder"))
ANY_PLACE = ("name", ("encoder", "compute pass", "render pass", "bundle encoder"))
VIEW = ("name", ("view",))
SAMPLER = ("name", ("sampler",))
GROUP_LAYOUT = ("name", ("bind group layout",))
GROUP_LAYOUTS = ("names or nulls", ("bind group layout",))
PIPELINE_LAYOUT_OR_AUTO = ("name or auto", ("pipeline layout",))
GROUP_OR_NULL = ("name or null", ("bind group",))
BUFFER_OR_NULL = ("name or null", ("buffer",))
PIPELINE = ("name", ("compute pipeline", "render pipeline"))
QUERIES = ("name", ("query set",))
RESOURCE = ("name", ("buffer", "texture", "canvas texture", "query set"))
OBJECT = (
    "name",
    (
        "buffer", "texture", "view", "sampler", "bind group layout", "pipeline layout", "bind group", "compute pipeline", "render pipeline",
        "query set", "encoder", "bundle encoder", "command buffer", "bundle",
    ),
)
COMMAND_BUFFERS = ("names", ("command buffer",))


def word(words: Any) -> tuple[Any, ...]:
    """The sort of a value that is one of some words."""
    return ("word", tuple(words))


LAYOUT = [("offset", WHOLE, 0), ("bytesPerRow", WORD32, None), ("rowsPerImage", WORD32, None)]
ORIGIN = (0, 0, 0)
SPOT = [
    ("texture", TEXTURE, NEEDED),
    ("mip", WORD32, 0),
    ("origin", THREE, ORIGIN),
    ("aspect", word(ASPECT_WORDS), "all"),
    ("size", THREE, NEEDED),
]
ON = ("on", ENCODER, NEEDED)
ON_COMPUTE = ("on", COMPUTE_PASS, NEEDED)
ON_RENDER = ("on", RENDER_PASS, NEEDED)
ON_PASS = ("on", PASS, NEEDED)
ON_DRAWN = ("on", DRAWN_ON, NEEDED)
ON_SET = ("on", SET_ON, NEEDED)
ON_ANY = ("on", ANY_PLACE, NEEDED)
AS = ("as", NAME, NEEDED)
# A label stands before the name that a call gives, and no rule of a device looks at it.
LABELED = ("label", LABEL, "")
NAMED = [LABELED, AS]

SAMPLER_WORDS = ("filtering", "non-filtering", "comparison")
FILTER = word(("nearest", "linear"))
COMPARE = word(("never", "less", "equal", "less-equal", "greater", "not-equal", "greater-equal", "always"))
ADDRESS_MODE = word(("clamp-to-edge", "repeat", "mirror-repeat"))
INDEX_FORMAT = word(("uint16", "uint32"))
CANVAS_FORMATS = ("rgba8unorm", "bgra8unorm", "rgba16float")
LOAD = word(("load", "clear"))
STORE = word(("store", "discard"))
BUFFER_KEYS: List[Key] = [("dynamic", FLAG, False), ("minSize", WHOLE, 0)]

# What pipelines say of what is drawn.
BLEND_OPERATIONS = ("add", "subtract", "reverse-subtract", "min", "max")
FACTORS = (
    "zero", "one", "src", "one-minus-src", "src-alpha", "one-minus-src-alpha", "dst", "one-minus-dst", "dst-alpha", "one-minus-dst-alpha",
    "src-alpha-saturated", "constant", "one-minus-constant",
)
STENCIL_OPERATIONS = (
    "keep", "zero", "replace", "invert", "increment-clamp", "decrement-clamp", "increment-wrap", "decrement-wrap",
)
TOPOLOGIES = ("point-list", "line-list", "line-strip", "triangle-list", "triangle-strip")
OPERATION_KEYS = ("failOp", "depthFailOp", "passOp")
STENCIL_KEYS = ("stencilFront", "stencilBack", "stencilReadMask", "stencilWriteMask")
ALL_CHANNELS, ALL_BITS = 15, 2**32 - 1
FACE = {"compare": "always", "failOp": "keep", "depthFailOp": "keep", "passOp": "keep"}
PRIMITIVE = {"topology": "triangle-list", "stripIndexFormat": None, "frontFace": "ccw", "cullMode": "none"}

# The further keys that an entry of a layout or an interface has, by its kind.
KIND_KEYS: Dict[str, List[Key]] = {
    "uniform": BUFFER_KEYS,
    "storage": BUFFER_KEYS,
    "read-only-storage": BUFFER_KEYS,
    "sampler": [("type", word(SAMPLER_WORDS), "filtering")],
    "texture": [("sample", word(SAMPLE_WORDS), "float"), ("dim", word(VIEW_DIMS), "2d"), ("multi", FLAG, False)],
    "storage-texture": [("access", word(ACCESS_WORDS), "write-only"), ("format", word(FORMATS), NEEDED), ("dim", word(VIEW_DIMS), "2d")],
}
KIND = ("kind", word(KIND_KEYS), NEEDED)

# The further keys that an entry of a bind group has, by the one of these keys that it has.
BOUND_KEYS: Dict[str, List[Key]] = {
    "buffer": [("buffer", BUFFER, NEEDED), ("offset", WHOLE, 0), ("size", WHOLE, None)],
    "view": [("view", VIEW, NEEDED)],
    "sampler": [("sampler", SAMPLER, NEEDED)],
}


def layout_entry_keys(item: Call) -> list[Key]:
    return [("binding", WORD32, NEEDED), ("visibility", WORD32, NEEDED), KIND, *KIND_KEYS[item["kind"]]]


def iface_entry_keys(item: Call) -> list[Key]:
    return [("group", WORD32, NEEDED), ("binding", WORD32, NEEDED), KIND, *KIND_KEYS[item["kind"]]]


def render_iface_entry_keys(item: Call) -> list[Key]:
    return [("stage", word(("vertex", "fragment")), NEEDED), *iface_entry_keys(item)]


def group_entry_keys(item: Call) -> list[Key]:
    return [("binding", WORD32, NEEDED), *BOUND_KEYS[bound_by(item)]]


def bound_by(item: dict[Any, Any]) -> str:
    """What an entry of a bind group binds: a buffer, a view or a sampler. One that has none of these keys lacks a buffer."""
    return next((key for key in BOUND_KEYS if key in item), "buffer")


def attribute_keys(item: Any) -> Any:
    return [("format", word(VERTEX_FORMATS), NEEDED), ("offset", WORD32, NEEDED), ("location", WORD32, NEEDED)]


def vertex_buffer_keys(item: dict[Any, Any]) -> list[Any]:
    return [
        ("stride", WORD32, NEEDED),
        ("step", word(("vertex", "instance")), "vertex"),
        ("attributes", ("objects", attribute_keys), NEEDED),
    ]


def depth_state_keys(item: dict[Any, Any]) -> Any:
    """Whether stencil is written is said by `stencilWrite`, or hangs on the keys of stencil: one that has any of these has not that."""
    said = [] if any(key in item for key in STENCIL_KEYS) else [("stencilWrite", FLAG, False)]
    return [
        ("format", word(FORMATS), NEEDED), ("depthWrite", ("or none", FLAG), False), *said,
        ("depthCompare", ("or none", COMPARE), "always"), ("stencilFront", ("object", face_keys), FACE),
        ("stencilBack", ("object", face_keys), FACE), ("stencilReadMask", WORD32, ALL_BITS), ("stencilWriteMask", WORD32, ALL_BITS),
        ("bias", FLAG, False),
    ]


def target_keys(item: dict[Any, Any]) -> list[Any]:
    return [("format", word(FORMATS), NEEDED), ("blend", ("object", blend_keys), None), ("writeMask", WORD32, ALL_CHANNELS)]


def blend_keys(item: dict[Any, Any]) -> list[Any]:
    return [("color", ("object", blended_keys), NEEDED), ("alpha", ("object", blended_keys), NEEDED)]


def blended_keys(item: dict[Any, Any]) -> list[Any]:
    return [("operation", word(BLEND_OPERATIONS), "add"), ("srcFactor", word(FACTORS), "one"), ("dstFactor", word(FACTORS), "zero")]


def face_keys(item: dict[Any, Any]) -> list[Any]:
    return [("compare", COMPARE, "always"), *((key, word(STENCIL_OPERATIONS), "keep") for key in OPERATION_KEYS)]


def primitive_keys(item: dict[Any, Any]) -> list[Any]:
    return [
        ("topology", word(TOPOLOGIES), "triangle-list"), ("stripIndexFormat", INDEX_FORMAT, None),
        ("frontFace", word(("ccw", "cw")), "ccw"), ("cullMode", word(("none", "front", "back")), "none"),
    ]


def color_keys(item: dict[Any, Any]) -> list[Any]:
    return [("view", VIEW, NEEDED), ("depthSlice", WORD32, None), ("resolve", VIEW, None), ("load", LOAD, NEEDED), ("store", STORE, NEEDED)]


def depth_keys(item: dict[Any, Any]) -> list[Any]:
    return [
        ("view", VIEW, NEEDED), ("depthLoad", LOAD, None), ("depthStore", STORE, None), ("depthReadOnly", FLAG, False),
        ("stencilLoad", LOAD, None), ("stencilStore", STORE, None), ("stencilReadOnly", FLAG, False),
        ("depthClearValue", ("or none", FIXED), None), ("stencilClearValue", WORD32, 0),
    ]


# Sorts of values that are objects, or lists of them: which keys an object has. What has to be known of it for that, its kind, is
# tested before, of those that have one.
LAYOUT_ENTRIES = ("objects", layout_entry_keys)
IFACE_ENTRIES = ("objects", iface_entry_keys)
RENDER_IFACE_ENTRIES = ("objects", render_iface_entry_keys)
GROUP_ENTRIES = ("objects", group_entry_keys)
VERTEX_BUFFERS = ("objects or nulls", vertex_buffer_keys)
TARGETS = ("targets", target_keys)
PRIMITIVE_STATE = ("object", primitive_keys)
FORMATS_OR_NULLS = ("words or nulls", tuple(FORMATS))
DEPTH_STATE = ("object", depth_state_keys)
COLORS = ("objects or nulls", color_keys)
DEPTH = ("object", depth_keys)
WITH_KIND = (layout_entry_keys, iface_entry_keys, render_iface_entry_keys)
WITH_NAMES = ("name", "name or auto", "name or null", "names", "names or nulls", "object", "objects", "objects or nulls")
ONE_NAME = ("name", "name or auto", "name or null")

CALLS: Dict[str, List[Key]] = {
    "createBuffer": [("size", WHOLE, NEEDED), ("usage", WORD32, NEEDED), ("mapped", FLAG, False), *NAMED],
    "createTexture": [
        ("size", THREE, NEEDED), ("usage", WORD32, NEEDED), ("format", word(FORMATS), NEEDED), ("dim", word(TEXTURE_DIMS), "2d"),
        ("mips", WORD32, 1), ("samples", WORD32, 1), *NAMED,
    ],
    "createView": [
        ("texture", TEXTURE, NEEDED), ("dim", word(VIEW_DIMS), None), ("aspect", word(ASPECT_WORDS), "all"), ("baseMip", WORD32, 0),
        ("mips", WORD32, None), ("baseLayer", WORD32, 0), ("layers", WORD32, None), *NAMED,
    ],
    "createSampler": [("kind", word(SAMPLER_WORDS), "filtering"), *NAMED],
    "createBindGroupLayout": [("entries", LAYOUT_ENTRIES, NEEDED), *NAMED],
    "createPipelineLayout": [("layouts", GROUP_LAYOUTS, NEEDED), *NAMED],
    "createBindGroup": [("layout", GROUP_LAYOUT, NEEDED), ("entries", GROUP_ENTRIES, NEEDED), *NAMED],
    "createComputePipeline": [("layout", PIPELINE_LAYOUT_OR_AUTO, NEEDED), ("iface", IFACE_ENTRIES, ()), *NAMED],
    "createRenderPipeline": [
        ("layout", PIPELINE_LAYOUT_OR_AUTO, NEEDED), ("iface", RENDER_IFACE_ENTRIES, ()), ("buffers", VERTEX_BUFFERS, ()),
        ("targets", TARGETS, ()), ("depth", DEPTH_STATE, None), ("samples", WORD32, 1), ("primitive", PRIMITIVE_STATE, PRIMITIVE),
        ("mask", WORD32, ALL_BITS), ("alphaToCoverage", FLAG, False), *NAMED,
    ],
    "getBindGroupLayout": [("pipeline", PIPELINE, NEEDED), ("index", WORD32, NEEDED), *NAMED],
    "createQuerySet": [("count", WORD32, NEEDED), *NAMED],
    "createEncoder": NAMED,
    "createBundleEncoder": [
        ("colors", FORMATS_OR_NULLS, NEEDED), ("depth", word(FORMATS), None), ("samples", WORD32, 1), ("depthReadOnly", FLAG, False),
        ("stencilReadOnly", FLAG, False), *NAMED,
    ],
    "finish": [ON, *NAMED],
    "finishBundle": [("on", BUNDLE_ENCODER, NEEDED), *NAMED],
    "submit": [("buffers", COMMAND_BUFFERS, NEEDED)],
    "writeBuffer": [("buffer", BUFFER, NEEDED), ("offset", WHOLE, NEEDED), ("size", WHOLE, NEEDED)],
    "writeTexture": SPOT + LAYOUT + [("dataSize", WHOLE, NEEDED)],
    "mapAsync": [("buffer", BUFFER, NEEDED), ("mode", WORD32, NEEDED), ("offset", WHOLE, 0), ("size", WHOLE, None)],
    "unmap": [("buffer", BUFFER, NEEDED)],
    "destroy": [("object", RESOURCE, NEEDED)],
    "drop": [("object", OBJECT, NEEDED)],
    "complete": [("op", WHOLE, NEEDED)],
    "workDone": [],
    "pushErrorScope": [("filter", word(FILTERS), NEEDED)],
    "popErrorScope": [],
    "lose": [],
    "copyBufferToBuffer": [
        ON, ("source", BUFFER, NEEDED), ("sourceOffset", WHOLE, NEEDED), ("target", BUFFER, NEEDED), ("targetOffset", WHOLE, NEEDED),
        ("size", WHOLE, NEEDED),
    ],
    "copyBufferToTexture": [ON, ("buffer", BUFFER, NEEDED)] + LAYOUT + SPOT,
    "copyTextureToBuffer": [ON, ("buffer", BUFFER, NEEDED)] + LAYOUT + SPOT,
    "copyTextureToTexture": [
        ON, ("source", TEXTURE, NEEDED), ("sourceMip", WORD32, 0), ("sourceOrigin", THREE, ORIGIN), ("target", TEXTURE, NEEDED),
        ("targetMip", WORD32, 0), ("targetOrigin", THREE, ORIGIN), ("size", THREE, NEEDED),
    ],
    "clearBuffer": [ON, ("buffer", BUFFER, NEEDED), ("offset", WHOLE, 0), ("size", WHOLE, None)],
    "resolveQuerySet": [
        ON, ("queries", QUERIES, NEEDED), ("first", WORD32, NEEDED), ("count", WORD32, NEEDED), ("buffer", BUFFER, NEEDED),
        ("offset", WHOLE, NEEDED),
    ],
    "beginComputePass": [ON, *NAMED],
    "beginRenderPass": [
        ON, ("colors", COLORS, NEEDED), ("depth", DEPTH, None), ("queries", QUERIES, None), ("maxDrawCount", WHOLE, None), *NAMED,
    ],
    "setPipeline": [ON_SET, ("pipeline", PIPELINE, NEEDED)],
    "setBindGroup": [ON_SET, ("index", WORD32, NEEDED), ("group", GROUP_OR_NULL, NEEDED), ("offsets", WORDS32, ())],
    "dispatch": [ON_COMPUTE, ("x", WORD32, NEEDED), ("y", WORD32, 1), ("z", WORD32, 1)],
    "dispatchIndirect": [ON_COMPUTE, ("buffer", BUFFER, NEEDED), ("offset", WHOLE, NEEDED)],
    "setVertexBuffer": [
        ON_DRAWN, ("slot", WORD32, NEEDED), ("buffer", BUFFER_OR_NULL, NEEDED), ("offset", WHOLE, 0), ("size", WHOLE, None),
    ],
    "setIndexBuffer": [
        ON_DRAWN, ("buffer", BUFFER, NEEDED), ("format", INDEX_FORMAT, NEEDED), ("offset", WHOLE, 0), ("size", WHOLE, None),
    ],
    "setViewport": [
        ON_RENDER, ("x", FIXED, 0), ("left", FLAG, False), ("y", FIXED, 0), ("above", FLAG, False), ("width", FIXED, NEEDED),
        ("height", FIXED, NEEDED), ("minDepth", FIXED, 0), ("maxDepth", FIXED, ONE),
    ],
    "setScissorRect": [ON_RENDER, ("x", WORD32, NEEDED), ("y", WORD32, NEEDED), ("width", WORD32, NEEDED), ("height", WORD32, NEEDED)],
    "setBlendConstant": [ON_RENDER],
    "setStencilReference": [ON_RENDER, ("reference", WORD32, NEEDED)],
    "draw": [
        ON_DRAWN, ("vertices", WORD32, NEEDED), ("instances", WORD32, 1), ("firstVertex", WORD32, 0), ("firstInstance", WORD32, 0),
    ],
    "drawIndexed": [
        ON_DRAWN, ("indices", WORD32, NEEDED), ("instances", WORD32, 1), ("firstIndex", WORD32, 0), ("firstInstance", WORD32, 0),
        ("baseVertex", WORD32, 0),
    ],
    "drawIndirect": [ON_DRAWN, ("buffer", BUFFER, NEEDED), ("offset", WHOLE, NEEDED)],
    "drawIndexedIndirect": [ON_DRAWN, ("buffer", BUFFER, NEEDED), ("offset", WHOLE, NEEDED)],
    "beginOcclusionQuery": [ON_RENDER, ("index", WORD32, NEEDED)],
    "endOcclusionQuery": [ON_RENDER],
    "executeBundles": [ON_RENDER, ("bundles", BUNDLES, NEEDED)],
    "end": [ON_PASS],
    "pushDebugGroup": [ON_ANY, LABELED],
    "popDebugGroup": [ON_ANY],
    "insertDebugMarker": [ON_ANY, LABELED],
    "createCanvas": [("width", WORD32, NEEDED), ("height", WORD32, NEEDED), AS],
    "configureCanvas": [("canvas", CANVAS, NEEDED), ("format", word(CANVAS_FORMATS), NEEDED), ("usage", WORD32, 16)],
    "currentTexture": [("canvas", CANVAS, NEEDED), *NAMED],
    "present": [("canvas", CANVAS, NEEDED)],
}

# What a createSampler has that says what the sampler does, in place of its kind.
SAMPLER_FIELDS: List[Key] = [
    ("magFilter", FILTER, "nearest"), ("minFilter", FILTER, "nearest"), ("mipmapFilter", FILTER, "nearest"), ("compare", COMPARE, None),
    ("lodMinClamp", FIXED, 0), ("lodMaxClamp", FIXED, 32 * ONE), ("maxAnisotropy", WORD32, 1),
    *((f"addressMode{axis}", ADDRESS_MODE, "clamp-to-edge") for axis in "UVW"),
]
# The calls that have a second form, each with the keys of which one at least makes a call such a one, and with all keys of that form.
SECOND_FORMS: Dict[str, Tuple[Set[str], List[Key]]] = {
    "createSampler": ({key for key, _, _ in SAMPLER_FIELDS}, [*SAMPLER_FIELDS, *NAMED]),
}


def is_of_second_form(do: str, given: Iterable[str]) -> bool:
    """By the keys that are given a call is one of its second form, if there is one."""
    return do in SECOND_FORMS and not SECOND_FORMS[do][0].isdisjoint(given)


# The calls that record a command on an encoder, on a pass of it, or on a bundle encoder.
RECORDING = {
    "copyBufferToBuffer", "copyBufferToTexture", "copyTextureToBuffer", "copyTextureToTexture", "clearBuffer", "resolveQuerySet",
    "beginComputePass", "beginRenderPass", "setPipeline", "setBindGroup", "dispatch", "dispatchIndirect", "setVertexBuffer",
    "setIndexBuffer", "draw", "drawIndexed", "drawIndirect", "drawIndexedIndirect", "beginOcclusionQuery", "endOcclusionQuery",
    "executeBundles", "end", "pushDebugGroup", "popDebugGroup", "insertDebugMarker", "setViewport", "setScissorRect", "setBlendConstant",
    "setStencilReference",
}
BEGINS = {"beginComputePass", "beginRenderPass"}
DISPATCHES = {"dispatch", "dispatchIndirect"}
DRAWS = {"draw", "drawIndexed", "drawIndirect", "drawIndexedIndirect"}

# The calls that make what commands are recorded on, and those that end it and make something of the commands.
ENCODERS = {"createEncoder", "createBundleEncoder"}
FINISHES = {"finish", "finishBundle"}

# The calls that queue an operation.
QUEUED = {"submit", "writeBuffer", "writeTexture"}

# The calls that make a promise, and those of them whose promise may wait.
PROMISING = {"mapAsync", "workDone", "popErrorScope"}
WAITING = {"mapAsync", "workDone"}

# What object a call makes.
MADE = {
    "createBuffer": "buffer",
    "createTexture": "texture",
    "createView": "view",
    "createSampler": "sampler",
    "createBindGroupLayout": "bind group layout",
    "createPipelineLayout": "pipeline layout",
    "createBindGroup": "bind group",
    "createComputePipeline": "compute pipeline",
    "createRenderPipeline": "render pipeline",
    "getBindGroupLayout": "bind group layout",
    "createQuerySet": "query set",
    "createEncoder": "encoder",
    "createBundleEncoder": "bundle encoder",
    "finish": "command buffer",
    "finishBundle": "bundle",
}

# The calls whose objects take memory: they are destroyed and released.
RESOURCES = {"createBuffer", "createTexture", "createQuerySet"}

# What the name stands for that a call gives. A pass is no object, nor is a canvas; and what a currentTexture gave may not be dropped.
GIVEN = {
    **MADE,
    "beginComputePass": "compute pass",
    "beginRenderPass": "render pass",
    "createCanvas": "canvas",
    "currentTexture": "canvas texture",
}


def is_auto(sort: tuple[Any, ...], value: str) -> bool:
    """A value that may be a name or the word `auto` is that word. An object of that name is not reached so."""
    return sort[0] == "name or auto" and value == "auto"


# Sorts of objects that name nothing.
NAMELESS = (layout_entry_keys, iface_entry_keys, render_iface_entry_keys, vertex_buffer_keys, depth_state_keys, primitive_keys)
NAME_KEYS: Dict[str, List[Any]] = {
    do: [(key, sort) for key, sort, _ in keys if sort[0] in WITH_NAMES and sort[1] not in NAMELESS] for do, keys in CALLS.items()
}


def name_keys(do: str) -> list[tuple[str, Any]]:
    """The keys of a call whose values may use names, in order, each with its sort."""
    return NAME_KEYS[do]


def names_in(sort: Any, value: Any) -> Any:
    """The names that a value uses, in order, each with what it may stand for. What is left out, or is null, uses none."""
    if sort[0] not in WITH_NAMES or value is None:
        return []
    if sort[0] in ONE_NAME:
        return [] if is_auto(sort, value) else [(value, sort[1])]
    if sort[0] in ("names", "names or nulls"):
        return [(name, sort[1]) for name in value if name is not None]
    items = [value] if sort[0] == "object" else [item for item in value if item is not None]
    return [found for item in items for key, inner, _ in sort[1](item) if inner[0] in WITH_NAMES for found in names_in(inner, item[key])]
