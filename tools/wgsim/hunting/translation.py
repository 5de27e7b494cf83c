"""What the calls of a script are in a browser: of each the method, on what it is called, and its arguments.

A translated call is a dict that is handed to the page as it is, and from which pages are written too:
    n        the number of the call in the script, `do` its word
    on       the name of what it is called on: an object of the script, `device`, `queue`, or a canvas; with `method` and `args`
    as       the name of what it gives
    code     the text of the shader of a pipeline; `module` stands in its arguments
    watch    the filters of the error scopes around it: none of a command that is not late
    promise  it gives a promise; `wait` has the calls whose promises are waited for after it
An argument {"$": NAME} is the object of a name, and {"bytes": N} so many bytes of zeros.
"""

from __future__ import annotations

import functools
from typing import Any, Callable

from wgsim.reading import calls

from . import shaders
from .core import Answered

Call = dict
DEVICE, QUEUE = "device", "queue"
MAKERS = {"createBuffer", "createTexture", "createQuerySet"}
PIPELINES = {"createComputePipeline", "createRenderPipeline"}
SCOPES = {"pushErrorScope", "popErrorScope"}
# The mask of all bits, and the word for what a page leaves out.
ALL, NONE = 2**32 - 1, calls.NONE


def ref(name: str | None) -> dict[str, str] | None:
    """An argument that is the object of a name."""
    return None if name is None else {"$": name}


def slim(described: dict[str, Any]) -> dict[str, Any]:
    """An object without the members that were not given."""
    return {key: value for key, value in described.items() if value is not None}


def translated(answered: Answered) -> list[dict[str, Any]]:
    """The calls of a script in a browser, in their order."""
    made: list[dict[str, Any]] = []
    places = {promise: number for number, promises in answered.settled_at.items() for promise in promises}
    maps = {number: places.get(number, len(answered.whole)) for number, call in enumerate(answered.whole) if call["do"] == "mapAsync"}
    for number, call in enumerate(answered.whole):
        entry = answered.entry_of.get(number)
        told = {"n": number, "do": call["do"], **TRANSLATE[call["do"]](call)}
        if call["do"] in PIPELINES:
            told["code"] = shaders.compute(call) if call["do"] == "createComputePipeline" else shaders.render(call)
        if calls.canvas(call["do"]) == "presents" and entry is None:
            continue
        if calls.canvas(call["do"]) in ("makes", "presents"):
            made.append(told)
            continue
        if entry is not None and call["do"] not in SCOPES:
            told["watch"] = watched(call["do"])
        if entry is not None and entry.answer == ["promise"]:
            told["promise"] = True
        # What waits lets the queue go on, so that a map that is to stay pending would come true.
        is_pending = call["do"] != "complete" and any(begun < number < end for begun, end in maps.items())
        waits = [each for each in answered.settled_at.get(number, []) if waits_for(answered, each) and not is_pending]
        made.append({**told, "wait": waits} if waits else told)
    return made


def watched(word: str) -> list[str]:
    """The filters of the scopes around a call."""
    return ["validation", *(["out-of-memory"] if word in MAKERS else ["internal"] if word in PIPELINES else [])]


def waits_for(answered: Answered, promise: int) -> bool:
    """Whether what comes later hangs on a promise: that of a map which comes true, or is refused."""
    return answered.whole[promise]["do"] == "mapAsync" and answered.settled[promise] in ("mapped", "rejected")


# ---- what each call is ----
def made_by(method: str, describe: Callable[[Any], Any]) -> Callable[[Any], Any]:
    """A call that makes something of the device by a descriptor."""
    return lambda call: {"on": DEVICE, "method": method, "args": [describe(call)], "as": call["as"]}


def command(method: str, *args: Callable[[Any], Any]) -> Callable[[Any], Any]:
    """A call on an encoder, a pass or a bundle encoder."""
    return lambda call: {"on": call["on"], "method": method, "args": trimmed([arg(call) for arg in args])}


def trimmed(args: list[Any]) -> list[Any]:
    """Arguments without those at the end that were not given."""
    while args and args[-1] is None:
        args.pop()
    return args


def key(name: str) -> Callable[[Any], Any]:
    return lambda call: call[name]


def named(name: str) -> Callable[[Any], Any]:
    return lambda call: ref(call[name])


def buffer(call: dict[str, Any]) -> dict[str, Any]:
    return {"size": call["size"], "usage": call["usage"], **({"mappedAtCreation": True} if call["mapped"] else {})}


def texture(call: dict[str, Any]) -> dict[str, Any]:
    more = {"dimension": call["dim"], "mipLevelCount": call["mips"], "sampleCount": call["samples"]}
    usual = {"dimension": "2d", "mipLevelCount": 1, "sampleCount": 1}
    more = {name: value for name, value in more.items() if value != usual[name]}
    return {"size": list(call["size"]), "format": call["format"], "usage": call["usage"], **more}


def view(call: dict[str, Any]) -> dict[str, Any]:
    described = slim({
        "dimension": call["dim"], "aspect": None if call["aspect"] == "all" else call["aspect"],
        "baseMipLevel": call["baseMip"] or None, "mipLevelCount": call["mips"],
        "baseArrayLayer": call["baseLayer"] or None, "arrayLayerCount": call["layers"],
    })
    return {"on": call["texture"], "method": "createView", "args": [described] if described else [], "as": call["as"]}


SAMPLERS: dict[str, dict[str, Any]] = {"filtering": {"magFilter": "linear"}, "non-filtering": {}, "comparison": {"compare": "less"}}
FILTERS, ADDRESSES = ("magFilter", "minFilter", "mipmapFilter"), ("addressModeU", "addressModeV", "addressModeW")


def but(described: dict[str, Any], **usual: Any) -> dict[str, Any]:
    """Those members of some names that are given and are not what is usual."""
    return {name: described[name] for name, value in usual.items() if described[name] is not None and described[name] != value}


def sampler(call: dict[str, Any]) -> dict[str, Any]:
    """What a sampler is: one that its kind tells, or one that is described."""
    if "kind" in call:
        return SAMPLERS[call["kind"]]
    words = but(call, **dict.fromkeys(FILTERS, "nearest"), compare=None, **dict.fromkeys(ADDRESSES, "clamp-to-edge"))
    levels = {name: as_real(value) for name, value in but(call, lodMinClamp=0, lodMaxClamp=32 * calls.ONE).items()}
    return {**words, **levels, **but(call, maxAnisotropy=1)}


def layout_entry(entry: dict[str, Any]) -> dict[str, Any]:
    at, kind = {"binding": entry["binding"], "visibility": entry["visibility"]}, entry["kind"]
    if kind == "sampler":
        return {**at, "sampler": {"type": entry["type"]}}
    if kind == "texture":
        return {**at, "texture": {"sampleType": entry["sample"], "viewDimension": entry["dim"], "multisampled": entry["multi"]}}
    if kind == "storage-texture":
        return {**at, "storageTexture": {"access": entry["access"], "format": entry["format"], "viewDimension": entry["dim"]}}
    return {**at, "buffer": {"type": kind, "hasDynamicOffset": entry["dynamic"], "minBindingSize": entry["minSize"]}}


def group_entry(entry: dict[str, Any]) -> dict[str, Any]:
    if "buffer" in entry:
        bound = slim({"buffer": ref(entry["buffer"]), "offset": entry.get("offset") or None, "size": entry.get("size")})
        return {"binding": entry["binding"], "resource": bound}
    return {"binding": entry["binding"], "resource": ref(entry["view"] if "view" in entry else entry["sampler"])}


def layout_of(call: dict[str, Any]) -> Any:
    return "auto" if call["layout"] == "auto" else ref(call["layout"])


def compute_pipeline(call: dict[str, Any]) -> dict[str, Any]:
    return {"layout": layout_of(call), "compute": {"module": ref("module")}}


def render_pipeline(call: dict[str, Any]) -> dict[str, Any]:
    described: dict[str, Any] = {"layout": layout_of(call), "vertex": {"module": ref("module")}}
    if call["buffers"]:
        described["vertex"]["buffers"] = [None if each is None else vertex_buffer(each) for each in call["buffers"]]
    if shaders.has_fragment(call):
        described["fragment"] = {"module": ref("module"), "targets": [None if each is None else target(each) for each in call["targets"]]}
    primitive = but(call["primitive"], topology="triangle-list", stripIndexFormat=None, frontFace="ccw", cullMode="none")
    if primitive:
        described["primitive"] = primitive
    if call["depth"] is not None:
        described["depthStencil"] = depth_stencil(call["depth"])
    samples = {"count": call["samples"], "mask": call["mask"], "alphaToCoverageEnabled": call["alphaToCoverage"]}
    samples = but(samples, count=1, mask=ALL, alphaToCoverageEnabled=False)
    return {**described, **({"multisample": samples} if samples else {})}


def target(described: dict[str, Any]) -> dict[str, Any]:
    """What a pipeline draws to, with how it blends."""
    blend = described["blend"]
    parts = {part: but(blend[part], operation="add", srcFactor="one", dstFactor="zero") for part in blend} if blend is not None else None
    return {"format": described["format"], **({"blend": parts} if parts is not None else {}), **but(described, writeMask=15)}


def vertex_buffer(described: dict[str, Any]) -> dict[str, Any]:
    members = {"format": "format", "offset": "offset", "shaderLocation": "location"}
    attributes = [{member: each[name] for member, name in members.items()} for each in described["attributes"]]
    return {"arrayStride": described["stride"], "stepMode": described["step"], "attributes": attributes}


def depth_stencil(depth: dict[str, Any]) -> dict[str, Any]:
    """What draws to depth and stencil, without what a page leaves out. Where it is only told that stencil is written, both faces write."""
    of_depth = {"depthWriteEnabled": depth["depthWrite"], "depthCompare": depth["depthCompare"]}
    of_depth = but(of_depth, depthWriteEnabled=NONE, depthCompare=NONE)
    if "stencilWrite" in depth:
        faces = {"stencilFront": {"passOp": "replace"}, "stencilBack": {"passOp": "replace"}} if depth["stencilWrite"] else {}
    else:
        usual = {"compare": "always", "failOp": "keep", "depthFailOp": "keep", "passOp": "keep"}
        faces = {face: but(depth[face], **usual) for face in ("stencilFront", "stencilBack") if depth[face] != usual}
    masks = but(depth, stencilReadMask=ALL, stencilWriteMask=ALL)
    return {"format": depth["format"], **of_depth, **faces, **masks, **({"depthBias": 1} if depth["bias"] else {})}


def bundle_encoder(call: dict[str, Any]) -> dict[str, Any]:
    flags = {word: True for word in ("depthReadOnly", "stencilReadOnly") if call[word]}
    samples = {"sampleCount": call["samples"]} if call["samples"] != 1 else {}
    return slim({"colorFormats": call["colors"], "depthStencilFormat": call["depth"], **samples, **flags})


def color(attached: dict[str, Any] | None) -> dict[str, Any] | None:
    if attached is None:
        return None
    where = slim({"view": ref(attached["view"]), "depthSlice": attached["depthSlice"], "resolveTarget": ref(attached["resolve"])})
    return {**where, "loadOp": attached["load"], "storeOp": attached["store"]}


def depth_attachment(attached: dict[str, Any]) -> dict[str, Any]:
    """What depth and stencil are; depth that is cleared is cleared to something, where it is not said that a page leaves that out."""
    flags = {word: True for word in ("depthReadOnly", "stencilReadOnly") if attached[word]}
    value = attached["depthClearValue"]
    cleared: dict[str, Any] = {"depthClearValue": 1} if attached["depthLoad"] == "clear" and value is None else {}
    if value not in (None, NONE):
        cleared = {"depthClearValue": as_real(value)}
    ops = {
        "depthLoadOp": attached["depthLoad"], "depthStoreOp": attached["depthStore"],
        "stencilLoadOp": attached["stencilLoad"], "stencilStoreOp": attached["stencilStore"],
    }
    return {"view": ref(attached["view"]), **slim(ops), **cleared, **but(attached, stencilClearValue=0), **flags}


def render_pass(call: dict[str, Any]) -> dict[str, Any]:
    described: dict[str, Any] = {"colorAttachments": [color(each) for each in call["colors"]]}
    if call["depth"] is not None:
        described["depthStencilAttachment"] = depth_attachment(call["depth"])
    more = slim({"occlusionQuerySet": ref(call["queries"]), "maxDrawCount": call["maxDrawCount"]})
    return {"on": call["on"], "method": "beginRenderPass", "args": [{**described, **more}], "as": call["as"]}


def spot(call: dict[str, Any], texture_key: str = "texture", mip: str = "mip", at: str = "origin") -> dict[str, Any]:
    aspect = {"aspect": call["aspect"]} if call.get("aspect", "all") != "all" else {}
    origin = {"origin": list(call[at])} if any(call[at]) else {}
    return {"texture": ref(call[texture_key]), **({"mipLevel": call[mip]} if call[mip] else {}), **origin, **aspect}


def rows(call: dict[str, Any]) -> dict[str, Any]:
    return slim({"offset": call["offset"] or None, "bytesPerRow": call["bytesPerRow"], "rowsPerImage": call["rowsPerImage"]})


def in_buffer(call: dict[str, Any]) -> dict[str, Any]:
    return {"buffer": ref(call["buffer"]), **rows(call)}


def size(call: dict[str, Any]) -> list[int]:
    return list(call["size"])


def write_buffer(call: dict[str, Any]) -> dict[str, Any]:
    return {"on": QUEUE, "method": "writeBuffer", "args": [ref(call["buffer"]), call["offset"], {"bytes": call["size"]}]}


def write_texture(call: dict[str, Any]) -> dict[str, Any]:
    return {"on": QUEUE, "method": "writeTexture", "args": [spot(call), {"bytes": call["dataSize"]}, rows(call), size(call)]}


def map_async(call: dict[str, Any]) -> dict[str, Any]:
    return {"on": call["buffer"], "method": "mapAsync", "args": trimmed([call["mode"], call["offset"], call["size"]])}


def configure(call: dict[str, Any]) -> dict[str, Any]:
    described = {"device": ref(DEVICE), "format": call["format"], "usage": call["usage"]}
    return {"on": call["canvas"], "method": "configure", "args": [described]}


def finish(call: dict[str, Any]) -> dict[str, Any]:
    return {"on": call["on"], "method": "finish", "args": [], "as": call["as"]}


def on_device(method: str, *args: Callable[[Any], Any]) -> Callable[[Any], Any]:
    return lambda call: {"on": DEVICE, "method": method, "args": [arg(call) for arg in args]}


def source_of_copy(call: dict[str, Any]) -> dict[str, Any]:
    return spot(call, "source", "sourceMip", "sourceOrigin")


def target_of_copy(call: dict[str, Any]) -> dict[str, Any]:
    return spot(call, "target", "targetMip", "targetOrigin")


def base_vertex(call: dict[str, Any]) -> int:
    """The base vertex, which has a sign in a browser: from 2^31 on it is a number below 0."""
    base = call["baseVertex"]
    return base - 2**32 if base >= 2**31 else base


def bind_group(call: dict[str, Any]) -> dict[str, Any]:
    """What sets a bind group, or, where it is null, unsets the one that was set."""
    offsets = [call["offsets"]] if call["offsets"] else []
    return {"on": call["on"], "method": "setBindGroup", "args": [call["index"], ref(call["group"]), *offsets]}


def real(name: str, before: str | None = None) -> Callable[[Any], Any]:
    """A fixed number as the float that it is; one that is said with a flag is below 0 where that is set."""

    def described(call: dict[str, Any]) -> float:
        value = as_real(call[name])
        return -value if before is not None and call[before] else value

    return described


def as_real(fixed: int) -> float:
    """What a fixed number stands for."""
    return fixed / calls.ONE if fixed % calls.ONE else fixed // calls.ONE


def bundles(call: dict[str, Any]) -> list[Any]:
    return [ref(name) for name in call["bundles"]]


def entries(describe: Callable[[Any], Any], call: dict[str, Any]) -> list[Any]:
    return [describe(entry) for entry in call["entries"]]


LAYOUT = functools.partial(entries, layout_entry)
BOUND = functools.partial(entries, group_entry)
COUNTS = [key("first"), key("count")]
TRANSLATE: dict[str, Callable[[Any], dict[str, Any]]] = {
    "createBuffer": made_by("createBuffer", buffer),
    "createTexture": made_by("createTexture", texture),
    "createView": view,
    "createSampler": made_by("createSampler", sampler),
    "createBindGroupLayout": made_by("createBindGroupLayout", lambda call: {"entries": LAYOUT(call)}),
    "createPipelineLayout": made_by("createPipelineLayout", lambda call: {"bindGroupLayouts": [ref(name) for name in call["layouts"]]}),
    "createBindGroup": made_by("createBindGroup", lambda call: {"layout": ref(call["layout"]), "entries": BOUND(call)}),
    "createComputePipeline": made_by("createComputePipeline", compute_pipeline),
    "createRenderPipeline": made_by("createRenderPipeline", render_pipeline),
    "getBindGroupLayout": lambda call: {"on": call["pipeline"], "method": "getBindGroupLayout", "args": [call["index"]], "as": call["as"]},
    "createQuerySet": made_by("createQuerySet", lambda call: {"type": "occlusion", "count": call["count"]}),
    "createEncoder": lambda call: {"on": DEVICE, "method": "createCommandEncoder", "args": [], "as": call["as"]},
    "createBundleEncoder": made_by("createRenderBundleEncoder", bundle_encoder),
    "finish": finish,
    "finishBundle": finish,
    "submit": lambda call: {"on": QUEUE, "method": "submit", "args": [[ref(name) for name in call["buffers"]]]},
    "writeBuffer": write_buffer,
    "writeTexture": write_texture,
    "mapAsync": map_async,
    "unmap": lambda call: {"on": call["buffer"], "method": "unmap", "args": []},
    "destroy": lambda call: {"on": call["object"], "method": "destroy", "args": []},
    "complete": lambda call: {},
    "workDone": lambda call: {"on": QUEUE, "method": "onSubmittedWorkDone", "args": []},
    "pushErrorScope": on_device("pushErrorScope", key("filter")),
    "popErrorScope": on_device("popErrorScope"),
    "lose": on_device("destroy"),
    "copyBufferToBuffer": command(
        "copyBufferToBuffer", named("source"), key("sourceOffset"), named("target"), key("targetOffset"), key("size")
    ),
    "copyBufferToTexture": command("copyBufferToTexture", in_buffer, spot, size),
    "copyTextureToBuffer": command("copyTextureToBuffer", spot, in_buffer, size),
    "copyTextureToTexture": command("copyTextureToTexture", source_of_copy, target_of_copy, size),
    "clearBuffer": command("clearBuffer", named("buffer"), key("offset"), key("size")),
    "resolveQuerySet": command("resolveQuerySet", named("queries"), *COUNTS, named("buffer"), key("offset")),
    "beginComputePass": lambda call: {"on": call["on"], "method": "beginComputePass", "args": [], "as": call["as"]},
    "beginRenderPass": render_pass,
    "setPipeline": command("setPipeline", named("pipeline")),
    "setBindGroup": bind_group,
    "dispatch": command("dispatchWorkgroups", key("x"), key("y"), key("z")),
    "dispatchIndirect": command("dispatchWorkgroupsIndirect", named("buffer"), key("offset")),
    "setVertexBuffer": command("setVertexBuffer", key("slot"), named("buffer"), key("offset"), key("size")),
    "setIndexBuffer": command("setIndexBuffer", named("buffer"), key("format"), key("offset"), key("size")),
    "setViewport": command(
        "setViewport", real("x", "left"), real("y", "above"), real("width"), real("height"), real("minDepth"), real("maxDepth")
    ),
    "setScissorRect": command("setScissorRect", key("x"), key("y"), key("width"), key("height")),
    "setBlendConstant": command("setBlendConstant", lambda call: [0, 0, 0, 1]),
    "setStencilReference": command("setStencilReference", key("reference")),
    "draw": command("draw", key("vertices"), key("instances"), key("firstVertex"), key("firstInstance")),
    "drawIndexed": command("drawIndexed", key("indices"), key("instances"), key("firstIndex"), base_vertex, key("firstInstance")),
    "drawIndirect": command("drawIndirect", named("buffer"), key("offset")),
    "drawIndexedIndirect": command("drawIndexedIndirect", named("buffer"), key("offset")),
    "beginOcclusionQuery": command("beginOcclusionQuery", key("index")),
    "endOcclusionQuery": command("endOcclusionQuery"),
    "executeBundles": command("executeBundles", bundles),
    "end": command("end"),
    "pushDebugGroup": command("pushDebugGroup", lambda call: "group"),
    "popDebugGroup": command("popDebugGroup"),
    "insertDebugMarker": command("insertDebugMarker", lambda call: "marker"),
    "createCanvas": lambda call: {"canvas": [call["width"], call["height"]], "as": call["as"]},
    "configureCanvas": configure,
    "currentTexture": lambda call: {"on": call["canvas"], "method": "getCurrentTexture", "args": [], "as": call["as"]},
    "present": lambda call: {"present": call["canvas"]},
}
