"""A script for each limit that can be asked for and each of some values of it: the best, one better, the default, one worse and so on; with
calls just at what the device has then, and just past it."""

import json

from model.formats import SAMPLE_BYTES, bytes_per_sample
from model.limits import ALIGNMENTS, BEST, DEFAULTS, LEAST, given, is_alignment, is_better

COMPUTE, UNIFORM, STORAGE = 4, 64, 128


def texture(dim, size):
    return [{"do": "createTexture", "as": f"t{dim}{'_'.join(map(str, size))}", "size": size, "usage": 4, "format": "r8unorm", "dim": dim}]


def entries(count, entry):
    return [entry | {"binding": binding} for binding in range(count)]


def layouts(name, items):
    """A bind group layout of some entries, and one of all but the last, which stands in a pipeline layout beside one of the last."""
    first, last = items[:-1], items[-1:]
    calls = [
        {"do": "createBindGroupLayout", "as": f"{name}{part}", "entries": some}
        for part, some in (("all", items), ("first", first), ("last", last))
    ]
    calls.append({"do": "createPipelineLayout", "as": f"{name}p", "layouts": [f"{name}first", f"{name}last"]})
    return calls + deriving(f"{name}one", [items]) + deriving(f"{name}two", [last, first])


def deriving(name, lists):
    """For each stage that sees entries, which are given by group, a pipeline that derives its layouts of them."""
    calls = []
    for bit, stage in ((1, "vertex"), (2, "fragment"), (COMPUTE, None)):
        used = [{"group": group} | entry for group, some in enumerate(lists) for entry in some if entry["visibility"] & bit]
        iface = [
            {key: value for key, value in entry.items() if key != "visibility"} | ({} if stage is None else {"stage": stage})
            for entry in used
        ]
        call = {"do": "createComputePipeline"} if stage is None else {"do": "createRenderPipeline", "targets": ["r8unorm"]}
        calls += [call | {"as": f"{name}{bit}", "layout": "auto", "iface": iface}] if iface else []
    return calls


def seen(entry):
    return lambda count, name: layouts(name, entries(count, entry))


def binding(count, name):
    entries = [{"binding": count - 1, "visibility": 7, "kind": "sampler"}]
    return [{"do": "createBindGroupLayout", "as": name, "entries": entries}, *deriving(f"{name}auto", [entries])]


def bound(kind, usage):
    """A range of so many bytes of a buffer; of storage it is moved to multiples of 4, which the others of its kind are."""
    def make(size, name):
        size = size if kind == "uniform" else size + (-size % 4 if name == "past" else -(size % 4))
        layout = {"do": "createBindGroupLayout", "as": f"{name}l", "entries": [{"binding": 0, "visibility": COMPUTE, "kind": kind}]}
        buffer = {"do": "createBuffer", "as": f"{name}b", "size": size, "usage": usage}
        return [
            layout,
            buffer,
            {"do": "createBindGroup", "as": name, "layout": f"{name}l", "entries": [{"binding": 0, "buffer": f"{name}b", "size": size}]},
        ]

    return make


def pipeline(name, **keys):
    """A render pipeline of a layout of its own."""
    return [
        {"do": "createPipelineLayout", "as": f"{name}l", "layouts": []},
        {"do": "createRenderPipeline", "as": name, "layout": f"{name}l", "targets": ["r8unorm"]} | keys,
    ]


def attributes(count, name):
    """So many attributes, and one of the last location that they have."""
    listed = [{"format": "uint8x2", "offset": 0, "location": location} for location in range(count)]
    calls = pipeline(
        f"{name}all", buffers=[{"stride": 4, "attributes": listed[: count // 2]}, {"stride": 4, "attributes": listed[count // 2 :]}]
    )
    return calls + pipeline(f"{name}last", buffers=[{"stride": 4, "attributes": listed[-1:]}])


def stride(count, name):
    """A stride of so many bytes, and an attribute that ends there where the stride is 0."""
    attribute = {"format": "uint8x2", "offset": count - 2, "location": 0}
    calls = pipeline(f"{name}stride", buffers=[{"stride": count + (-count % 4 if name == "past" else -(count % 4)), "attributes": []}])
    return calls + pipeline(f"{name}end", buffers=[{"stride": 0, "attributes": [attribute]}])


def groups(count, name):
    calls = [
        {"do": "createBindGroupLayout", "as": f"{name}l", "entries": []},
        {"do": "createPipelineLayout", "as": name, "layouts": [f"{name}l"] * count},
    ]
    return calls + deriving(f"{name}auto", [[{"binding": 0, "visibility": 7, "kind": "sampler"}]] * count)


def vertex_buffers(count, name):
    return pipeline(name, buffers=[{"stride": 4, "attributes": []}] * count)


def colors(count, name):
    return pipeline(name, targets=["r8unorm"] * count) + [{"do": "createBundleEncoder", "as": f"{name}e", "colors": ["r8unorm"] * count}]


def bytes_of_sample(count, name):
    """Targets and colors that take so many bytes together."""
    formats = []
    while bytes_per_sample(formats) < count:
        room = count - bytes_per_sample(formats)
        formats.append(max((format for format, (length, _) in SAMPLE_BYTES.items() if length <= room), key=lambda one: SAMPLE_BYTES[one]))
    calls = pipeline(name, targets=formats) + [{"do": "createBundleEncoder", "as": f"{name}e", "colors": formats}]
    calls += [{"do": "createEncoder", "as": f"{name}c"}]
    for number, format in enumerate(formats):
        calls += [{"do": "createTexture", "as": f"{name}t{number}", "size": [1, 1, 1], "usage": 16, "format": format}]
        calls += [{"do": "createView", "as": f"{name}v{number}", "texture": f"{name}t{number}"}]
    colors = [{"view": f"{name}v{number}", "load": "clear", "store": "store"} for number in range(len(formats))]
    calls += [{"do": "beginRenderPass", "on": f"{name}c", "as": f"{name}p", "colors": colors}, {"do": "end", "on": f"{name}p"}]
    return calls + [{"do": "finish", "on": f"{name}c", "as": f"{name}f"}]


def workgroups(count, name):
    calls = pipeline(f"{name}r")[:1] + [
        {"do": "createComputePipeline", "as": f"{name}k", "layout": f"{name}rl"},
        {"do": "createEncoder", "as": f"{name}e"},
    ]
    calls += [
        {"do": "beginComputePass", "on": f"{name}e", "as": f"{name}p"},
        {"do": "setPipeline", "on": f"{name}p", "pipeline": f"{name}k"},
    ]
    calls += [{"do": "dispatch", "on": f"{name}p", "x": 1, "y": count, "z": 1}, {"do": "end", "on": f"{name}p"}]
    return calls + [{"do": "finish", "on": f"{name}e", "as": name}]


def alignment(kind, usage):
    """What is bound at an offset, and moved by it."""
    def make(offset, name):
        layout = {
            "do": "createBindGroupLayout",
            "as": f"{name}l",
            "entries": [{"binding": 0, "visibility": COMPUTE, "kind": kind, "dynamic": True}],
        }
        calls = [layout, {"do": "createBuffer", "as": f"{name}b", "size": 4 * offset, "usage": usage}]
        for at in (0, offset):
            entry = {"binding": 0, "buffer": f"{name}b", "offset": at, "size": 4}
            calls.append({"do": "createBindGroup", "as": f"{name}g{at}", "layout": f"{name}l", "entries": [entry]})
        calls += [{"do": "createEncoder", "as": f"{name}e"}, {"do": "beginComputePass", "on": f"{name}e", "as": f"{name}p"}]
        calls.append({"do": "setBindGroup", "on": f"{name}p", "index": 0, "group": f"{name}g0", "offsets": [offset]})
        return calls + [{"do": "end", "on": f"{name}p"}, {"do": "finish", "on": f"{name}e", "as": name}]
    return make


def three(dim, places):
    """Textures of which one extent after another is so long."""
    return lambda count, name: [call for at in places for call in texture(dim, [count if at == place else 1 for place in range(3)])]


# By each limit, what makes the calls that need so much of it.
CALLS = {
    "maxTextureDimension1D": three("1d", [0]),
    "maxTextureDimension2D": three("2d", [0, 1]),
    "maxTextureDimension3D": three("3d", [0, 1, 2]),
    "maxTextureArrayLayers": three("2d", [2]),
    "maxBindingsPerBindGroup": binding,
    "maxDynamicUniformBuffersPerPipelineLayout": seen({"visibility": 0, "kind": "uniform", "dynamic": True}),
    "maxDynamicStorageBuffersPerPipelineLayout": seen({"visibility": 0, "kind": "read-only-storage", "dynamic": True}),
    "maxSampledTexturesPerShaderStage": seen({"visibility": 3, "kind": "texture"}),
    "maxSamplersPerShaderStage": seen({"visibility": 2, "kind": "sampler"}),
    "maxStorageBuffersPerShaderStage": seen({"visibility": 6, "kind": "storage"}),
    "maxStorageTexturesPerShaderStage": seen({"visibility": 4, "kind": "storage-texture", "format": "r32uint"}),
    "maxUniformBuffersPerShaderStage": seen({"visibility": 1, "kind": "uniform"}),
    "maxUniformBufferBindingSize": bound("uniform", UNIFORM),
    "maxStorageBufferBindingSize": bound("storage", STORAGE),
    "maxBufferSize": lambda count, name: [{"do": "createBuffer", "as": name, "size": count, "usage": 8}],
    "maxVertexAttributes": attributes,
    "maxVertexBufferArrayStride": stride,
    "maxBindGroups": groups,
    "maxVertexBuffers": vertex_buffers,
    "maxColorAttachments": colors,
    "maxColorAttachmentBytesPerSample": bytes_of_sample,
    "maxComputeWorkgroupsPerDimension": workgroups,
    "minUniformBufferOffsetAlignment": alignment("uniform", UNIFORM),
    "minStorageBufferOffsetAlignment": alignment("storage", STORAGE),
}


def values(name):
    """What is asked for of a limit, each by a word."""
    default, best = LEAST[name], BEST[name]
    if name in ALIGNMENTS:
        return {
            "the-best": best,
            "twice": 2 * best,
            "the-greatest": 2**31,
            "past-the-greatest": 2**32,
            "half": best // 2,
            "one-more": best + 1,
            "one-less": best - 1,
            "0": 0,
        }
    found = {
        "the-best": best,
        "one-better": best + 1,
        "the-default": default,
        "one-worse": default - 1,
        "0": 0,
        "1": 1,
        "far-better": 2**53 - 1,
    }
    return found | (
        {"between": (default + best) // 2, "one-above-the-default": default + 1, "one-below-the-best": best - 1} if best != default else {}
    )


def script(name, value):
    """Calls just at a limit of a device that is asked for so much, just past it, and at and past the default. A great binding needs a great
    buffer."""
    asked = {"maxBufferSize": BEST["maxBufferSize"]} if name == "maxStorageBufferBindingSize" else {}
    asked[name] = value
    is_good = is_alignment(value) and value >= BEST[name] if name in ALIGNMENTS else not is_better(name, value, BEST[name])
    most = given(asked)[name] if is_good else LEAST[name]
    step = -most // 2 if name in ALIGNMENTS else 1
    calls = CALLS[name](most, "at") + CALLS[name](most + step, "past")
    made, calls_once = set(), []
    for call in calls:
        if call.get("as") not in made or "as" not in call:
            calls_once.append(call)
        made.add(call.get("as"))
    return json.dumps({"budget": 2**53 - 1, "limits": asked, "phases": [[calls_once]]}).encode()


def of(name, value):
    return lambda: script(name, value)


FIXED = {f"limit-{name}-{word}": of(name, value) for name in DEFAULTS for word, value in values(name).items()}
