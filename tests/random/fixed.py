"""Scripts at the limits of size and number, which are the same in every run."""

import json

MOST_BYTES = 4_194_304


def script(calls):
    return json.dumps({"budget": 2**53 - 1, "phases": [[calls]]}, separators=(",", ":")).encode()


def in_lanes(phases):
    return json.dumps({"budget": 2**53 - 1, "phases": phases}, separators=(",", ":")).encode()


def full(more=()):
    """A phase of all lanes and two of one, with as many calls together as there can be; and more calls behind them."""
    call = {"do": "complete", "op": 0}
    return in_lanes([[[call] * 1000] * 64, [[], []], [[call] * 1024], [[call] * (512 - len(more)) + list(more)]])


def of_all_lanes():
    """A lane's buffer each, which one lane of the next phase writes, destroys and counts."""
    names = [f"b{number}" for number in range(64)]
    made = [[{"do": "createBuffer", "as": name, "size": 8, "usage": 8}] for name in names]
    used = [
        call
        for name in names
        for call in ({"do": "writeBuffer", "buffer": name, "offset": 0, "size": 8}, {"do": "destroy", "object": name})
    ]
    return in_lanes([made, [used], [[{"do": "complete", "op": 64}]]])


def of_all_phases():
    """A call in each of all phases, in a lane of another number."""
    calls = [{"do": "createBuffer", "as": "b", "size": 4096, "usage": 8}]
    calls += [{"do": "writeBuffer", "buffer": "b", "offset": 4 * number, "size": 4} for number in range(1023)]
    return in_lanes([[[]] * (number % 64) + [[call]] for number, call in enumerate(calls)])


def of_size(size):
    """A good script that is filled with spaces up to a size."""
    text = script([])
    return text + b" " * (size - len(text))


def nested_lists(depth):
    return b"[" * depth + b"]" * depth


def named(length):
    return script([{"do": "createEncoder", "as": "n" * length}])


def submitted(count):
    return script([{"do": "submit", "buffers": ["c"] * count}])


def bound(count, more=0):
    """A layout of so many samplers that no stage sees, and a bind group of it; with more items the layout is refused."""
    entries = [{"binding": binding, "visibility": 0, "kind": "sampler"} for binding in range(count)]
    made = [{"do": "createBindGroupLayout", "as": "l", "entries": entries + entries[:more]}, {"do": "createSampler", "as": "s"}]
    return script(
        made + [{"do": "createBindGroup", "as": "g", "layout": "l", "entries": [{"binding": n, "sampler": "s"} for n in range(count)]}]
    )


def interface(count):
    """A pipeline that uses one binding so many times, of a layout that has it in its last group."""
    entry = {"binding": 999, "kind": "storage-texture", "format": "r32uint", "access": "read-write", "dim": "3d"}
    layouts = [
        {"do": "createBindGroupLayout", "as": "none", "entries": []},
        {"do": "createBindGroupLayout", "as": "one", "entries": [entry | {"visibility": 4}]},
        {"do": "createPipelineLayout", "as": "l", "layouts": ["none", "none", "none", "one"]},
    ]
    return script(layouts + [{"do": "createComputePipeline", "as": "p", "layout": "l", "iface": [entry | {"group": 3}] * count}])


def many_layouts(count):
    return script(
        [{"do": "createBindGroupLayout", "as": "n", "entries": []}, {"do": "createPipelineLayout", "as": "l", "layouts": ["n"] * count}]
    )


def in_passes(entries, bound, passes, made=()):
    """A pipeline of four groups of some entries, and an encoder with some lists of calls, each in a pass of its own, which is submitted."""
    calls = [
        *made,
        {"do": "createBindGroupLayout", "as": "l", "entries": entries},
        {"do": "createPipelineLayout", "as": "q", "layouts": ["l"] * 4},
    ]
    calls += [
        {"do": "createComputePipeline", "as": "k", "layout": "q"},
        {"do": "createBindGroup", "as": "g", "layout": "l", "entries": bound},
    ]
    calls.append({"do": "createEncoder", "as": "e"})
    for number, body in enumerate(passes):
        calls.append({"do": "beginComputePass", "on": "e", "as": f"p{number}"})
        calls += [call | {"on": f"p{number}"} for call in [*body, {"do": "end"}]]
    return script(calls + [{"do": "finish", "on": "e", "as": "c"}, {"do": "submit", "buffers": ["c"]}])


SET_UP = [{"do": "setPipeline", "pipeline": "k"}] + [{"do": "setBindGroup", "index": index, "group": "g"} for index in range(4)]


def dispatched(count, dispatches, passes):
    """So many bindings of one buffer that no stage sees, used by so many dispatches in each of some passes."""
    entries = [{"binding": binding, "visibility": 0, "kind": "storage"} for binding in range(count)]
    made = [{"do": "createBuffer", "as": "b", "size": 1024, "usage": 128}]
    bound = [{"binding": binding, "buffer": "b", "offset": 256 * (binding % 3), "size": 4 * (binding % 5 + 1)} for binding in range(count)]
    return in_passes(entries, bound, [SET_UP + [{"do": "dispatch", "x": 1}] * dispatches] * passes, made)


def offsets(count):
    return in_passes([], [], [[{"do": "setBindGroup", "index": 0, "group": "g", "offsets": [0] * count}]])


def rendered(pipeline, colors, bodies, made=()):
    """A texture of some layers, with a view of each, and an encoder with passes that draw to some of them by a pipeline of no groups; the
    encoder is submitted."""
    calls = [*made, {"do": "createTexture", "as": "t", "size": [4, 4, 8], "usage": 16, "format": "rgba8unorm"}]
    calls += [{"do": "createView", "as": f"v{layer}", "texture": "t", "dim": "2d", "baseLayer": layer} for layer in range(8)]
    calls += [{"do": "createPipelineLayout", "as": "l", "layouts": []}, {"do": "createRenderPipeline", "as": "k", "layout": "l"} | pipeline]
    calls.append({"do": "createEncoder", "as": "e"})
    for number, body in enumerate(bodies):
        calls.append({"do": "beginRenderPass", "on": "e", "as": f"p{number}", "colors": colors})
        calls += [call | {"on": f"p{number}"} for call in [*body, {"do": "end"}]]
    return script(calls + [{"do": "finish", "on": "e", "as": "c"}, {"do": "submit", "buffers": ["c"]}])


COLORS = [{"view": f"v{layer}", "load": "load", "store": "store" if layer % 2 else "discard"} for layer in range(8)]
BUFFER = {"do": "createBuffer", "as": "b", "size": 4096, "usage": 48}


def drawn(draws, passes):
    """So many draws by all targets, vertex buffers and attributes that there can be, in each of some passes."""
    last = {"format": "float32x4", "offset": 2032}
    buffers = [{"stride": 2048, "attributes": [last | {"location": 2 * slot + at} for at in range(2)]} for slot in range(8)]
    body = [{"do": "setPipeline", "pipeline": "k"}] + [
        {"do": "setVertexBuffer", "slot": slot, "buffer": "b", "offset": 0} for slot in range(8)
    ]
    body += [{"do": "draw", "vertices": number % 3} for number in range(draws)]
    return rendered({"buffers": buffers, "targets": ["rgba8unorm"] * 8}, COLORS, [body] * passes, [BUFFER])


def set_again(count):
    """A pass that sets so many ranges of a buffer, some of which are empty, and draws nothing."""
    body = [
        {"do": "setVertexBuffer", "slot": number % 8, "buffer": "b", "offset": 4 * number, "size": 3 * (number % 4)}
        for number in range(count)
    ]
    return rendered({"targets": ["rgba8unorm"]}, COLORS[:3], [body], [BUFFER])


def targets(count):
    return rendered({"targets": [None] * (count - 1) + ["rgba8unorm"]}, COLORS[:1], [[]])


def colors(count):
    return rendered({"targets": ["rgba8unorm"]}, COLORS[:1] + [None] * (count - 1), [[]])


def vertex_buffers(count):
    return rendered({"targets": ["rgba8unorm"], "buffers": [{"stride": 4, "attributes": []}] * count}, COLORS[:1], [[]])


def attributes(count):
    listed = [{"format": "float32", "offset": 0, "location": 0}] * count
    return rendered({"targets": ["rgba8unorm"], "buffers": [{"stride": 4, "attributes": listed}]}, COLORS[:1], [[]])


def bundled(bundles, commands, executed):
    """So many bundles of so many settings each, and lists of these, each of which is executed in a pass of its own. A bundle has its own
    ranges of a buffer, of which every third is empty, and half of its settings are draws."""
    made = [BUFFER]
    for number in range(bundles):
        calls = [{"do": "setPipeline", "pipeline": "k"}]
        for at in range(commands):
            range_set = {"offset": 4 * ((number + 7 * at) % 1000), "size": at % 3 * 4}
            calls += [{"do": "setVertexBuffer", "slot": at % 8, "buffer": "b"} | range_set, {"do": "draw", "vertices": at % 5}]
        made += [{"do": "createBundleEncoder", "as": f"h{number}", "colors": ["rgba8unorm", None]}]
        made += [call | {"on": f"h{number}"} for call in calls]
        made += [{"do": "finishBundle", "on": f"h{number}", "as": f"m{number}"}]
    pipeline = [
        {"do": "createPipelineLayout", "as": "pl", "layouts": []},
        {"do": "createRenderPipeline", "as": "k", "layout": "pl", "targets": ["rgba8unorm"]},
    ]
    bodies = [[{"do": "executeBundles", "bundles": [f"m{number}" for number in one]}] for one in executed]
    return rendered({"as": "r", "targets": ["rgba8unorm"]}, COLORS[:1], bodies, pipeline + made)


def bundle_colors(count):
    """A bundle encoder of so many colors, which is invalid where there are more than may be, and its finish."""
    made = {"do": "createBundleEncoder", "as": "h", "colors": [None] * (count - 1) + ["rgba8unorm"]}
    return script([made, {"do": "draw", "on": "h", "vertices": 1}, {"do": "finishBundle", "on": "h", "as": "m"}])


def all_subresources():
    """Dispatches that sample all layers of all mip levels of a texture, and then write one level whole, and one layer of another."""
    texture = {"do": "createTexture", "as": "t", "size": [4, 4, 256], "usage": 12, "format": "r32uint", "mips": 3}
    views = [texture] + [
        {"do": "createView", "as": f"v{number}", "texture": "t", "dim": "2d-array"} | ranges
        for number, ranges in enumerate([{}, {"baseMip": 1, "mips": 1}, {"baseMip": 2, "baseLayer": 255}])
    ]
    calls, passes = views, []
    for number in range(3):
        kind = {"kind": "texture", "sample": "uint"} if number == 0 else {"kind": "storage-texture", "format": "r32uint"}
        calls.append(
            {"do": "createBindGroupLayout", "as": f"l{number}", "entries": [{"binding": 0, "visibility": 4, "dim": "2d-array"} | kind]}
        )
        calls.append({"do": "createPipelineLayout", "as": f"q{number}", "layouts": [f"l{number}"]})
        calls.append({"do": "createComputePipeline", "as": f"k{number}", "layout": f"q{number}"})
        calls.append(
            {"do": "createBindGroup", "as": f"g{number}", "layout": f"l{number}", "entries": [{"binding": 0, "view": f"v{number}"}]}
        )
        passes += [
            {"do": "setPipeline", "pipeline": f"k{number}"},
            {"do": "setBindGroup", "index": 0, "group": f"g{number}"},
            {"do": "dispatch", "x": 1},
        ]
    return in_passes([], [], [passes, passes[-3:] + passes[:3]], calls)


def all_layers():
    """A texture of all mip levels and layers, written layer by layer in one level, and then whole."""
    calls = [{"do": "createTexture", "as": "t", "size": [4, 4, 256], "usage": 3, "format": "r8unorm", "mips": 3}]
    for layer in (0, 255, 3, 4, 5):
        calls.append({"do": "writeTexture", "texture": "t", "origin": [0, 0, layer], "size": [4, 4, 1], "bytesPerRow": 4, "dataSize": 16})
    whole = {"do": "writeTexture", "texture": "t", "size": [4, 2, 256], "bytesPerRow": 4, "rowsPerImage": 4, "dataSize": 4096}
    return script([*calls, whole, {"do": "destroy", "object": "t"}, {"do": "complete", "op": 6}])


FIXED = {
    "no-bytes": lambda: b"",
    "no-phases": lambda: b'{"budget":0,"phases":[]}',
    "no-lanes": lambda: b'{"budget":0,"phases":[[]]}',
    "no-calls": lambda: script([]),
    "bytes-at-the-limit": lambda: of_size(MOST_BYTES),
    "bytes-past-the-limit": lambda: of_size(MOST_BYTES + 1),
    "spaces-at-the-limit": lambda: b" " * MOST_BYTES,
    "nested-127": lambda: nested_lists(127),
    "nested-128": lambda: nested_lists(128),
    "calls-past-the-limit": lambda: script([{"do": "complete", "op": 0}] * 65_537),
    "calls-past-the-limit-and-no-object": lambda: script([{"do": "complete", "op": 0}] * 65_536 + [5]),
    "calls-at-the-limit-and-no-object": lambda: script([{"do": "complete", "op": 0}] * 65_535 + [5]),
    "items-at-the-limit": lambda: submitted(1024),
    "items-past-the-limit": lambda: submitted(1025),
    "letters-at-the-limit": lambda: named(64),
    "letters-past-the-limit": lambda: named(65),
    "phases-at-the-limit": lambda: in_lanes([[]] * 1024),
    "phases-past-the-limit": lambda: in_lanes([[]] * 1025),
    "phases-past-the-limit-and-no-phases": lambda: in_lanes([7] * 1025),
    "phases-all-with-a-call": of_all_phases,
    "lanes-at-the-limit": lambda: in_lanes([[[]] * 64] * 3),
    "lanes-past-the-limit": lambda: in_lanes([[[]] * 64, [[]] * 65]),
    "lanes-past-the-limit-and-no-lanes": lambda: in_lanes([[7] * 65]),
    "lanes-past-the-limit-after-a-wrong-call": lambda: in_lanes([[[]] * 63 + [[{"do": "complete"}]], [[]] * 65]),
    "lanes-all-with-a-call": of_all_lanes,
    "calls-at-the-limit-in-lanes": full,
    "calls-past-the-limit-in-lanes": lambda: full([{"do": "complete", "op": 0}, 5]).replace(b"[[],[]]", b'[[{"do":"lose"}],[]]'),
    "calls-at-the-limit-in-lanes-and-no-object": lambda: full([5]),
    "all-layers": all_layers,
    "bindings-at-the-limit": lambda: bound(1000),
    "bindings-past-the-limit": lambda: bound(1001),
    "items-at-the-limit-of-entries": lambda: bound(1000, 24),
    "items-past-the-limit-of-entries": lambda: bound(1000, 25),
    "interface-at-the-limit": lambda: interface(1024),
    "interface-past-the-limit": lambda: interface(1025),
    "layouts-at-the-limit": lambda: many_layouts(1024),
    "layouts-past-the-limit": lambda: many_layouts(1025),
    "many-bindings-of-a-dispatch": lambda: dispatched(60, 1, 1),
    "many-dispatches": lambda: dispatched(1, 200, 1),
    "many-passes": lambda: dispatched(2, 2, 60),
    "offsets-at-the-limit": lambda: offsets(1024),
    "offsets-past-the-limit": lambda: offsets(1025),
    "all-subresources": all_subresources,
    "many-draws": lambda: drawn(200, 1),
    "many-render-passes": lambda: drawn(2, 40),
    "many-ranges": lambda: set_again(500),
    "many-bundles": lambda: bundled(150, 2, [range(150), range(0, 150, 3), [], [7] * 40]),
    "a-bundle-of-many-commands": lambda: bundled(1, 1500, [[0], [0, 0]]),
    "many-executions": lambda: bundled(3, 3, [[number % 3] for number in range(60)]),
    "bundles-at-the-limit": lambda: bundled(2, 1, [[0, 1] * 512]),
    "bundles-past-the-limit": lambda: bundled(2, 1, [[0, 1] * 512 + [0]]),
    "colors-of-a-bundle-at-most": lambda: bundle_colors(8),
    "colors-of-a-bundle-past-the-most": lambda: bundle_colors(9),
    "colors-of-a-bundle-at-the-limit": lambda: bundle_colors(1024),
    "colors-of-a-bundle-past-the-limit": lambda: bundle_colors(1025),
    "targets-at-the-limit": lambda: targets(1024),
    "targets-past-the-limit": lambda: targets(1025),
    "colors-at-the-limit": lambda: colors(1024),
    "colors-past-the-limit": lambda: colors(1025),
    "vertex-buffers-at-the-limit": lambda: vertex_buffers(1024),
    "vertex-buffers-past-the-limit": lambda: vertex_buffers(1025),
    "attributes-at-the-limit": lambda: attributes(1024),
    "attributes-past-the-limit": lambda: attributes(1025),
}
