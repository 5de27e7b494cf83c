"""Cases that are made: as many passes, bundles, queries, slices and frames of canvases as a script can have, and one more."""

from made import lane, listed, on_pass, report


def passes():
    """Passes of as many dispatches, groups and passes as a script has room for, and the longest lists of offsets."""
    begin = [
        '{"do":"createBuffer","size":4,"usage":128,"as":"b"}',
        '{"do":"createBindGroupLayout","entries":[{"binding":0,"visibility":4,"kind":"storage"}],"as":"l"}',
        '{"do":"createPipelineLayout","layouts":["l"],"as":"q"}',
    ]
    begin += [
        '{"do":"createComputePipeline","layout":"q","as":"k"}',
        '{"do":"createBindGroup","layout":"l","entries":[{"binding":0,"buffer":"b"}],"as":"g"}',
        '{"do":"createEncoder","as":"e"}',
    ]
    made = [
        f"{word} made {n} valid"
        for n, word in enumerate(
            ("createBuffer", "createBindGroupLayout", "createPipelineLayout", "createComputePipeline", "createBindGroup", "createEncoder")
        )
    ]
    opened, set_up = ['{"do":"beginComputePass","on":"e","as":"p"}'], on_pass(
        "p", 'setPipeline,"pipeline":"k"', 'setBindGroup,"index":0,"group":"g"'
    )
    last = ['{"do":"finish","on":"e","as":"c"}', '{"do":"submit","buffers":["c"]}']
    clear = ["step 0 op 1 clear", "use b 0 clear", "acc write b 0 0 4"]

    def dispatched(count):
        barriers = ["bar b 0 clear storage"] + ["bar b 0 storage storage"] * (count - 1)
        return clear + [
            line for n in range(count) for line in (barriers[n], f"step {n + 1} op 1 dispatch", "use b 0 storage", "acc both b 0 0 4")
        ]

    accepted = made + ["finish made 6 valid", "submit op 1"]
    count = 20_000
    yield f"{count} dispatches in one pass", ["run"], lane(
        begin + opened + set_up + on_pass("p", 'dispatch,"x":1') * count + on_pass("p", "end") + last
    ), report(accepted, dispatched(count)), 0
    count = 10_000
    calls = [
        call
        for n in range(count)
        for call in [
            f'{{"do":"beginComputePass","on":"e","as":"p{n}"}}',
            *on_pass(f"p{n}", 'setPipeline,"pipeline":"k"', 'setBindGroup,"index":0,"group":"g"', 'dispatch,"x":1', "end"),
        ]
    ]
    yield f"{count} passes with a dispatch each", ["run"], lane(begin + calls + last), report(accepted, dispatched(count)), 0
    count = 60_000
    yield f"a group that is set {count} times", ["run"], lane(
        begin + opened + on_pass("p", 'setBindGroup,"index":0,"group":"g"') * count + set_up + on_pass("p", 'dispatch,"x":1', "end") + last
    ), report(accepted, dispatched(1)), 0
    count = 20_000
    calls = (
        opened
        + [call for n in range(count) for call in [f'{{"do":"beginComputePass","on":"e","as":"p{n}"}}', *on_pass(f"p{n}", "end")]]
        + on_pass("p", "end")
        + on_pass("p0", "end")
        + on_pass("p", "end")
    )
    yield f"{count} dead passes", ["run"], lane(begin + calls + last[:1]), report(
        made + ["late plain fault validation 14 uncaptured", "finish made 6 invalid fault validation 240 uncaptured"]
    ), 0
    calls = on_pass("p", "pushDebugGroup") * 30_000 + on_pass("p", "popDebugGroup") * 30_000
    for more, said in (
        ([], "valid"),
        (on_pass("p", "popDebugGroup"), "invalid fault validation 285 uncaptured"),
        (on_pass("p", "pushDebugGroup"), "invalid fault validation 310 uncaptured"),
    ):
        yield f"60000 debug groups of a pass, {said}", ["run"], lane(
            begin + opened + calls + more + on_pass("p", "end") + last[:1]
        ), report(made + [f"finish made 6 {said}"]), 0
    for many in (1024, 1025):
        script = lane(
            begin + opened + on_pass("p", f'setBindGroup,"index":0,"group":"g","offsets":{listed(["0"] * many)}', "end") + last[:1]
        )
        yield f"a list of {many} offsets", ["run"], script, report(
            made + ["finish made 6 invalid fault validation 326 uncaptured"]
        ) if many == 1024 else b"bad script 8 0 0 7\n", 3 * (many == 1025)


def dispatches_of_many_bindings():
    """Dispatches whose four groups have a thousand bindings each, of one buffer or of a buffer each."""
    count = 1000
    last = ['{"do":"finish","on":"e","as":"c"}', '{"do":"submit","buffers":["c"]}']
    made = ["createBindGroupLayout", "createPipelineLayout", "createComputePipeline", "createBindGroup", "createEncoder"]

    def script(buffers, entries, bound):
        calls = [
            *buffers, f'{{"do":"createBindGroupLayout","entries":{listed(entries)},"as":"l"}}',
            '{"do":"createPipelineLayout","layouts":["l","l","l","l"],"as":"q"}', '{"do":"createComputePipeline","layout":"q","as":"k"}',
        ]
        calls += [
            f'{{"do":"createBindGroup","layout":"l","entries":{listed(bound)},"as":"g"}}',
            '{"do":"createEncoder","as":"e"}',
            '{"do":"beginComputePass","on":"e","as":"p"}',
            *on_pass("p", 'setPipeline,"pipeline":"k"'),
        ]
        return lane(
            calls + on_pass("p", *[f'setBindGroup,"index":{index},"group":"g"' for index in range(4)], 'dispatch,"x":1', "end") + last
        )

    def said(buffers, *finished):
        words = ["createBuffer"] * buffers + made
        return [f"{word} made {n} valid" for n, word in enumerate(words)] + [
            f"finish made {len(words)} {finished[0]}",
            f"submit {finished[1]}",
        ]

    one = ['{"do":"createBuffer","size":4,"usage":128,"as":"b0"}']
    entries = [f'{{"binding":{n},"visibility":0,"kind":"storage"}}' for n in range(count)]
    bound = [f'{{"binding":{n},"buffer":"b0"}}' for n in range(count)]
    used = [
        "step 0 op 1 clear", "use b 0 clear", "acc write b 0 0 4", "bar b 0 clear storage", "step 1 op 1 dispatch", "use b 0 storage",
        "acc both b 0 0 4",
    ]
    yield f"{4 * count} bindings of one buffer that no stage sees", ["run"], script(one, entries, bound), report(
        said(1, "valid", "op 1"), used
    ), 0
    refused = said(1, "invalid fault validation 342 uncaptured", "plain fault validation 12 uncaptured")
    for seen in (0, 500, 999):
        turned = [entry.replace('"visibility":0', '"visibility":4') if n == seen else entry for n, entry in enumerate(entries)]
        yield f"{4 * count} bindings of one buffer, of which a stage sees those of {seen}", ["run"], script(one, turned, bound), report(
            refused
        ), 0
    buffers = [f'{{"do":"createBuffer","size":4,"usage":64,"as":"b{n}"}}' for n in range(count)]
    entries = [f'{{"binding":{n},"visibility":0,"kind":"uniform"}}' for n in range(count)]
    bound = [f'{{"binding":{n},"buffer":"b{n}"}}' for n in reversed(range(count))]
    used = [
        "step 0 op 1 clear",
        *[f"use b {n} clear" for n in range(count)],
        *[f"acc write b {n} 0 4" for n in range(count)],
        *[f"bar b {n} clear constant" for n in range(count)],
        "step 1 op 1 dispatch",
    ]
    used += [*[f"use b {n} constant" for n in range(count)], *[f"acc read b {n} 0 4" for n in range(count)]]
    yield f"{count} buffers that four groups bind", ["run"], script(buffers, entries, bound), report(said(count, "valid", "op 1"), used), 0


def lists_of_render_passes():
    """The longest lists of render pipelines and of what is attached, and lists that are longer by one."""
    begin = [
        '{"do":"createBindGroupLayout","entries":[{"binding":0,"visibility":1,"kind":"uniform"}],"as":"l"}',
        '{"do":"createPipelineLayout","layouts":["l"],"as":"p"}',
    ]
    made = ["createBindGroupLayout made 0 valid", "createPipelineLayout made 1 valid"]
    lists = [
        ("an interface", '"targets":["r8unorm"],"iface":%s', '{"group":0,"binding":0,"stage":"vertex","kind":"uniform"}', "valid"),
        ("vertex buffers", '"targets":["r8unorm"],"buffers":%s', '{"stride":4,"attributes":[]}', "invalid fault validation 161 uncaptured"),
        (
            "attributes", '"targets":["r8unorm"],"buffers":[{"stride":4,"attributes":[]},{"stride":4,"attributes":%s}]',
            '{"format":"float32","offset":0,"location":0}', "invalid fault validation 161 uncaptured",
        ),
        ("targets", '"targets":%s', "null", "invalid fault validation 163 uncaptured"),
    ]
    for what, keys, item, said in lists:
        for many in (1024, 1025):
            script = lane(begin + [f'{{"do":"createRenderPipeline","layout":"p",{keys % listed([item] * many)},"as":"k"}}'])
            yield f"{what} of {many} items", ["run"], script, report(
                made + [f"createRenderPipeline made 2 {said}"]
            ) if many == 1024 else b"bad script 8 0 0 2\n", 3 * (many == 1025)
    last = ['{"do":"end","on":"p"}', '{"do":"finish","on":"e","as":"c"}']
    for items, said in ((["null"] * 1024, b""), (["null"] * 1025, b"bad script 8 0 0 1\n")):
        script = lane(['{"do":"createEncoder","as":"e"}', f'{{"do":"beginRenderPass","on":"e","colors":{listed(items)},"as":"p"}}'] + last)
        yield f"{len(items)} colors", ["run"], script, said or report(
            ["createEncoder made 0 valid", "finish made 1 invalid fault validation 300 uncaptured"]
        ), 3 * (said != b"")


def render_passes():
    """Render passes of as many draws, ranges and passes as a script has room for."""
    begin = [
        '{"do":"createBuffer","size":160000,"usage":32,"as":"b"}',
        '{"do":"createTexture","size":[4,4,1],"usage":16,"format":"r8unorm","as":"t"}',
        '{"do":"createView","texture":"t","as":"v"}',
    ]
    begin += [
        '{"do":"createPipelineLayout","layouts":[],"as":"q"}',
        '{"do":"createRenderPipeline","layout":"q","targets":["r8unorm"],"as":"k"}',
        '{"do":"createEncoder","as":"e"}',
    ]
    made = [
        f"{word} made {n} valid"
        for n, word in enumerate(
            ("createBuffer", "createTexture", "createView", "createPipelineLayout", "createRenderPipeline", "createEncoder")
        )
    ]
    last = ['{"do":"finish","on":"e","as":"c"}', '{"do":"submit","buffers":["c"]}']
    accepted = made + ["finish made 6 valid", "submit op 1"]
    part = "t 1 color 0 0 1"

    def opened(name, load="clear", store="store"):
        return f'{{"do":"beginRenderPass","on":"e","colors":[{{"view":"v","load":"{load}","store":"{store}"}}],"as":"{name}"}}'

    drawn = [f"bar {part} none attachment", "step 0 op 1 renderPass", f"use {part} attachment", f"acc write {part}"]
    count = 60_000
    yield f"{count} draws in one pass", ["run"], lane(
        begin
        + [opened("p")]
        + on_pass("p", 'setPipeline,"pipeline":"k"')
        + on_pass("p", 'draw,"vertices":3') * count
        + on_pass("p", "end")
        + last
    ), report(accepted, drawn), 0
    count = 40_000
    size = 4 * count
    read = [
        "step 0 op 1 clear", "use b 0 clear", f"acc write b 0 0 {size}", "bar b 0 clear input", f"bar {part} none attachment",
        "step 1 op 1 renderPass", "use b 0 input", f"use {part} attachment", f"acc read b 0 0 {size}", f"acc write {part}",
    ]
    sets = on_pass("p", *[f'setVertexBuffer,"slot":{n % 8},"buffer":"b","offset":{4 * n},"size":4' for n in range(count)])
    for order, turned in (("from the first to the last", sets), ("from the last to the first", sets[::-1])):
        yield f"{count} ranges of a vertex buffer {order}", ["run"], lane(
            begin + [opened("p")] + turned + on_pass("p", "end") + last
        ), report(accepted, read), 0
    count = 20_000
    for store, kind, is_cleared in (("store", "both", False), ("discard", "readdrop", True)):
        calls = [call for n in range(count) for call in [opened(f"p{n}", "load", store), *on_pass(f"p{n}", "end")]]
        clear, load = [f"use {part} clear", f"acc write {part}"], [f"use {part} attachment", f"acc {kind} {part}"]
        trace, steps, before = [], 0, "none"
        for n in range(count):
            if n == 0 or is_cleared:
                trace += [f"bar {part} {before} clear", f"step {steps} op 1 clear", *clear]
                steps, before = steps + 1, "clear"
            trace += [f"bar {part} {before} attachment", f"step {steps} op 1 renderPass", *load]
            steps, before = steps + 1, "attachment"
        yield f"{count} passes that load and {store}", ["run"], lane(begin + calls + last), report(accepted, trace), 0
    calls = [opened("p")] + [call for n in range(count) for call in [opened(f"p{n}"), *on_pass(f"p{n}", "end")]] + on_pass("p", "end")
    yield f"{count} dead render passes", ["run"], lane(begin + calls + last[:1]), report(
        made + ["finish made 6 invalid fault validation 240 uncaptured"]
    ), 0


def query_sets():
    """Sets of as many queries as there can be, and passes, resolves and sets of which a script has room for many."""
    begin = [
        '{"do":"createQuerySet","count":4096,"as":"q"}',
        '{"do":"createBuffer","size":32768,"usage":512,"as":"b"}',
        '{"do":"createTexture","size":[4,4,1],"usage":16,"format":"r8unorm","as":"t"}',
    ]
    begin += ['{"do":"createView","texture":"t","as":"v"}', '{"do":"createEncoder","as":"e"}']
    made = [
        f"{word} made {n} valid"
        for n, word in enumerate(("createQuerySet", "createBuffer", "createTexture", "createView", "createEncoder"))
    ]
    last = ['{"do":"finish","on":"e","as":"c"}', '{"do":"submit","buffers":["c"]}']
    accepted, refused = made + ["finish made 5 valid", "submit op 1"], made + [
        "finish made 5 invalid fault validation 363 uncaptured",
        "submit plain fault validation 12 uncaptured",
    ]
    part, most = "t 2 color 0 0 1", 4096

    def one_pass(name, indexes):
        opened = f'{{"do":"beginRenderPass","on":"e","colors":[{{"view":"v","load":"clear","store":"store"}}],"queries":"q","as":"{name}"}}'
        return [opened] + on_pass(
            name, *[call for index in indexes for call in (f'beginOcclusionQuery,"index":{index}', "endOcclusionQuery")], "end"
        )

    def pass_step(number, written, *bars):
        return [*bars, f"step {number} op 1 renderPass", "use q 0 query-write", f"use {part} attachment", *written, f"acc write {part}"]

    resolve = ['{"do":"resolveQuerySet","on":"e","queries":"q","first":0,"count":4096,"buffer":"b","offset":0}']
    resolved = ["use q 0 query-read", "use b 1 copy-dst", "acc read q 0 0 4096", "acc write b 1 0 32768"]
    trace = pass_step(0, ["acc write q 0 0 4096"], f"bar {part} none attachment") + [
        "bar q 0 query-write query-read",
        "step 1 op 1 resolveQuerySet",
        *resolved,
    ]
    for order, indexes in (("from the first to the last", range(most)), ("from the last to the first", range(most - 1, -1, -1))):
        yield f"{most} queries in one pass {order}", ["run"], lane(begin + one_pass("p", indexes) + resolve + last), report(
            accepted, trace
        ), 0
    yield f"{most} queries in one pass, and the first once more", ["run"], lane(begin + one_pass("p", [*range(most), 0]) + last), report(
        refused
    ), 0
    yield f"{most} queries in one pass, and the last once more", ["run"], lane(
        begin + one_pass("p", [*range(most), most - 1]) + last
    ), report(refused), 0
    cleared = [f"acc write q 0 {n} {n + 1}" for n in range(0, most, 2)]
    written = [f"acc write q 0 {n} {n + 1}" for n in range(1, most, 2)]
    trace = ["step 0 op 1 clear", "use q 0 clear", *cleared, "bar q 0 clear query-write"] + pass_step(
        1, written, f"bar {part} none attachment"
    )
    yield f"every other one of {most} queries", ["run"], lane(begin + one_pass("p", range(1, most, 2)) + resolve + last), report(
        accepted, trace + ["bar q 0 query-write query-read", "step 2 op 1 resolveQuerySet", *resolved]
    ), 0
    calls, trace = [], []
    for n in range(2):
        calls += one_pass(f"p{n}", range(most))
        bars = ["bar q 0 query-write query-write", f"bar {part} attachment attachment"] if n else [f"bar {part} none attachment"]
        trace += pass_step(n, ["acc write q 0 0 4096"], *bars)
    yield f"{most} queries in each of two passes", ["run"], lane(begin + calls + last), report(accepted, trace), 0
    count = 5_000
    calls = [call for n in range(count) for call in one_pass(f"p{n}", [n % most])]
    trace = []
    for n in range(count):
        bars = ["bar q 0 query-write query-write", f"bar {part} attachment attachment"] if n else [f"bar {part} none attachment"]
        trace += pass_step(n, [f"acc write q 0 {n % most} {n % most + 1}"], *bars)
    yield f"{count} passes of a query each", ["run"], lane(begin + calls + last), report(accepted, trace), 0
    count = 20_000
    one = '{"do":"resolveQuerySet","on":"e","queries":"q","first":%d,"count":1,"buffer":"b","offset":0}'
    trace = ["step 0 op 1 clear", "use q 0 clear", "acc write q 0 0 4096", "bar q 0 clear query-read"]
    for n in range(count):
        trace += ["bar b 1 copy-dst copy-dst"] * (n > 0) + [
            f"step {n + 1} op 1 resolveQuerySet", "use q 0 query-read", "use b 1 copy-dst", f"acc read q 0 {n % most} {n % most + 1}",
            "acc write b 1 0 8",
        ]
    yield f"{count} resolves of a query each", ["run"], lane(begin + [one % (n % most) for n in range(count)] + last), report(
        accepted, trace
    ), 0
    count = 16_383
    sets = [f'{{"do":"createQuerySet","count":4096,"as":"q{n}"}}' for n in range(count)]
    dropped = [f'{{"do":"drop","object":"q{n}"}}' for n in reversed(range(count))]
    entries = (
        ["createEncoder made 0 valid"]
        + [f"createQuerySet made {n + 1} valid" for n in range(count)]
        + ["drop plain"] * count
        + [f"finish made {count + 1} valid"]
    )
    yield f"{count} query sets, held until a finish", ["run"], lane(
        ['{"do":"createEncoder","as":"e"}'] + sets + dropped + last[:1]
    ), report(entries, [f"free q {n + 1}" for n in range(count)]), 0


def bundles():
    """Bundles of as many draws and ranges as there can be, bundles by the thousand, and the longest lists of them."""
    begin = [
        '{"do":"createBuffer","size":160000,"usage":32,"as":"b"}',
        '{"do":"createTexture","size":[4,4,1],"usage":16,"format":"r8unorm","as":"t"}',
        '{"do":"createView","texture":"t","as":"v"}',
    ]
    begin += [
        '{"do":"createPipelineLayout","layouts":[],"as":"q"}',
        '{"do":"createRenderPipeline","layout":"q","targets":["r8unorm"],"as":"k"}',
    ]
    made = [
        f"{word} made {n} valid"
        for n, word in enumerate(("createBuffer", "createTexture", "createView", "createPipelineLayout", "createRenderPipeline"))
    ]
    part = "t 1 color 0 0 1"

    def bundle(name, *calls):
        return [
            f'{{"do":"createBundleEncoder","colors":["r8unorm"],"as":"h{name}"}}',
            *on_pass(f"h{name}", *calls),
            f'{{"do":"finishBundle","on":"h{name}","as":"m{name}"}}',
        ]

    def executed(*lists):
        opened = (
            '{"do":"createEncoder","as":"e"}',
            '{"do":"beginRenderPass","on":"e","colors":[{"view":"v","load":"clear","store":"store"}],"as":"p"}',
        )
        return [
            *opened,
            *on_pass("p", *[f'executeBundles,"bundles":[{",".join(names)}]' for names in lists], "end"),
            '{"do":"finish","on":"e","as":"c"}',
            '{"do":"submit","buffers":["c"]}',
        ]

    def said(count, rule=None):
        each = [f"{word} made {n} valid" for n, word in enumerate(("createBundleEncoder", "finishBundle") * count, 5)]
        last = len(each) + 5
        if rule is not None:
            return [*made, *each[:-1], f"finishBundle made {last - 1} invalid fault validation {rule} uncaptured"]
        return [*made, *each, f"createEncoder made {last} valid", f"finish made {last + 1} valid", "submit op 1"]

    def read(size):
        if size == 0:
            return [f"bar {part} none attachment", "step 0 op 1 renderPass", f"use {part} attachment", f"acc write {part}"]
        clear = ["step 0 op 1 clear", "use b 0 clear", f"acc write b 0 0 {size}", "bar b 0 clear input", f"bar {part} none attachment"]
        return [*clear, "step 1 op 1 renderPass", "use b 0 input", f"use {part} attachment", f"acc read b 0 0 {size}", f"acc write {part}"]

    def sets(first, count):
        return [f'setVertexBuffer,"slot":{n % 8},"buffer":"b","offset":{4 * n},"size":4' for n in range(first, first + count)]

    count = 60_000
    draws = ['setPipeline,"pipeline":"k"'] + ['draw,"vertices":3'] * count
    yield f"a bundle of {count} draws", ["run"], lane(begin + bundle("", *draws) + executed(['"m"'])), report(said(1), read(0)), 0
    yield f"a bundle of {count} draws and one without a pipeline", ["run"], lane(begin + bundle("", *draws[1:], *draws[:1])), report(
        said(1, 340)
    ), 0
    groups = ["pushDebugGroup"] * 30_000 + ["popDebugGroup"] * 30_000
    yield "a bundle of 30000 debug groups", ["run"], lane(begin + bundle("", *groups) + executed(['"m"'])), report(said(1), read(0)), 0
    yield "a bundle of 30000 debug groups, of which one is left open", ["run"], lane(begin + bundle("", *groups[:-1])), report(
        said(1, 183)
    ), 0
    count = 40_000
    for order, turned in (("from the first to the last", sets(0, count)), ("from the last to the first", sets(0, count)[::-1])):
        yield f"a bundle of {count} ranges {order}", ["run"], lane(begin + bundle("", *turned) + executed(['"m"'])), report(
            said(1), read(4 * count)
        ), 0
    yield "a bundle executed by 40000 calls", ["run"], lane(begin + bundle("", *sets(0, 1)) + executed(*[['"m"']] * count)), report(
        said(1), read(4)
    ), 0
    yield "bundles executed 40960 times by 40 lists of 1024", ["run"], lane(
        begin + bundle("", *sets(0, 1)) + executed(*[['"m"'] * 1024] * 40)
    ), report(said(1), read(4)), 0
    yield "a list of 1025 bundles", ["run"], lane(begin + bundle("", *sets(0, 1)) + executed(['"m"'] * 1025)), b"bad script 8 0 0 10\n", 3
    count = 10_000
    calls = [call for n in range(count) for call in bundle(str(n), *sets(n, 1))]
    lists = [[f'"m{n}"' for n in range(first, min(first + 1000, count))] for first in range(0, count, 1000)]
    yield f"{count} bundles of a range each", ["run"], lane(begin + calls + executed(*lists)), report(said(count), read(4 * count)), 0
    calls = (
        [call for n in range(count) for call in bundle(str(n), *sets(0, 1))]
        + ['{"do":"drop","object":"b"}']
        + [f'{{"do":"drop","object":"m{n}"}}' for n in range(count)]
    )
    yield f"{count} bundles of one buffer", ["run"], lane(begin + calls), report(
        said(count)[:-3] + ["drop plain"] * (count + 1), ["free b 0"]
    ), 0


def slices():
    """A 3D texture of as many slices as the default limit allows, which are written one by one from both ends, and every other one of
    them."""
    most, size, part = 2048, 256 * 2047 + 1, "t 0 color 0 0 1"
    ends = [z for pair in zip(range(most), reversed(range(most))) for z in pair][:most]
    begin = [
        '{"do":"createTexture","size":[1,1,2048],"usage":19,"format":"r8unorm","dim":"3d","as":"t"}',
        '{"do":"createBuffer","size":524288,"usage":8,"as":"b"}',
        '{"do":"createView","texture":"t","as":"v"}',
    ]
    made = ["createTexture made 0 valid", "createBuffer made 1 valid", "createView made 2 valid"]
    copy = [
        '{"do":"copyTextureToBuffer","on":"e","buffer":"b","bytesPerRow":256,"rowsPerImage":1,"texture":"t","size":[1,1,2048]}',
        '{"do":"finish","on":"e","as":"c"}',
        '{"do":"submit","buffers":["c"]}',
    ]
    encoder = '{"do":"createEncoder","as":"e"}'

    def copied(number, op, before):
        return [
            f"bar {part} {before} copy-src", "bar b 1 clear copy-dst", f"step {number} op {op} copyTextureToBuffer",
            f"use {part} copy-src", "use b 1 copy-dst", f"acc read s 0 color 0 0 {most}", f"acc both b 1 0 {size}",
        ]

    for what, written in (
        ("from both ends", ends),
        ("from the last to the first", ends[::-1]),
        ("every other one", [z for z in ends if z % 2]),
    ):
        count = len(written)
        assert len(set(written)) == count
        fresh = [f"acc write s 0 color 0 {z} {z + 1}" for z in range(most) if z not in set(written)]
        calls = [f'{{"do":"writeTexture","texture":"t","origin":[0,0,{z}],"size":[1,1,1],"dataSize":1}}' for z in written]
        entries = (
            made
            + [f"writeTexture op {n + 1}" for n in range(count)]
            + ["createEncoder made 3 valid", "finish made 4 valid", f"submit op {count + 1}"]
        )
        trace = [
            line
            for n, z in enumerate(written)
            for line in (
                f"bar {part} {'copy-dst' if n else 'none'} copy-dst", f"step {n} op {n + 1} writeTexture", f"use {part} copy-dst",
                f"acc write s 0 color 0 {z} {z + 1}",
            )
        ]
        clear = (
            [f"bar {part} copy-dst clear"] * (fresh != [])
            + [f"step {count} op {count + 1} clear"]
            + [f"use {part} clear"] * (fresh != [])
            + ["use b 1 clear", *fresh, f"acc write b 1 0 {size}"]
        )
        trace += clear + copied(count + 1, count + 1, "clear" if fresh else "copy-dst")
        yield f"{count} slices that are written {what}", ["run"], lane(begin + calls + [encoder] + copy), report(entries, trace), 0
        calls = [
            call
            for n, z in enumerate(written)
            for call in (
                f'{{"do":"beginRenderPass","on":"e",'
                f'"colors":[{{"view":"v","depthSlice":{z},"load":"clear","store":"store"}}],"as":"p{n}"}}',
                f'{{"do":"end","on":"p{n}"}}',
            )
        ]
        trace = (
            [f"bar {part} none clear"] * (fresh != [])
            + ["step 0 op 1 clear"]
            + [f"use {part} clear"] * (fresh != [])
            + ["use b 1 clear", *fresh, f"acc write b 1 0 {size}"]
        )
        for n, z in enumerate(written):
            before = "attachment" if n else "clear" if fresh else "none"
            trace += [
                f"bar {part} {before} attachment", f"step {n + 1} op 1 renderPass", f"use {part} attachment",
                f"acc write s 0 color 0 {z} {z + 1}",
            ]
        entries = made + ["createEncoder made 3 valid", "finish made 4 valid", "submit op 1"]
        yield f"{count} slices that are attached {what}", ["run"], lane(begin + [encoder] + calls + copy), report(
            entries, trace + copied(count + 1, 1, "attachment")
        ), 0


def canvases():
    """As many frames, canvases and names of one texture as a script has room for."""
    begin = ['{"do":"createCanvas","width":4,"height":4,"as":"k"}', '{"do":"configureCanvas","canvas":"k","format":"rgba8unorm"}']
    current, present = '{"do":"currentTexture","canvas":"k","as":"t%s"}', '{"do":"present","canvas":"k"}'
    count = 32_767
    entries = [entry for n in range(count) for entry in (f"createTexture made {n} valid", "destroy plain")]
    freed = [f"free t {n}" for n in range(count)]
    yield f"{count} frames of one canvas", ["run"], lane(begin + [call for n in range(count) for call in (current % n, present)]), report(
        entries, freed
    ), 0
    count, again = 65_532, '{"do":"currentTexture","canvas":"k","as":"t0"}'
    yield f"{count} names of one texture", ["run"], lane(begin + [current % n for n in range(count)] + [present]), report(
        ["createTexture made 0 valid", "destroy plain"], ["free t 0"]
    ), 0
    yield f"{count} names of one texture, the first once more", ["run"], lane(
        begin + [current % n for n in range(count)] + [again]
    ), f"bad script 9 0 0 {count + 2}\n".encode(), 3
    written = '{"do":"writeTexture","texture":"t%s","size":[0,0,0],"dataSize":0}' % (count - 2)
    entries = ["createTexture made 0 valid", "writeTexture plain fault validation 205 uncaptured", "destroy plain"]
    yield f"{count - 1} names of one texture, the last of which is used", ["run"], lane(
        begin + [current % n for n in range(count - 1)] + [written, present]
    ), report(entries, ["free t 0"]), 0
    count = 16_384
    each = [
        [
            f'{{"do":"createCanvas","width":1,"height":1,"as":"k{n}"}}',
            f'{{"do":"configureCanvas","canvas":"k{n}","format":"rgba8unorm"}}', f'{{"do":"currentTexture","canvas":"k{n}","as":"t{n}"}}',
            f'{{"do":"present","canvas":"k{n}"}}',
        ]
        for n in range(count)
    ]
    calls = [call for one in zip(*each) for call in one]
    entries = [f"createTexture made {n} valid" for n in range(count)] + ["destroy plain"] * count
    yield f"{count} canvases, each with a texture", ["run"], lane(calls), report(entries, [f"free t {n}" for n in range(count)]), 0
    yield "65536 canvases", ["run"], lane([f'{{"do":"createCanvas","width":0,"height":0,"as":"k{n}"}}' for n in range(65_536)]), report(
        []
    ), 0
    yield "65536 calls of a canvas, of which the last has no configure before it", ["run"], lane(
        begin[:1] + [present] * 65_534 + [current % 0]
    ), b"bad script 15 0 0 65535\n", 3


def cases():
    """All cases of this file."""
    for each in (passes, dispatches_of_many_bindings, lists_of_render_passes, render_passes, query_sets, bundles, slices, canvases):
        yield from each()
