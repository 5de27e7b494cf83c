"""Cases that are made: as many promises, objects, phases, lanes and bindings as a script can have, and one more."""

import pathlib

from made import EMPTY, GREATEST_WHOLE, TEXT_LIMIT, lane, listed, phased, report

HERE = pathlib.Path(__file__).resolve().parent
TOP = HERE.parent.parent


def promises_and_scopes():
    """As many promises, maps and error scopes as a script can have."""
    wait, wrong = '{"do":"workDone"}', '{"do":"createBuffer","size":4,"usage":0,"as":"b"}'
    each_done = [f"workDone promise settle {number} done" for number in range(65_536)]
    yield "65536 promises, each settled at once", ["run"], lane([wait] * 65_536), report(each_done), 0
    for last in ("complete", "lose"):
        settled = "".join(f" settle {number} done" for number in range(1, 65_535))
        calls = ['{"do":"submit","buffers":[]}'] + [wait] * 65_534 + ['{"do":"complete","op":1}' if last == "complete" else '{"do":"lose"}']
        entries = ["submit op 1"] + ["workDone promise"] * 65_534 + [f"{last} plain{settled}"]
        yield f"65534 promises, settled by one {last}", ["run"], lane(calls), report(entries), 0
    for inner, place in (("validation", 65_534), ("internal", 0)):
        pushes = ["validation"] + [inner] * 65_534
        calls = [f'{{"do":"pushErrorScope","filter":"{word}"}}' for word in pushes] + [wrong]
        entries = ["pushErrorScope plain"] * 65_535 + [f"createBuffer made 0 invalid fault validation 100 scope {place}"]
        yield f"65535 error scopes, the inner ones {inner}", ["run"], lane(calls), report(entries), 0
    count = 21_845
    each = [
        [
            f'{{"do":"createBuffer","size":8,"usage":9,"as":"b{n}"}}',
            f'{{"do":"writeBuffer","buffer":"b{n}","offset":0,"size":0}}',
            f'{{"do":"mapAsync","buffer":"b{n}","mode":1,"size":0}}',
        ]
        for n in range(count)
    ]
    calls = [call for three in zip(*each) for call in three]
    entries = (
        [f"createBuffer made {n} valid" for n in range(count)]
        + [f"writeBuffer op {n + 1}" for n in range(count)]
        + ["mapAsync promise"] * count
    )
    for last, how in ((f'{{"do":"complete","op":{count}}}', "mapped"), ('{"do":"lose"}', "aborted")):
        word = last.split('"')[3]
        settled = "".join(f" settle {2 * count + n} {how}" for n in range(count))
        yield f"{count} maps, settled by one {word}", ["run"], lane(calls + [last]), report(entries + [f"{word} plain{settled}"]), 0
    half = 32_767
    calls = ['{"do":"pushErrorScope","filter":"validation"}'] * half + [wrong] + ['{"do":"popErrorScope"}'] * (half + 1)
    entries = ["pushErrorScope plain"] * half + [f"createBuffer made 0 invalid fault validation 100 scope {half - 1}"]
    entries += [f"popErrorScope promise settle {half + 1} error validation 100"]
    entries += [f"popErrorScope promise settle {number} null" for number in range(half + 2, 2 * half + 1)]
    entries += [f"popErrorScope promise settle {2 * half + 1} rejected"]
    yield f"{half} error scopes, opened and closed", ["run"], lane(calls), report(entries), 0


def holders():
    """One encoder that holds as many dropped buffers as a script has room for, until its finish or its own drop."""
    count = 32_767
    made = ['{"do":"createEncoder","as":"e"}'] + [f'{{"do":"createBuffer","size":1,"usage":8,"as":"b{n}"}}' for n in range(count)]
    dropped = [f'{{"do":"drop","object":"b{n}"}}' for n in reversed(range(count))]
    entries = ["createEncoder made 0 valid"] + [f"createBuffer made {n + 1} valid" for n in range(count)] + ["drop plain"] * count
    freed = [f"free b {n + 1}" for n in range(count)]
    for last, said in (
        ('{"do":"finish","on":"e","as":"c"}', f"finish made {count + 1} valid"),
        ('{"do":"drop","object":"e"}', "drop plain"),
    ):
        yield f"{count} buffers, held until a {said.split()[0]}", ["run"], lane(made + dropped + [last]), report(entries + [said], freed), 0


def budgets():
    """The greatest budget, filled by as many of the greatest textures as it has room for and one buffer."""
    count, bytes_of_one = 24_576, 4096 * (4**14 - 1) // 3
    rest = GREATEST_WHOLE - count * bytes_of_one
    calls = [
        f'{{"do":"createTexture","size":[8192,8192,256],"usage":4,"format":"rgba32float","mips":14,"as":"t{n}"}}' for n in range(count)
    ]
    entries = [f"createTexture made {n} valid" for n in range(count)]
    for size, said in (
        (rest + 1, "invalid fault out-of-memory 13 uncaptured"),
        (rest, "valid"),
        (1, "invalid fault out-of-memory 13 uncaptured"),
    ):
        calls.append(f'{{"do":"createBuffer","size":{size},"usage":8,"as":"b{size}"}}')
        entries.append(f"createBuffer made {len(entries)} {said}")
    yield "the greatest budget, filled", ["run"], lane(calls), report(entries), 0


def encoders():
    """Encoders that each record, finish and submit one copy between the same two buffers."""
    count = 300
    calls = ['{"do":"createBuffer","as":"b","size":16,"usage":12}', '{"do":"createBuffer","as":"d","size":268435456,"usage":8}']
    entries = ["createBuffer made 0 valid", "createBuffer made 1 valid"]
    trace = ["step 0 op 1 clear", "use b 0 clear", "acc write b 0 0 16", "bar b 0 clear copy-src"]
    for n in range(count):
        calls += [
            f'{{"do":"createEncoder","as":"e{n}"}}',
            f'{{"do":"copyBufferToBuffer","on":"e{n}","source":"b","sourceOffset":0,"target":"d","targetOffset":0,"size":16}}',
            f'{{"do":"finish","on":"e{n}","as":"c{n}"}}', f'{{"do":"submit","buffers":["c{n}"]}}',
        ]
        entries += [f"createEncoder made {2 * n + 2} valid", f"finish made {2 * n + 3} valid", f"submit op {n + 1}"]
        trace += ["bar b 1 copy-dst copy-dst"] * (n > 0) + [
            f"step {n + 1} op {n + 1} copyBufferToBuffer", "use b 0 copy-src", "use b 1 copy-dst", "acc read b 0 0 16",
            "acc write b 1 0 16",
        ]
    yield f"{count} encoders that are submitted", ["run"], lane(calls).replace(str(GREATEST_WHOLE).encode(), b"300000000"), report(
        entries, trace
    ), 0


def limits():
    """Cases at the limits of a script, which are too long for files, and each beginning of a script."""
    def refused(name, script, refusal):
        return name, ["run"], script, f"bad script {refusal}\n".encode(), 3

    for depth, rule in ((127, 2), (128, 1)):
        yield refused(f"{depth} nested lists", b"[" * depth + b"]" * depth, rule)
    for count, rule in ((1024, 10), (1025, 8)):
        items = ",".join(['"c"'] * count)
        yield refused(f"a list of {count} names", lane([f'{{"do":"submit","buffers":[{items}]}}']), f"{rule} 0 0 0")
    calls = ['{"do":"createEncoder","as":"e"}'] + ['{"do":"pushDebugGroup","on":"e"}'] * 65_535
    made = b"history\n0 0 createEncoder made 0 valid\ntrace\nend\n"
    yield "65536 calls", ["run"], lane(calls), made, 0
    yield refused("65537 calls", lane(calls + ["7"]), "5 0 0 65536")
    yield refused("65537 calls after a wrong one", lane(calls[:-1] + ["7", "7"]), "6 0 0 65535")
    yield from limits_of_lanes(refused)
    empty = b'{"budget":0,"phases":[]}'
    yield "the longest text", ["run"], empty.ljust(TEXT_LIMIT), EMPTY, 0
    yield "a text that is too long", ["run"], empty.ljust(TEXT_LIMIT + 1), b"", 7
    yield refused("the most spaces", b" " * TEXT_LIMIT, 1)
    for path in (HERE / "script/repeated-keys.json", TOP / "examples/two-overlapping-writes.json"):
        whole = path.read_bytes().strip()
        for end in range(len(whole)):
            yield refused(f"the first {end} bytes of {path.stem}", whole[:end], 1)


def limits_of_lanes(refused):
    """Cases at the limits of phases, of lanes, and of calls over them."""
    yield "1024 phases", ["run"], phased(["[]"] * 1024), EMPTY, 0
    yield refused("1025 phases", phased(["[]"] * 1025), "3")
    yield refused("1025 phases that are none", phased(["7"] * 1025), "3")
    yield refused("1024 phases, of which the last is none", phased(["[]"] * 1023 + ["7"]), "4 1023")
    yield refused("1025 phases and limits", phased(["[]"] * 1025).replace(b'{"budget"', b'{"limits":{},"budget"'), "3")
    yield refused("1025 phases and limits that are no object", phased(["[]"] * 1025).replace(b'{"budget"', b'{"limits":0,"budget"'), "14")
    yield "64 lanes", ["run"], phased([listed(["[]"] * 64)]), EMPTY, 0
    yield refused("65 lanes", phased(["[]", listed(["[]"] * 65)]), "4 1")
    yield refused("65 lanes that are none", phased([listed(["7"] * 65)]), "4 0")
    yield refused("64 lanes, of which the last is none", phased([listed(["[]"] * 63 + ["7"])]), "4 0 63")
    yield refused("65 lanes after a wrong call", phased(["[[7]]", listed(["[]"] * 65)]), "6 0 0 0")
    yield refused("65 lanes before a wrong call", phased([listed(["[]"] * 65), "[[7]]"]), "4 0")
    push, many = '{"do":"pushErrorScope","filter":"internal"}', 4096
    phases = [listed(["[]"] * (number % 3) + [listed([push] * many)]) for number in range(16)]
    entries = [f"{many * number + n} {number % 3} pushErrorScope plain" for number in range(16) for n in range(many)]
    text = "".join(line + "\n" for line in ["history", *entries, "trace", "end"]).encode()
    yield "65536 calls in phases of one lane", ["run"], phased(phases), text, 0
    yield refused("65537 calls in phases", phased(phases + ["[[],[7]]"]), "5 16 1 0")
    yield refused("65537 calls in lanes", phased([listed([listed([push] * 1024)] * 64), "[[7]]"]), "5 1 0 0")
    yield refused("65537 calls in phases, and no lane before the last", phased(phases + ["[7,[7]]"]), "4 16 0")
    yield refused(
        "65537 calls and an unknown name",
        phased(['[[{"do":"drop","object":"b"}]]', *phases[:-1], f"[[{','.join([push] * many)}]]"]),
        "5 16 0 4095",
    )


def bindings():
    """Layouts, bind groups and pipelines of as many entries as there can be, and a buffer that as many bind groups hold."""
    count = 1000
    layout = '{"do":"createBindGroupLayout","entries":%s,"as":"l"}'
    group = '{"do":"createBindGroup","layout":"l","entries":%s,"as":"g"}'
    entries = [f'{{"binding":{n},"visibility":0,"kind":"uniform"}}' for n in range(1025)]
    bound = [f'{{"binding":{n},"buffer":"b{n}"}}' for n in range(count)]
    buffers = [f'{{"do":"createBuffer","size":4,"usage":64,"as":"b{n}"}}' for n in range(count)]
    dropped = [f'{{"do":"drop","object":"{name}"}}' for name in [f"b{n}" for n in range(count)] + ["l", "g"]]
    made = [f"createBuffer made {n} valid" for n in range(count)]
    for order, turned in (("the same order", bound), ("reverse order", bound[::-1])):
        calls = buffers + [layout % listed(entries[:count]), group % listed(turned)] + dropped
        said = (
            made + [f"createBindGroupLayout made {count} valid", f"createBindGroup made {count + 1} valid"] + ["drop plain"] * (count + 2)
        )
        yield f"{count} bindings, bound in {order}", ["run"], lane(calls), report(said, [f"free b {n}" for n in range(count)]), 0
    calls = buffers[:1] + [layout % listed(entries[:count]), group % listed(bound[1:2] + bound[:1] + bound[2:])]
    yield "a binding of a buffer that is not there", ["run"], lane(calls), b"bad script 10 0 0 2\n", 3
    calls = buffers + [
        layout % listed(entries[:count]),
        group % listed(bound[:-1]),
        group.replace('"g"', '"h"') % listed(bound[:-1] + bound[:1]),
    ]
    said = (
        made
        + [f"createBindGroupLayout made {count} valid"]
        + [f"createBindGroup made {n} invalid fault validation 150 uncaptured" for n in (count + 1, count + 2)]
    )
    yield f"{count} bindings, of which one is not bound", ["run"], lane(calls), report(said), 0
    for last, rule in ((1000, 131), (999, 130), (0, 130)):
        yield f"a layout of 1001 entries, the last of binding {last}", ["run"], lane(
            [layout % listed(entries[:count] + [entries[last]])]
        ), report([f"createBindGroupLayout made 0 invalid fault validation {rule} uncaptured"]), 0


def lists_of_bindings():
    """The longest lists of layouts, bind groups and pipelines, and lists that are longer by one."""
    layout = '{"do":"createBindGroupLayout","entries":%s,"as":"l"}'
    one = layout % '[{"binding":0,"visibility":4,"kind":"uniform"}]'
    begin = ['{"do":"createBuffer","size":4,"usage":64,"as":"b"}', one, '{"do":"createPipelineLayout","layouts":["l"],"as":"p"}']
    made = ["createBuffer made 0 valid", "createBindGroupLayout made 1 valid", "createPipelineLayout made 2 valid"]
    lists = [
        (
            '{"do":"createPipelineLayout","layouts":%s,"as":"q"}',
            '"l"',
            "createPipelineLayout made 3 invalid fault validation 140 uncaptured",
        ),
        (
            '{"do":"createBindGroup","layout":"l","entries":%s,"as":"g"}',
            '{"binding":0,"buffer":"b"}',
            "createBindGroup made 3 invalid fault validation 150 uncaptured",
        ),
        (
            '{"do":"createComputePipeline","layout":"p","iface":%s,"as":"k"}',
            '{"group":0,"binding":0,"kind":"uniform"}',
            "createComputePipeline made 3 valid",
        ),
        (
            '{"do":"createBindGroupLayout","entries":%s,"as":"m"}',
            '{"binding":0,"visibility":4,"kind":"uniform"}',
            "createBindGroupLayout made 3 invalid fault validation 130 uncaptured",
        ),
    ]
    for call, item, said in lists:
        word = call.split('"')[3]
        yield f"{word} of 1024 items", ["run"], lane(begin + [call % listed([item] * 1024)]), report(made + [said]), 0
        yield f"{word} of 1025 items", ["run"], lane(begin + [call % listed([item] * 1025)]), b"bad script 8 0 0 3\n", 3
    item = '{"group":0,"binding":0,"kind":"uniform"}'
    calls = begin + [
        '{"do":"createComputePipeline","layout":"p","iface":%s,"as":"k"}' % listed([item] * 1023 + [item.replace("uniform", "storage")])
    ]
    yield "an interface of which the last entry is wrong", ["run"], lane(calls), report(
        made + ["createComputePipeline made 3 invalid fault validation 160 uncaptured"]
    ), 0


def many_holders():
    """A buffer that as many bind groups hold as a script has room for, and the layout of as many pipelines."""
    count = 20_000
    begin = [
        '{"do":"createBuffer","size":4,"usage":64,"as":"b"}',
        '{"do":"createBindGroupLayout","entries":[{"binding":0,"visibility":4,"kind":"uniform"}],"as":"l"}',
        '{"do":"createPipelineLayout","layouts":["l"],"as":"p"}',
    ]
    made = ["createBuffer made 0 valid", "createBindGroupLayout made 1 valid", "createPipelineLayout made 2 valid"]
    calls = begin + [f'{{"do":"createBindGroup","layout":"l","entries":[{{"binding":0,"buffer":"b"}}],"as":"g{n}"}}' for n in range(count)]
    calls += ['{"do":"drop","object":"b"}'] + [f'{{"do":"drop","object":"g{n}"}}' for n in range(count)]
    said = made + [f"createBindGroup made {n + 3} valid" for n in range(count)] + ["drop plain"] * (count + 1)
    yield f"{count} bind groups of one buffer", ["run"], lane(calls), report(said, ["free b 0"]), 0
    calls = begin + [
        f'{{"do":"createComputePipeline","layout":"p","iface":[{{"group":0,"binding":0,"kind":"uniform"}}],"as":"k{n}"}}'
        for n in range(count)
    ]
    said = made + [f"createComputePipeline made {n + 3} valid" for n in range(count)]
    yield f"{count} pipelines of one layout", ["run"], lane(calls), report(said), 0


def labels():
    """As many encoders of the longest labels as a text has room for, of letters or of escapes alone; and the last one longer by a byte."""
    for what, label in (("letters", "a" * 256), ("escapes", "\\u00e9" * 128)):
        call = '{"do":"createEncoder","as":"e%s","label":"%s"}'
        count = (TEXT_LIMIT - len(lane([]))) // (len(call % (TEXT_LIMIT, label)) + 1)
        calls = [call % (n, label) for n in range(count)]
        said = report([f"createEncoder made {n} valid" for n in range(count)])
        yield f"{count} labels of 256 bytes, of {what}", ["run"], lane(calls), said, 0
        calls[-1] = call % (count - 1, label + "b")
        refusal = f"bad script 8 0 0 {count - 1}\n".encode()
        yield f"{count} labels of {what}, of which the last is too long", ["run"], lane(calls), refusal, 3


def derived_layouts():
    """Interfaces of as many entries as there can be, of which a pipeline derives its layouts; layouts that are got by the thousand, and the
    longest chain of pipelines, each of a layout that was got of the one before."""
    kinds = ["uniform"] * 12 + ["texture"] * 16 + ["sampler"] * 16 + ["storage"] * 8 + ['storage-texture","format":"r32uint'] * 4
    entry = '{"group":%d,"binding":%d,"kind":"%s"}'
    many = [entry % (n % 4, n % len(kinds), kinds[n % len(kinds)]) for n in range(1024)]
    pipeline = '{"do":"createComputePipeline","layout":"auto","iface":%s,"as":"k"}'
    got = [f'{{"do":"getBindGroupLayout","pipeline":"k","index":{n},"as":"l{n}"}}' for n in range(5)]
    said = [
        "createComputePipeline made 0 valid",
        *[f"getBindGroupLayout made {n + 1} valid" for n in range(4)],
        "getBindGroupLayout made 5 invalid fault validation 169 uncaptured",
    ]
    for order, turned in (("in turns", many), ("in reverse turns", many[::-1]), ("one after another", sorted(many))):
        yield f"an interface of 1024 entries that names 56 bindings {order}", ["run"], lane([pipeline % listed(turned), *got]), report(
            said
        ), 0
    for what, entries, rule in (
        ("has an unknown kind", many[:-1] + [many[-1].replace('"kind":"', '"kind":"read-only-')], 8),
        ("differs in its kind", many[:-1] + [entry % (1023 % 4, 1023 % len(kinds), "uniform")], 167),
        ("is of group 4", many[:-1] + [entry % (4, 0, "uniform")], 168),
        ("is one binding more", many[:-1] + [entry % (0, 999, "uniform")], 168),
        ("is of binding 1000", many[:-1] + [entry % (0, 1000, "uniform")], 168),
    ):
        wrong = f"createComputePipeline made 0 invalid fault validation {rule} uncaptured"
        yield f"an interface of which the last of 1024 entries {what}", ["run"], lane(
            [pipeline % listed(entries)]
        ), b"bad script 8 0 0 0\n" if rule == 8 else report([wrong]), 3 * (rule == 8)
    for what, place in (("bindings", lambda n: (0, n)), ("groups", lambda n: (n, 0)), ("bindings of four groups", lambda n: (n % 4, n))):
        entries = [entry % (*place(n), "sampler") for n in range(1025)]
        yield f"an interface of 1024 {what}", ["run"], lane([pipeline % listed(entries[:1024])]), report(
            ["createComputePipeline made 0 invalid fault validation 168 uncaptured"]
        ), 0
        yield f"an interface of 1025 {what}", ["run"], lane([pipeline % listed(entries)]), b"bad script 8 0 0 0\n", 3
    calls = [pipeline.replace('"k"', f'"k{n}"') % listed(many) for n in range(80)]
    yield "80 pipelines of 1024 entries", ["run"], lane(calls), report([f"createComputePipeline made {n} valid" for n in range(80)]), 0
    yield from chains_of_pipelines()


def chains_of_pipelines():
    count = 32_767
    calls = ['{"do":"createComputePipeline","layout":"auto","iface":[{"group":0,"binding":0,"kind":"uniform"}],"as":"k"}']
    got = [f'{{"do":"getBindGroupLayout","pipeline":"k","index":0,"as":"l{n}"}}' for n in range(count)]
    calls += got + ['{"do":"drop","object":"k"}'] + [f'{{"do":"drop","object":"l{n}"}}' for n in range(count)]
    said = [
        "createComputePipeline made 0 valid",
        *[f"getBindGroupLayout made {n + 1} valid" for n in range(count)],
        *["drop plain"] * (count + 1),
    ]
    yield f"{count} layouts of one pipeline", ["run"], lane(calls), report(said), 0
    count = 10_900
    calls = [
        '{"do":"createBuffer","size":4,"usage":64,"as":"b"}',
        '{"do":"createBindGroupLayout","entries":[{"binding":0,"visibility":4,"kind":"uniform"}],"as":"l0"}',
    ]
    for n in range(count):
        calls += [
            f'{{"do":"createPipelineLayout","layouts":["l{n}"],"as":"p{n}"}}',
            f'{{"do":"createComputePipeline","layout":"p{n}","as":"k{n}"}}',
        ]
        calls.append(f'{{"do":"getBindGroupLayout","pipeline":"k{n}","index":0,"as":"l{n + 1}"}}')
    calls.append(f'{{"do":"createBindGroup","layout":"l{count}","entries":[{{"binding":0,"buffer":"b"}}],"as":"g"}}')
    dropped = ["b", *[name for n in range(count) for name in (f"l{n}", f"p{n}", f"k{n}")], f"l{count}", "g"]
    calls += [f'{{"do":"drop","object":"{name}"}}' for name in dropped]
    said = ["createBuffer made 0 valid", "createBindGroupLayout made 1 valid"]
    words = ("createPipelineLayout", "createComputePipeline", "getBindGroupLayout")
    said += [f"{word} made {3 * n + place + 2} valid" for n in range(count) for place, word in enumerate(words)]
    said += [f"createBindGroup made {3 * count + 2} valid", *["drop plain"] * len(dropped)]
    yield f"{count} pipelines, each of a layout of the one before", ["run"], lane(calls), report(said, ["free b 0"]), 0


def cases():
    """All cases of this file."""
    made = (limits, promises_and_scopes, holders, budgets, encoders, bindings, lists_of_bindings, many_holders, labels, derived_layouts)
    for each in made:
        yield from each()
