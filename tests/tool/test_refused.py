"""What explain says of scripts that are refused."""

import re

from common import TOP, asked, check
from wgsim.matching import explained
from wgsim.reading import places

REFUSED = [
    ('{"budget":1', "S:1:1", "ends within the object"),
    ('{"budget":01,"phases":[]}', "S:1:12", "no leading zeros"),
    ('{"budget":1,"phases":[1e999]}', "S:1:23", "too large"),
    ("[" * 128 + "]" * 128, "S:1:128", "127 deep"),
    ('{"budget":1,"phases":["\\ud800"]}', "S:1:30", "second half"),
    ('{"budget":1}', "S:1:1", "the key phases"),
    ('{"budget":1.5,"phases":[]}', "S:1:11", "whole number"),
    ('{"budget":1,"phases":[],"phase":0}', "S:1:25", 'nearest is "phases"'),
    ('{"budget":1,"phases":{}}', "S:1:22", "a list of phases"),
    ('{"budget":1,"phases":[[],[]],"limits":7}', "S:1:39", "an object from names of limits to whole numbers"),
    ('{"budget":1,"phases":[],"limit":{}}', "S:1:25", 'nearest is "limits"'),
    ('{"budget":1,"limits":{"maxBindGroup":4},"phases":[]}', "S:1:23", 'nearest is "maxBindGroups"'),
    (
        '{"budget":1,"limits":{"maxBufferSize":1.5},"phases":[]}',
        "S:1:39",
        "1.5 for maxBufferSize, whose default is 268435456 and whose best is 4294967296",
    ),
    (
        '{"budget":1,"limits":{"maxTextureArrayLayers":2049},"phases":[]}',
        "S:1:47",
        "2049 for maxTextureArrayLayers, whose default is 256 and whose best is 2048",
    ),
    ('{"budget":1,"limits":{"maxTextureArrayLayers":2049},"phases":[]}', "S:1:47", "at most 2048; what is below 256 gives 256"),
    (
        '{"budget":1,"limits":{"maxBindGroups":4,\n"minStorageBufferOffsetAlignment":300},"phases":[]}',
        "S:2:35",
        "a power of two from 256 to 2147483648",
    ),
    ('{"budget":1,"limits":{"minUniformBufferOffsetAlignment":128},"phases":[]}', "S:1:57", "A limit that is better than the best"),
    ('{"budget":1,"phases":[7]}', "S:1:23", "a phase: a list"),
    ('{"budget":1,"phases":[[7]]}', "S:1:24", "a lane: a list"),
    ('{"budget":1,"phases":[[[]],[[],\n7]]}', "S:2:1", "a lane: a list"),
    ('{"budget":1,"phases":[[[]],\n[' + "[]," * 64 + "[]]]}", "S:2:1", "65 lanes"),
    ('{"budget":1,"phases":[' + "[]," * 1024 + "[]]}", "S:1:22", "at most 1024 phases"),
    (
        '{"budget":1,"phases":[[[{"do":"createEncoder","as":"e"}],\n[{"do":"drop","object":"e"}]]]}',
        "S:2:24",
        "in another lane of the same phase, whose names are not visible here, at S:1:25",
    ),
    (
        '{"budget":1,"phases":[[[{"do":"drop","object":"e"}]],[[\n{"do":"createEncoder","as":"e"}]]]}',
        "S:1:47",
        "is given only later, at S:2:1",
    ),
    (
        '{"budget":1,"phases":[[[],[{"do":"createEncoder","as":"e"}]],[[],\n[{"do":"finish","on":"e","as":"c"}]]]}',
        "S:2:22",
        "e was made in phase 0, lane 1, at S:1:28",
    ),
    (
        '{"budget":1,"phases":[[[{"do":"createEncoder","as":"e"}],[\n{"do":"createEncoder","as":"e"}]]]}',
        "S:2:28",
        "it was given before, at S:1:25",
    ),
    ('L{"do":"createBufer"}', "S:2:8", 'nearest is "createBuffer"'),
    ('L{"size":16}', "S:2:2", "the key do"),
    ('L{"do":"configureCanvas","canvas":"k"}', "S:2:2", "the key format"),
    ('L{"do":"createCanvas","width":4,"heigth":4,"as":"k"}', "S:2:33", 'nearest is "height"'),
    ('L{"do":"configureCanvas","canvas":"k","format":"bgra8unrom"}', "S:2:48", 'nearest is "bgra8unorm"'),
    ('L{"do":"presents","canvas":"k"}', "S:2:8", 'nearest is "present"'),
    (
        'L{"do":"createCanvas","width":4,"height":4,"as":"k"},\n{"do":"currentTexture","canvas":"k","as":"t"}',
        "S:3:33",
        "no call configures it",
    ),
    ('L{"do":"createCanvas","width":4,"height":4,"as":"k"},\n{"do":"destroy","object":"k"}', "S:3:26", "k is a canvas, made at S:2:2"),
    (
        '{"budget":1,"phases":[[[{"do":"createCanvas","width":4,"height":4,"as":"k"}],[\n{"do":"present","canvas":"k"}]]]}',
        "S:2:26",
        "in another lane of the same phase",
    ),
    (
        '{"budget":1,"phases":[[[{"do":"createCanvas","width":4,"height":4,"as":"k"}]],[[\n{"do":"present","canvas":"k"}]]]}',
        "S:2:26",
        "a canvas that this lane made in this phase",
    ),
    ('L{"do":"createBundleEncoder","colors":["rgba8unrm"],"as":"r"}', "S:2:40", 'the nearest is "rgba8unorm"'),
    ('L{"do":"createBundleEncoder","colors":[],"depth":{"format":"depth16unorm"},"as":"r"}', "S:2:50", "under depth"),
    ('L{"do":"createBundleEncoder","colorFormats":[],"as":"r"}', "S:2:30", "what WebGPU calls colorFormats is colors here"),
    (
        'L{"do":"createRenderBundleEncoder","colors":[],"as":"r"}',
        "S:2:8",
        "what WebGPU calls createRenderBundleEncoder is createBundleEncoder here",
    ),
    (
        'L{"do":"createComputePipeline","layout":"auto","as":"p","x":1}',
        "S:2:57",
        "no such key: createComputePipeline has the keys layout, iface (may be left out), label (may be left out), as",
    ),
    ('L{"do":"createComputePipeline","layout":"autos","as":"p"}', "S:2:41", 'the nearest is "auto"'),
    ('L{"do":"createComputePipeline","layout":7,"as":"p"}', "S:2:41", 'the name of a pipeline layout, or the word "auto"'),
    (
        'L{"do":"getBindGroupLayout","pipeline":"k","index":0,"as":"l"}',
        "S:2:40",
        "the name of a compute pipeline or a render pipeline that an earlier call gave",
    ),
    (
        'L{"do":"createComputePipeline","layout":"auto","as":"k"},\n{"do":"getBindGroupLayout","pipline":"k","index":0,"as":"l"}',
        "S:3:28",
        'nearest is "pipeline"',
    ),
    ('L{"do":"getBindGroupLayout","pipeline":"k","index":-1,"as":"l"}', "S:2:52", "-1 under index"),
    ('L{"do":"getBindgroupLayout","pipeline":"k","index":0,"as":"l"}', "S:2:8", 'nearest is "getBindGroupLayout"'),
    ('L{"do":"pushErrorScope"}', "S:2:2", "the key filter"),
    ('L{"do":"pushErrorScope","filter":"validaton"}', "S:2:34", 'nearest is "validation"'),
    ('L{"do":"popErrorScope","filter":"validation"}', "S:2:24", "no such key: popErrorScope has the key do alone"),
    ('L{"do":"createEncoder","as":"e"},\n{"do":"finishBundle","on":"e","as":"q"}', "S:3:27", "the name of a bundle encoder"),
    (
        'L{"do":"createBundleEncoder","colors":["r8unorm"],"as":"e"},\n{"do":"finish","on":"e","as":"q"}',
        "S:3:21",
        "e is a bundle encoder, made at S:2:2",
    ),
    (
        'L{"do":"createBundleEncoder","colors":["r8unorm"],"as":"e"},\n{"do":"setPipeline","on":"e","pipeline":"k"}',
        "S:3:41",
        "the name of a render pipeline that an earlier call gave",
    ),
    (
        'L{"do":"createBundleEncoder","colors":["r8unorm"],"as":"e"},\n{"do":"dispatch","on":"e","x":1}',
        "S:3:23",
        "the name of a compute pass",
    ),
    (
        'L{"do":"createQuerySet","type":"occlusion","count":1,"as":"q"}',
        "S:2:25",
        "no such key: createQuerySet has the keys count, label (may be left out), as",
    ),
    ('L{"do":"createQuerySet","count":4294967296,"as":"q"}', "S:2:33", "4294967296 under count"),
    ('L{"do":"drop"}', "S:2:2", "the key object"),
    ('L{"do":"drop","object":"b"}', "S:2:24", "a view or a sampler or a bind group layout or"),
    ('L{"do":"createBuffer","size":16,"usage":8,"mapped":1,"as":"b"}', "S:2:52", "1 under mapped"),
    ('L{"do":"mapAsync","buffer":"b","mod":1}', "S:2:32", 'nearest is "mode"'),
    ('L{"do":"createBuffer","size":16,"usages":8,"as":"b"}', "S:2:33", 'nearest is "usage"'),
    ('L{"do":"createBuffer","size":16,"as":"b"}', "S:2:2", "the key usage"),
    ('L{"do":"createBuffer","size":-1,"usage":8,"as":"b"}', "S:2:30", "-1 under size"),
    ('L{"do":"createBuffer","size":16,"usage":4294967296,"as":"b"}', "S:2:41", "to 4294967295"),
    ('L{"do":"createTexture","size":[1,1],"usage":2,"format":"r8unorm","as":"t"}', "S:2:31", "a list of 2 under size"),
    ('L{"do":"createTexture","size":[1,"1",1],"usage":2,"format":"r8unorm","as":"t"}', "S:2:34", "three whole numbers"),
    ('L{"do":"createTexture","size":[1,1,1],"usage":2,"format":"r8unrom","as":"t"}', "S:2:58", 'nearest is "r8unorm"'),
    ('L{"do":"createSampler","kind":"comparsion","as":"s"}', "S:2:31", 'nearest is "comparison"'),
    ('L{"do":"createBindGroupLayout","entries":[{"binding":0,"visibility":4,"kind":"unifrm"}],"as":"l"}', "S:2:78", 'nearest is "uniform"'),
    ('L{"do":"createBindGroupLayout","entries":[{"binding":0,"visibility":4}],"as":"l"}', "S:2:43", "the key kind"),
    (
        'L{"do":"createBindGroupLayout","entries":[{"binding":0,"visibility":4,"kind":"sampler","minSize":4}],"as":"l"}',
        "S:2:88",
        "with the kind sampler has the keys",
    ),
    (
        'L{"do":"createBindGroupLayout","entries":[{"binding":0,"visibility":4,"kind":"storage-texture"}],"as":"l"}',
        "S:2:43",
        "the key format",
    ),
    (
        'L{"do":"createBindGroupLayout","entries":[{"binding":0,"visibility":4,"kind":"texture","sample":"flat"}],"as":"l"}',
        "S:2:97",
        'nearest is "float"',
    ),
    ('L{"do":"createBindGroupLayout","entries":{},"as":"l"}', "S:2:42", "a list of at most 1024 objects"),
    ('L{"do":"createBindGroupLayout","entries":[[]],"as":"l"}', "S:2:43", "each an entry of a bind group layout"),
    ('L{"do":"createBindGroup","layout":"l","entries":[{"binding":0}],"as":"g"}', "S:2:50", "none of the keys buffer, view, sampler"),
    ('L{"do":"createBindGroup","layout":"l","entries":[{"binding":0,"view":"v","size":4}],"as":"g"}', "S:2:74", "with a view has the keys"),
    (
        'L{"do":"createComputePipeline","layout":"l","iface":[{"group":4294967296,"binding":0,"kind":"sampler"}],"as":"p"}',
        "S:2:63",
        "to 4294967295",
    ),
    (
        'L{"do":"createBindGroupLayout","entries":[],"as":"l"},\n'
        '{"do":"createBindGroup","layout":"l","entries":[{"binding":0,"sampler":"l"}],"as":"g"}',
        "S:3:72",
        "l is a bind group layout, made at S:2:2",
    ),
    ('L{"do":"createPipelineLayout","layouts":["l"],"as":"p"}', "S:2:42", "the name of a bind group layout that an earlier call gave"),
    ('L{"do":"submit","buffers":"c"}', "S:2:27", "a list of at most 1024 names"),
    ('L{"do":"createEncoder","as":"e f"}', "S:2:29", "1 to 64 letters"),
    ('L{"do":"createEncoder","as":"e"},\n{"do":"createEncoder","as":"e"}', "S:3:28", "given before, at S:2:2"),
    ('L{"do":"destroy","object":"b"},\n{"do":"createBuffer","size":16,"usage":8,"as":"b"}', "S:2:27", "given only later, at S:3:1"),
    ('L{"do":"createEncoder","as":"encoder"},\n{"do":"finish","on":"encodr","as":"c"}', "S:3:21", 'nearest is "encoder"'),
    ('L{"do":"createEncoder","as":"e"},\n{"do":"destroy","object":"e"}', "S:3:26", "e is an encoder, made at S:2:2"),
    ('L{"do":"beginComputePass","on":"e"}', "S:2:2", "the key as"),
    ('L{"do":"dispatch","on":"p","y":1}', "S:2:2", "the key x"),
    ('L{"do":"dispatch","on":"p","x":1,"y":4294967296}', "S:2:38", "4294967296 under y"),
    (
        'L{"do":"setBindGroup","on":"p","index":0,"group":"g","offsets":0}',
        "S:2:64",
        "a list of at most 1024 whole numbers from 0 to 4294967295",
    ),
    ('L{"do":"setBindGroup","on":"p","index":0,"group":"g","offsets":[0,-1]}', "S:2:67", "-1 under offsets"),
    ('L{"do":"executeBundles","on":"p","bundles":null}', "S:2:44", "null under bundles"),
    ('L{"do":"resolveQuerySet","on":"e","queries":"q"}', "S:2:2", "the key first"),
    (
        'L{"do":"createEncoder","as":"e"},\n{"do":"resolveQuerySet","on":"e","queries":"e","first":0,"count":1,"buffer":"e","offset":0}',
        "S:3:44",
        "e is an encoder, made at S:2:2",
    ),
    ('L{"do":"createEncoder","as":"e"},\n{"do":"beginOcclusionQuery","on":"e","index":0}', "S:3:34", "the name of a render pass"),
    ('L{"do":"createEncoder","as":"e"},\n{"do":"end","on":"e"}', "S:3:18", "e is an encoder, made at S:2:2"),
    (
        'L{"do":"createEncoder","as":"e"},\n{"do":"beginComputePass","on":"e","as":"p"},\n{"do":"clearBuffer","on":"p","buffer":"b"}',
        "S:4:26",
        "p is a compute pass, made at S:3:1",
    ),
    (
        'L{"do":"createEncoder","as":"e"},\n{"do":"beginComputePass","on":"e","as":"p"},\n{"do":"drop","object":"p"}',
        "S:4:23",
        "p is a compute pass, made at S:3:1",
    ),
    (
        'L{"do":"createBuffer","size":16,"usage":8,"as":"b"},\n{"do":"popDebugGroup","on":"b"}',
        "S:3:28",
        "the name of an encoder or a compute pass or a render pass",
    ),
    (
        'L{"do":"beginRenderPass","on":"e","colors":[{"view":"v","load":"load","store":"store","depthSlice":-1}],"as":"p"}',
        "S:2:100",
        "-1 under depthSlice",
    ),
    (
        'L{"do":"beginRenderPass","on":"e","colors":[{"view":"v","load":"load","store":"store","depthSlices":0}],"as":"p"}',
        "S:2:87",
        'nearest is "depthSlice"',
    ),
    ('L{"do":"beginRenderPass","on":"e","colors":[],"queries":null,"as":"p"}', "S:2:57", "null under queries"),
    (
        'L{"do":"beginRenderPass","on":"e","colors":[],"occlusionQuerySet":"q","as":"p"}',
        "S:2:47",
        "what WebGPU calls occlusionQuerySet is queries here",
    ),
    (
        'L{"do":"createEncoder","as":"e"},\n{"do":"beginRenderPass","on":"e","colors":[],"queries":"q","as":"p"}',
        "S:3:56",
        "the name of a query set that an earlier call gave",
    ),
    (
        'L{"do":"beginRenderPass","on":"e","colors":[null,{"view":"v","lod":"load","store":"store"}],"as":"p"}',
        "S:2:62",
        'nearest is "load"',
    ),
    ('L{"do":"beginRenderPass","on":"e","colors":[null,0],"as":"p"}', "S:2:50", "each a color, or null"),
    ('L{"do":"beginRenderPass","on":"e","colors":[],"depth":[],"as":"p"}', "S:2:55", "an object, depth of a render pass"),
    ('L{"do":"beginRenderPass","on":"e","colors":[],"depth":{"view":"d","depthLoad":"lead"},"as":"p"}', "S:2:79", 'nearest is "load"'),
    ('L{"do":"createRenderPipeline","layout":"auto","as":"r","x":1}', "S:2:56", "no such key: createRenderPipeline has the keys layout,"),
    ('L{"do":"createRenderPipeline","layout":"l","targets":[null,"r8unrom"],"as":"r"}', "S:2:60", 'nearest is "r8unorm"'),
    ('L{"do":"createRenderPipeline","layout":"l","iface":[null],"as":"r"}', "S:2:53", "each an entry of iface of a render pipeline"),
    ('L{"do":"createRenderPipeline","layout":"l","iface":[{"group":0,"binding":0,"kind":"sampler"}],"as":"r"}', "S:2:53", "the key stage"),
    (
        'L{"do":"createRenderPipeline","layout":"l",'
        '"buffers":[{"stride":4,"attributes":[{"format":"float32x5","offset":0,"location":0}]}],"as":"r"}',
        "S:2:91",
        'nearest is "float32x',
    ),
    (
        'L{"do":"createRenderPipeline","layout":"l","buffers":[{"stride":4,"atributes":[]}],"as":"r"}',
        "S:2:67",
        "a vertex buffer has the keys",
    ),
    ('L{"do":"createRenderPipeline","layout":"l","depth":{"format":"depth24plus","depthWrite":0},"as":"r"}', "S:2:89", "true or false"),
    (
        'L{"do":"createEncoder","as":"e"},\n'
        '{"do":"beginRenderPass","on":"e","colors":[null,{"view":"e","load":"load","store":"store"}],"as":"p"}',
        "S:3:57",
        "e is an encoder, made at S:2:2",
    ),
    (
        'L{"do":"createEncoder","as":"e"},\n{"do":"beginRenderPass","on":"e","colors":[],"depth":{"view":"d"},"as":"p"}',
        "S:3:62",
        "the name of a view that an earlier call gave",
    ),
    (
        'L{"do":"createEncoder","as":"e"},\n{"do":"beginComputePass","on":"e","as":"p"},\n{"do":"draw","on":"p","vertices":3}',
        "S:4:19",
        "p is a compute pass, made at S:3:1",
    ),
    (
        (
            'L{"do":"createEncoder","as":"e"},'
            '{"do":"createPipelineLayout","layouts":[],"as":"l"},{"do":"createComputePipeline","layout":"l","as":"k"},\n'
            '{"do":"beginRenderPass","on":"e","colors":[],"as":"p"},\n{"do":"setPipeline","on":"p","pipeline":"k"}'
        ),
        "S:4:41",
        "the name of a render pipeline",
    ),
]


def test_refused():
    """Of a refused script the line and column, the key or name, and what was expected."""
    for script, where, words in REFUSED:
        whole = script if script[0] != "L" else '{"budget":1,"phases":[[[\n ' + script[1:] + "]]]}"
        told, status = explained.explain(places.Text(whole.encode(), "S"), whole.encode(), asked)
        check(
            status == 3 and f"\n{where}\n" in told and words in told,
            f"of {script[:90]} explain does not tell {where} and `{words}`:\n{told}",
        )


def test_refused_lists():
    """Of each script that a list of tests/cases says is refused, explain finds what of it breaks the rule."""
    for path in sorted((TOP / "tests/cases").glob("*/*.refused")):
        frame = "@"
        for line in path.read_text(encoding="utf-8").splitlines():
            if line.startswith(">"):
                frame = line[1:].strip()
            found = re.match(r"\d+(?: \d+)*\t(.*)", line)
            data = frame.replace("@", found[1]).encode() if found else None
            if data and asked.ask(data)[0] == 3:
                told = explained.explain(places.Text(data, "S"), data, asked)[0]
                check(
                    re.search(r"^S:\d+:\d+$", told, re.M) and "expected:" in told,
                    f"{path.name}: {line[:100]}: explain finds nothing:\n{told}",
                )
