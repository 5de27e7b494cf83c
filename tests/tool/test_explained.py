"""What explain says of error scopes, maps, bind groups, passes and draws."""

import re

from common import TOP, asked, check, wgsim
from wgsim.matching import explained
from wgsim.reading import places


def test_errors():
    """What explain says of error scopes, promises, loss and mapped buffers, by four examples; a difference in them is one difference
    alone."""
    def told(name):
        return wgsim("explain", str(TOP / f"examples/{name}.json")).stdout.decode()

    wanted_words = {
        "error-scopes": [
            "error scope 1 was opened for validation errors at ",
            "it keeps this error, and the popErrorScope at ",
            "it received an error before, that of entry 3, and keeps that one alone",
            "closes error scope 0, opened by entry 0 at 4:5",
            "settles its promise at once: error validation 112, the first error that it received, of entry 3 at 7:5",
            "settles its promise at once: null: it received no error",
            "settles its promise at once: rejected: no error scope is open",
        ],
        "lost-device": [
            "LOST at entry 8: ",
            "a promise that waits for the operations up to 1: entry 6 at 10:5 settles it",
            "settles the promise of entry 5 at 9:5: done, since the device is lost",
            "makes more_vertices, object 2, invalid, since the device is lost",
            "does nothing: the device is lost",
            "settles its promise at once: null, since the device is lost",
        ],
        "upload-and-read-back": [
            "readback is pending: a map of it waits, by mapAsync at ",
            "ends the mapping for writing: what is in the range is written back",
            "a promise that waits until every operation that uses readback is complete: entry 10 at 16:5 settles it",
            "mapped: every operation that uses readback is complete, and it is mapped for reading",
            "ends the mapping for reading",
            "step 1   hostWrite, on the host, at entry 3, of the call at 7:5",
            "step 4   hostRead, on the host, at entry 10, of the call at 13:5",
        ],
        "maps-that-are-given-up": [
            "a promise that is refused, by rule 225",
            "settles its promise at once: rejected: a rule is unmet",
            "mapped: no operation that uses up is out, and it is mapped for writing",
            "settles the promise of entry 8 at 12:5: aborted: a was unmapped while it waited",
            "settles the promise of entry 9 at 13:5: aborted: b was destroyed while it waited",
            "settles the promise of entry 7 at 11:5: aborted, since the device is lost",
            "settles its promise at once: aborted, since the device is lost",
        ],
    }
    for name, words in wanted_words.items():
        text = told(name)
        for each in words:
            check(each in text, f"explain of {name} does not say `{each}`:\n{text}")


BOUND = """{"budget":1000,"phases":[[[
{"do":"createBuffer","size":16,"usage":64,"as":"b"},
{"do":"createBuffer","size":16,"usage":0,"as":"none"},
{"do":"createBindGroupLayout","entries":[\
{"binding":0,"visibility":4,"kind":"uniform"},{"binding":1,"visibility":4,"kind":"uniform"}],"as":"l"},
{"do":"createBindGroup","layout":"l","entries":[{"binding":0,"buffer":"b"},{"binding":1,"buffer":"none"}],"as":"g"},
{"do":"createBindGroup","layout":"l","entries":[{"binding":0,"buffer":"b"}],"as":"h"},
{"do":"createPipelineLayout","layouts":["l","l"],"as":"p"},
{"do":"createComputePipeline","layout":"p","iface":[{"group":1,"binding":1,"kind":"storage"}],"as":"c"},
{"do":"drop","object":"b"},
{"do":"createBindGroup","layout":"l","entries":[{"binding":0,"buffer":"b"},{"binding":1,"buffer":"b"}],"as":"i"}]]]}"""


def test_bound():
    """What explain says of bind groups and pipelines: which of the objects is invalid or dropped, and where the layouts were made."""
    told = explained.explain(places.Text(BOUND.encode(), "S"), BOUND.encode(), asked)[0]
    for words in (
        (
            'follows from entry 1: entry 3, S:5:1: createBindGroup: "none" (3:1), which is bound by entry 1, is invalid since it was made,'
            " at entry 1, by rule 100 (rule 12)"
        ),
        "rule 150 asks of createBindGroup: ",
        "    l: createBindGroupLayout at S:4:1",
        "rule 160 asks of createComputePipeline: ",
        "    p: createPipelineLayout at S:7:1\n    l: createBindGroupLayout at S:4:1\n",
        "rule 11 asks of createBindGroup: ",
        "    b: drop at S:9:1",
    ):
        check(words in told, f"explain of what is bound does not say `{words}`:\n{told}")


DISPATCHED = """{"budget":1000,"phases":[[[
{"do":"createBuffer","size":16,"usage":384,"as":"b"},
{"do":"createTexture","size":[1,1,1],"usage":4,"format":"r8unorm","as":"t"},
{"do":"createView","texture":"t","as":"v"},
{"do":"createBindGroupLayout","entries":[\
{"binding":0,"visibility":4,"kind":"storage"},{"binding":1,"visibility":4,"kind":"texture"}],"as":"l"},
{"do":"createPipelineLayout","layouts":["l"],"as":"ls"},
{"do":"createComputePipeline","layout":"ls","as":"k"},
{"do":"createBindGroup","layout":"l","entries":[{"binding":0,"buffer":"b"},{"binding":1,"view":"v"}],"as":"g"},
{"do":"createEncoder","as":"e"},
{"do":"beginComputePass","on":"e","as":"p"},\
{"do":"setBindGroup","on":"p","index":0,"group":"g"},{"do":"setPipeline","on":"p","pipeline":"k"},
{"do":"dispatch","on":"p","x":1},
{"do":"end","on":"p"},{"do":"dispatch","on":"p","x":0},
{"do":"finish","on":"e","as":"c"},
{"do":"createEncoder","as":"f"},{"do":"beginComputePass","on":"f","as":"q"},
{"do":"setPipeline","on":"q","pipeline":"k"},{"do":"setBindGroup","on":"q","index":0,"group":"g"},
{"do":"dispatch","on":"q","x":1},
{"do":"dispatchIndirect","on":"q","buffer":"b","offset":0},{"do":"end","on":"q"},{"do":"finish","on":"f","as":"d"},
{"do":"createEncoder","as":"h"},{"do":"beginComputePass","on":"h","as":"r"},
{"do":"setBindGroup","on":"r","index":0,"group":"g","offsets":[0]},
{"do":"dispatch","on":"r","x":1},{"do":"end","on":"r"},{"do":"finish","on":"h","as":"i"},
{"do":"createEncoder","as":"j"},{"do":"beginComputePass","on":"j","as":"s"},
{"do":"dispatch","on":"s","x":1},{"do":"end","on":"s"},{"do":"finish","on":"j","as":"m"},
{"do":"createEncoder","as":"n"},
{"do":"pushDebugGroup","on":"n"},
{"do":"beginComputePass","on":"n","as":"u"},{"do":"pushDebugGroup","on":"u"},{"do":"popDebugGroup","on":"u"},{"do":"end","on":"u"},
{"do":"finish","on":"n","as":"o"},
{"do":"createEncoder","as":"w"},{"do":"beginComputePass","on":"w","as":"x"},{"do":"pushDebugGroup","on":"x"},
{"do":"clearBuffer","on":"w","buffer":"b"},{"do":"end","on":"x"},{"do":"finish","on":"w","as":"y"},
{"do":"destroy","object":"t"},
{"do":"submit","buffers":["c"]},
{"do":"createBuffer","size":16,"usage":128,"mapped":true,"as":"up"},
{"do":"createBindGroup","layout":"l","entries":[{"binding":0,"buffer":"up"},{"binding":1,"view":"v"}],"as":"gu"},
{"do":"createEncoder","as":"eu"},\
{"do":"beginComputePass","on":"eu","as":"pu"},{"do":"setBindGroup","on":"pu","index":3,"group":"gu"},{"do":"end","on":"pu"},
{"do":"finish","on":"eu","as":"cu"},
{"do":"submit","buffers":["cu"]}]]]}"""


def test_dispatched():
    """What explain says of passes: what is set where a dispatch comes, what is left open, what ended a pass, what is reached through
    groups."""
    told = explained.explain(places.Text(DISPATCHED.encode(), "S"), DISPATCHED.encode(), asked)[0]
    wanted_words = {
        "S:12:23": ["breaks rule 14 ", "    p was ended at S:12:1\n"],
        "S:17:82": [
            "breaks rule 184 ",
            "rule 184 asks of finish: every usage scope is compatible",
            "the command that has the first usage scope that is not compatible is number 5 of 6: S:17:1\n",
            "    set there, at S:15:1: ",
            "    set there, at S:15:46: ",
            "    k: createComputePipeline at S:7:1\n    ls: createPipelineLayout at S:6:1\n    l: createBindGroupLayout at S:5:1\n",
            "    g: createBindGroup at S:8:1\n",
        ],
        "S:20:56": [
            "breaks rule 326 ",
            "is number 2 of 4: S:19:1\n",
            "    g: createBindGroup at S:8:1\n    l: createBindGroupLayout at S:5:1\n",
        ],
        "S:22:56": ["breaks rule 340 ", "is number 2 of 3: S:22:1\n", "nothing is set there"],
        "S:26:1": ["breaks rule 183 ", "the command that opens what is still open is number 1 of 5: S:24:1\n"],
        "S:28:66": ["breaks rule 240 ", "is number 3 of 4: S:28:1\n", "    x is open there, from S:27:33 on\n"],
        "S:30:1": ["breaks rule 193 ", "    t: destroy at S:29:1\n"],
        "S:35:1": ["breaks rule 192 ", "    up is mapped for writing, by createBuffer at S:31:1\n"],
    }
    for place, words in wanted_words.items():
        found = re.search(rf"^FAULT at entry \d+: {re.escape(place)}\n(.*?)(?=^FAULT at entry|^HISTORY)", told, re.M | re.S)
        piece = found[1] if found else ""
        for each in words:
            check(each in piece, f"explain of passes does not say `{each}` of the call at {place}:\n{piece}")
    data = (TOP / "examples/compute-pass.json").read_bytes()
    trace = explained.explain(places.Text(data, "S"), data, asked)[0].partition("\nTRACE")[2]
    for words in (
        "step 2   dispatch, operation 2, of the call at 25:5\n         uses parameters as constant\n         uses counts as storage\n",
        "barrier  counts: storage -> input\nbarrier  particles: clear -> storage\nstep 3   dispatch, operation 2, of the call at 28:5\n",
        "         reads and writes particles bytes 0 to 4095\n",
    ):
        check(words in trace, f"explain of compute-pass does not say `{words}`:\n{trace}")


DRAWN = """{"budget":1000,"phases":[[[
{"do":"createTexture","size":[1,1,1],"usage":20,"format":"r8unorm","as":"t"},{"do":"createView","texture":"t","as":"v"},
{"do":"createBuffer","size":16,"usage":32,"as":"b"},
{"do":"createBindGroupLayout","entries":[{"binding":0,"visibility":2,"kind":"texture"}],"as":"l"},
{"do":"createBindGroup","layout":"l","entries":[{"binding":0,"view":"v"}],"as":"g"},
{"do":"createPipelineLayout","layouts":[],"as":"ls"},
{"do":"createRenderPipeline","layout":"ls","buffers":[{"stride":8,"attributes":[]}],"targets":["r8unorm"],"as":"k"},
{"do":"createRenderPipeline","layout":"ls","targets":["r8unorm"],"samples":1,"depth":{"format":"stencil8"},"as":"other"},
{"do":"createEncoder","as":"e"},
{"do":"beginRenderPass","on":"e","colors":[{"view":"v","load":"clear","store":"store"}],"as":"p"},
{"do":"setPipeline","on":"p","pipeline":"k"},{"do":"setVertexBuffer","on":"p","slot":1,"buffer":"b"},
{"do":"draw","on":"p","vertices":1},{"do":"end","on":"p"},{"do":"finish","on":"e","as":"c"},
{"do":"createEncoder","as":"f"},{"do":"beginRenderPass","on":"f","colors":[{"view":"v","load":"load","store":"store"}],"as":"q"},
{"do":"setPipeline","on":"q","pipeline":"other"},{"do":"end","on":"q"},{"do":"finish","on":"f","as":"d"},
{"do":"createEncoder","as":"h"},{"do":"beginRenderPass","on":"h","colors":[{"view":"v","load":"load","store":"store"}],"as":"r"},
{"do":"setVertexBuffer","on":"r","slot":0,"buffer":"b"},{"do":"setVertexBuffer","on":"r","slot":0,"buffer":"b"},
{"do":"setBindGroup","on":"r","index":3,"group":"g"},
{"do":"end","on":"r"},{"do":"finish","on":"h","as":"i"},
{"do":"createEncoder","as":"j"},
{"do":"beginRenderPass","on":"j","colors":[null,{"view":"v","load":"load","store":"discard"}],"as":"s"},
{"do":"setVertexBuffer","on":"s","slot":7,"buffer":"b","offset":16},{"do":"end","on":"s"},{"do":"finish","on":"j","as":"m"},
{"do":"submit","buffers":["m"]},
{"do":"destroy","object":"t"},
{"do":"submit","buffers":["m"]}]]]}"""


def test_drawn():
    """What explain says of render passes: what is attached and set, also what was overwritten, and which call a step is of."""
    told = explained.explain(places.Text(DRAWN.encode(), "S"), DRAWN.encode(), asked)[0]
    wanted_words = {
        "S:12:59": [
            "breaks rule 350 ",
            "is number 4 of 5: S:12:1\n",
            "    set there, at S:11:1: ",
            "    set there, at S:11:46: ",
            "    k: createRenderPipeline at S:7:1\n    ls: createPipelineLayout at S:6:1\n",
        ],
        "S:14:72": ["breaks rule 320 ", "    attached there, at S:13:33: ", "    other: createRenderPipeline at S:8:1\n"],
        "S:18:23": [
            "breaks rule 184 ",
            "the command that makes the usage scope of its pass one that is not compatible is number 4 of 5: S:17:1\n",
            "    attached there, at S:15:33: ",
            "    set there, at S:16:1: ",
            "    set there, at S:16:57: ",
        ],
        "S:24:1": ["breaks rule 190 "],
    }
    for place, words in wanted_words.items():
        found = re.search(rf"^FAULT at entry \d+: {re.escape(place)}\n(.*?)(?=^FAULT at entry|^HISTORY)", told, re.M | re.S)
        piece = found[1] if found else ""
        for each in words:
            check(each in piece, f"explain of render passes does not say `{each}` of the call at {place}:\n{piece}")
    for words in (
        "renderPass, operation 1, of the call at 20:1\n         uses t color mip 0 layer 0 as attachment\n",
        "uses b as input\n         reads, and leaves unset, t color mip 0 layer 0\n",
    ):
        check(words in told, f"explain of render passes does not say `{words}`:\n{told.partition('TRACE')[2]}")


def test_bundled():
    """What explain says of render bundles: what a step uses through one, and of a fault what unset the pipeline, and to what a bundle
    draws."""
    data = (TOP / "examples/render-bundle.json").read_bytes()
    trace = explained.explain(places.Text(data, "S"), data, asked)[0].partition("\nTRACE")[2]
    for words in (
        "barrier  points: copy-dst -> input\nbarrier  colors: clear -> constant\nstep 2   renderPass, operation 2, of the call at 24:5\n",
        "step 3   renderPass, operation 2, of the call at 27:5\n",
        "         reads colors bytes 0 to 255\n\nrelease  the memory of colors\n",
    ):
        check(words in trace, f"explain of render-bundle does not say `{words}`:\n{trace}")
    data = (TOP / "examples/draw-after-a-bundle.json").read_bytes()
    told = explained.explain(places.Text(data, "S"), data, asked)[0]
    for words in (
        'no pipeline is set on "p" (15:5) where the draw comes: the executeBundles at 17:5 unset it. Set one again.\n',
        'depthReadOnly of "q" (22:5) is true, and that of "recorder" (10:5), of which "bundle" (13:5) was made, is false.',
        "    bundle: made by finishBundle at S:13:5, of ",
    ):
        check(words in told, f"explain of draw-after-a-bundle does not say `{words}`:\n{told}")


def test_queried():
    """What explain says of query sets: which queries a step touches, which call a step is of, and the release."""
    data = (TOP / "examples/occlusion-query.json").read_bytes()
    trace = explained.explain(places.Text(data, "S"), data, asked)[0].partition("\nTRACE")[2]
    for words in (
        "step 0   clear of fresh memory, operation 1\n         uses seen as clear\n         writes seen query 1\n",
        "barrier  seen: clear -> query-write\nstep 1   renderPass, operation 1, of the call at 12:5\n",
        "         writes seen query 0\n",
        "barrier  seen: query-write -> query-read\nstep 2   resolveQuerySet, operation 1, of the call at 18:5\n",
        "         reads seen queries 0 to 1\n         writes results bytes 0 to 15\n",
        "release  the memory of seen\n",
    ):
        check(words in trace, f"explain of occlusion-query does not say `{words}`:\n{trace}")
