"""Tests of the recorder of pages, and of what `judge` and `explain` say of recordings. The pages are in tests/record/pages.

usage: tests/record/run [--program PATH]      all tests
       tests/record/run --slowdown            how much the recorder slows a page of 10,000 calls, in Chromium
       tests/record/run --keep                records all pages in Chromium, and keeps that in tests/record/recordings
       tests/record/run --mistakes [PAGE ..]  records the samples with their mistakes in Chromium

Recordings are kept, so that `judge` is tested without a browser. Where node is installed, all pages are played by it under the recorder,
with a WebGPU that does nothing; where Chromium is installed, they are recorded and judged anew. What is not installed is skipped, and that
is said. Without --program the program is compiled without its proofs. Prints a line for each finding, and fails if there is one. """

import base64
import contextlib
import html
import json
import os
import pathlib
import re
import resource
import shutil
import subprocess
import sys
import tempfile
import time
import urllib.parse
import urllib.request

import by_chromium
import by_firefox

from wgsim import exit_status
from wgsim.matching import compared, fault_objects
from wgsim.program import program as programs
from wgsim.reading import places
from wgsim.recorder import browser, visit, whole_text

TOP = pathlib.Path(__file__).resolve().parents[2]
PARTS = pathlib.Path(__file__).resolve().parent
PAGES, KEPT = PARTS / "pages", PARTS / "recordings"


NODE = shutil.which("node") or shutil.which("nodejs")
# How long a page may take where the machine is busy, in seconds.
LONGEST = 300
# What a call of a script is in a page, where its words are not the same.
IN_PAGES = {
    "createEncoder": "createCommandEncoder",
    "createBundleEncoder": "createRenderBundleEncoder",
    "dispatch": "dispatchWorkgroups",
    "dispatchIndirect": "dispatchWorkgroupsIndirect",
    "finishBundle": "finish",
    "workDone": "onSubmittedWorkDone",
    "configureCanvas": "configure",
    "currentTexture": "getCurrentTexture",
    "lose": "destroy",
    "createComputePipeline": "createComputePipeline",
    "createRenderPipeline": "createRenderPipeline",
}
findings = []


def check(holds, what):
    if not holds:
        findings.append(what)


def wgsim(*words, status=0, data=b""):
    """Runs the tool, which has to end with a status, and returns what it wrote and said."""
    ran = subprocess.run([TOP / "wgsim", *map(str, words)], input=data, capture_output=True, cwd=TOP, timeout=600)
    check(
        ran.returncode == status and b"Traceback" not in ran.stderr,
        f"wgsim {' '.join(map(str, words))}: status {ran.returncode} and not {status}: {ran.stderr.decode()[-400:]}",
    )
    return ran.stdout.decode(), ran.stderr.decode()


def verdicts(folder, status):
    """What judge says of each recording of a folder: the verdict of the whole, and those of calls."""
    found = [json.loads(line) for line in wgsim("judge", "--json", folder, status=status)[0].splitlines()]
    return {one["script"]: one for one in found if "script" in one}


def brief(one):
    """The verdict of a recording and those of its calls, in a form that the next recording of the page has too."""
    told = one["recorded"]["told"] if one["recorded"]["refused"] is None else []
    rules = [re.search(r"rule (\d+)", each["core"]) for each in told]
    return [one["result"], *(f"{each['do']}: {each['verdict']}" + (f", rule {rule[1]}" if rule else "") for each, rule in zip(told, rules))]


EXPECTED = json.loads((PARTS / "expected.json").read_text(encoding="utf-8")) if (PARTS / "expected.json").exists() else {}


def test_tables():
    """Each thing that is left out has its words, and its row in the coverage; so has each difference that is known."""
    parts = "".join((whole_text.FOLDER / name).read_text(encoding="utf-8") for name in whole_text.PARTS)
    coverage = (TOP / "docs/coverage.md").read_text(encoding="utf-8")
    used = set(re.findall(r"new Outside\('([^']+)'", parts)) | set(re.findall(r"leave\('([^']+)'\)", parts))
    used |= set(re.findall(r"'[\w*]+\.\w+': '([^']+)'", parts)) | {"external texture", "canvas format"}
    for word in sorted(used - set(whole_text.OUTSIDE)):
        check(False, f"tools/wgsim/recorder/outside.json: {word} is missing, which the recorder notes")
    for word, row in whole_text.OUTSIDE.items():
        check(
            row["row"] is None or row["row"] in coverage,
            f"tools/wgsim/recorder/outside.json: {word}: docs/coverage.md has no row {row['row']}",
        )
    for row in compared.TABLE["known"]:
        check(row["row"] in coverage, f"tools/wgsim/recorder/known.json: docs/coverage.md has no row {row['row']}")
    recording = (TOP / "docs/recording.md").read_text(encoding="utf-8")
    grammar = [
        line[7:].strip() for line in (whole_text.FOLDER / "wgsl.js").read_text(encoding="utf-8").splitlines() if line.startswith("//     ")
    ]
    check(all(line in recording for line in grammar), "docs/recording.md does not show the grammar of tools/wgsim/recorder/wgsl.js")


def test_wgsl():
    """What is read off texts of shaders, and the places of what cannot be read."""
    cases = json.loads((PARTS / "wgsl.json").read_text(encoding="utf-8"))
    words = [NODE, PARTS / "wgsl.js", whole_text.FOLDER / "wgsl.js", PARTS / "wgsl.json"]
    ran = subprocess.run(words, capture_output=True, timeout=LONGEST)
    lines = ran.stdout.decode().splitlines()
    check(len(lines) == len(cases), f"tests/record/wgsl.js: {ran.stderr.decode()[-300:]}")
    for case, line in zip(cases, lines):
        check(json.loads(line) == case["wanted"], f"wgsl: {case['about']}: {line}, and {json.dumps(case['wanted'])} is wanted")


def calls_of(script):
    """The calls of a recorded script, without those that hang on when the device was done."""
    return [call for call in script["phases"][0][0] if call["do"] != "complete"]


def test_null(folder):
    """Under node each page gives the calls that are kept."""
    one_file = folder / whole_text.NAME
    one_file.write_text(wgsim("record", "--one-file")[0], encoding="utf-8")
    for page in sorted(PAGES.glob("*.html")):
        ran = subprocess.run([NODE, PARTS / "null.js", one_file, page], capture_output=True, timeout=LONGEST)
        check(ran.returncode == 0 and not ran.stderr, f"null: {page.name}: {ran.stderr.decode()[-400:]}")
        found = json.loads(ran.stdout or b'{"recordings": []}')["recordings"]
        for number, one in enumerate(found):
            kept = json.loads((KEPT / f"{page.stem}{f'-{number + 1}' if number else ''}.json").read_text(encoding="utf-8"))
            ours, theirs = calls_of(one["script"]), calls_of(kept)
            differ = next(
                (f"call {n}: {a} and {b}" for n, (a, b) in enumerate(zip(ours, theirs)) if a != b), f"{len(ours)} and {len(theirs)} calls"
            )
            check(ours == theirs, f"null: {page.name}: {differ} that are kept")
            check(len(one["calls"]) == len(one["script"]["phases"][0][0]), f"null: {page.name}: not a place for each call")
        check(
            len(found) == len(list(KEPT.glob(f"{page.stem}.json")) + list(KEPT.glob(f"{page.stem}-[0-9].json"))),
            f"null: {page.name}: {len(found)} devices",
        )


# What names a map in a script, and what stands there in its place: the map itself, one that is not there, and one that is none.
NAMED = "//# sourceMappingURL=page.js.map\n"
INLINE = "//# sourceMappingURL=data:application/json;base64,{}\n"


def places_differ(found, top):
    """The calls of a recording whose places are not those of their words in the files of a folder."""
    for call, told in zip(found["script"]["phases"][0][0], found["calls"]):
        if "at" in told and not told.get("implied"):
            file, line, column = re.match(r"([\w./-]+):(\d+):(\d+)", told["at"]).groups()
            stands = (top / file).read_text(encoding="utf-8").splitlines()[int(line) - 1][int(column) - 1 :]
            if not stands.startswith(IN_PAGES.get(call["do"], call["do"])):
                yield f"{call['do']} is said to be at {told['at']}, where `{stands[:40]}` stands"


def played(page, one_file):
    """What is recorded of a page under node."""
    ran = subprocess.run([NODE, PARTS / "null.js", one_file, page], capture_output=True, timeout=LONGEST)
    check(ran.returncode == 0 and not ran.stderr, f"null: {page}: {ran.stderr.decode()[-400:]}")
    return ran.stdout or b'{"form": 1, "page": "", "browser": "", "recordings": []}'


def places_found(page, one_file):
    """The places of a page's calls, recorded under node, saved beside the page and taken over, each with the word of its call."""
    one = visit.saved(played(page, one_file), str(page.parent / "bundled.recording.json"))["recordings"][0]
    calls = zip(one["script"]["phases"][0][0], one["calls"])
    return [(call["do"], told) for call, told in calls if "at" in told and not told.get("implied")]


def test_source_maps(folder):
    """Calls of a script that was put together are told by the lines of its sources, where a map beside it, or in it, tells them.

    `bundled/dist` is what esbuild 0.17 of Debian made: esbuild src/main.ts --bundle --minify --sourcemap --outfile=dist/page.js"""
    one_file, own = folder / whole_text.NAME, folder / "bundled"
    one_file.write_text(wgsim("record", "--one-file")[0], encoding="utf-8")
    shutil.copytree(PARTS / "bundled", own)
    script, page = own / "dist/page.js", own / "bundled.html"
    text, kept = script.read_text(encoding="utf-8"), json.loads((own / "dist/page.js.map").read_text(encoding="utf-8"))
    wanted = places_found(page, one_file)
    check(len(wanted) > 20, f"bundled: {len(wanted)} calls have a place")
    one = visit.saved(played(page, one_file), str(own / "bundled.recording.json"))["recordings"][0]
    for differs in places_differ(one, own):
        check(False, f"bundled: {differs}")
    for word, told in wanted:
        check(told["built"].startswith("dist/page.js:1:"), f"bundled: {word}: {told}")
    by = [told["by"] for word, told in wanted if word == "writeBuffer"]
    check(by == [["src/main.ts:9:19"]], f"bundled: the writeBuffer is called from {by}")
    sections = {"version": 3, "sections": [{"offset": {"line": 0, "column": 0}, "map": kept}]}
    inside = {**kept, "sources": ["src/frame.ts", "webpack://app/./src/main.ts"], "sourceRoot": ".."}
    for told, is_same in ((kept, True), (sections, True), (inside, True), ({**kept, "mappings": "MAAA,!"}, False), ([], False)):
        data = base64.b64encode(json.dumps(told).encode()).decode()
        script.write_text(text.replace(NAMED, INLINE.format(data)), encoding="utf-8")
        found = places_found(page, one_file)
        same = [told for _, told in found] == [told for _, told in wanted]
        check(same == is_same and (is_same or "built" not in found[0][1]), f"bundled: with a map in the script: {found[:2]}")
    with visit.served(str(page)) as address:
        has = visit.at_address(address)
        check(has("dist/page.js") == script.read_bytes(), "bundled: a script of a server on this machine is not had")
        check(has("none.js") is None and has("http://192.0.2.1/page.js") is None, "bundled: what is not there, or elsewhere, is had")
    for name in ("none.map", "../../../outside.map", "http://192.0.2.1/page.js.map"):
        script.write_text(text.replace("page.js.map", name), encoding="utf-8")
        found = places_found(page, one_file)
        check(all(told["at"].startswith("dist/page.js:1:") for _, told in found), f"bundled: with the map {name}: {found[:2]}")


# A worker that knows nothing of the recorder, in one line.
WORKER = (
    "'use strict'; onmessage = async ({ data }) => { if (!data.size) return; const device = await (await navigator.gpu.requestAdapter())"
    ".requestDevice(), buffer = device.createBuffer({ size: data.size, usage: GPUBufferUsage.COPY_DST });"
    " device.queue.writeBuffer(buffer, 0, new Float32Array(16)); postMessage('done'); };\n"
)


def test_workers(folder):
    """What workers do is recorded beside the page, each device as a script of its own: of a worker that takes the recorder in by itself,
    and of one before which the tool's server puts it."""
    one_file, own = folder / whole_text.NAME, folder / "workers"
    one_file.write_text(wgsim("record", "--one-file")[0], encoding="utf-8")
    shutil.copytree(PARTS / "workers", own)
    page, path = own / "workers.html", own / "src/served.js"
    path.write_text(WORKER, encoding="utf-8")
    with visit.served(str(page)) as address:
        asked = urllib.request.Request(urllib.parse.urljoin(address, "src/served.js"))
        check(urllib.request.urlopen(asked).read().decode() == WORKER, "workers: a script that no worker asks for is another")
        asked.add_header("Sec-Fetch-Dest", "worker")
        served = urllib.request.urlopen(asked).read().decode()
    check(served.startswith("'use strict';") and served.endswith(WORKER) and served.count("\n") == 1, f"workers: {served[:200]}")
    text = page.read_text(encoding="utf-8")
    for name in ("src/sum.js", "src/served.js"):
        page.write_text(text.replace("src/sum.js", name), encoding="utf-8")
        path.write_text(served, encoding="utf-8")
        found = json.loads(played(page, one_file))["recordings"]
        path.write_text(WORKER, encoding="utf-8")
        shutil.copy(page, own / "null.html")
        calls = [[call["do"] for call in calls_of(one["script"])] for one in found]
        check(calls[1:] == [["createBuffer", "writeBuffer"]] * 2 and len(calls[0]) > 10, f"workers: {name}: {calls}")
        for differs in (differs for one in found for differs in places_differ(one, own)):
            check(False, f"workers: {name}: {differs}")
        sizes = [one["script"]["phases"][0][0][0].get("size") for one in found]
        check(sorted(sizes[1:]) == [16, 64], f"workers: {name}: buffers of {sizes}")


IMAGE = """<script type="module">
const device = await (await navigator.gpu.requestAdapter()).requestDevice();
const texture = device.createTexture({ size: [8, 8], format: 'rgba8unorm', usage: GPUTextureUsage.TEXTURE_BINDING });
device.queue.copyExternalImageToTexture({ source: {} }, { texture }, [8, 8]);
</script>"""


def test_stand_ins(folder):
    """A copy of an image is told by its own name, and not as the writeTexture that stands for it."""
    one_file, page = folder / whole_text.NAME, folder / "null.html"
    one_file.write_text(wgsim("record", "--one-file")[0], encoding="utf-8")
    page.write_text(IMAGE, encoding="utf-8")
    saved = folder / "null.recording.json"
    saved.write_bytes(played(page, one_file))
    wgsim("record", "--saved", "--out", folder / "out", saved)
    told = wgsim("judge", folder / "out", status=1)[0]
    check("null.html:4:14: copyExternalImageToTexture: core refuses it by rule 205" in told, f"judge of an image: {told}")
    told = wgsim("explain", folder / "out/null.json")[0]
    words = "call 1, in the page: null.html:4:14: copyExternalImageToTexture, for which this writeTexture stands\n"
    check(words in told, f"explain of an image: {told}")


# A page whose objects have labels, each with what a script may have of it.
LABELS = """<script type="module">
const device = await (await navigator.gpu.requestAdapter()).requestDevice({{ label: 'device' }});
const buffer = label => device.createBuffer({{ size: 16, usage: 24, label }});
for (const label of [{labels}]) buffer(label);
const texture = device.createTexture({{ size: [4, 4], format: 'rgba8unorm', usage: 16, label: 'texture' }});
const view = texture.createView({{ label: 'view' }});
device.createSampler({{ label: 'sampler' }});
const layout = device.createBindGroupLayout({{ entries: [], label: 'layout' }});
const layouts = device.createPipelineLayout({{ bindGroupLayouts: [layout], label: 'layouts' }});
const module = device.createShaderModule({{ code: '@compute @workgroup_size(1) fn main() {{}} @vertex fn vs() -> @builtin(position) vec4f '
  + '{{ return vec4f(); }} @fragment fn fs() -> @location(0) vec4f {{ return vec4f(); }}', label: 'module' }});
const drawing = {{ layout, vertex: {{ module }}, fragment: {{ module, targets: [{{ format: 'rgba8unorm' }}] }} }};
const compute = device.createComputePipeline({{ layout: layouts, compute: {{ module }}, label: 'compute' }});
const render = await device.createRenderPipelineAsync({{ ...drawing, layout: 'auto', label: 'render' }});
const group = device.createBindGroup({{ layout: compute.getBindGroupLayout(0), entries: [], label: 'group' }});
device.createQuerySet({{ type: 'occlusion', count: 1, label: 'queries' }});
const bundler = device.createRenderBundleEncoder({{ colorFormats: ['rgba8unorm'], label: 'bundler' }});
const bundle = bundler.finish({{ label: 'bundle' }}), encoder = device.createCommandEncoder({{ label: 'encoder' }});
encoder.beginComputePass({{ label: 'computing' }}).end();
const colors = [{{ view, loadOp: 'clear', storeOp: 'store' }}];
const pass = encoder.beginRenderPass({{ colorAttachments: colors, label: 'drawing' }});
pass.pushDebugGroup('one\\ntwo');
pass.setIndexBuffer(buffer(), 'uint16');
for (const base of [undefined, 0, 5, -1, -2147483648, 2147483647]) pass.drawIndexed(3, 1, 0, base, 7);
pass.popDebugGroup();
pass.end();
encoder.finish({{ label: 'commands' }});
device.createCommandEncoder();
</script>"""
# What a label is in JavaScript, and what it is in a script; None where it says nothing.
SAID = [
    ("undefined", None), ("''", None), ("null", "null"), ("7", "7"), ("'shadow map'", "shadow map"), ("'a\\tb\\u007fc'", "a b c"),
    ("'\\u0000'", " "), ("'a'.repeat(256)", "a" * 256), ("'a'.repeat(300)", "a" * 256), ("'\u00e9'.repeat(200)", "\u00e9" * 128),
    ("'a' + '\u00e9'.repeat(200)", "a" + "\u00e9" * 127), ("'\u20ac'.repeat(90)", "\u20ac" * 85),
    ("'\\u{1f600}'.repeat(65)", "\U0001f600" * 64), ("'ab' + '\\u{1f600}'.repeat(64)", "ab" + "\U0001f600" * 63),
    ("'\\ud83d!'", "\ufffd!"), ("'\\n'.repeat(300)", " " * 256), ("'\\u0080'", "\u0080"), ("'\"\\\\'", '"\\'),
]


def test_labels(folder):
    """The labels of a page stand in its calls as a script may have them, and a base vertex below 0 modulo 2^32; the script is taken."""
    one_file, page, saved = folder / whole_text.NAME, folder / "null.html", folder / "null.recording.json"
    one_file.write_text(wgsim("record", "--one-file")[0], encoding="utf-8")
    page.write_text(LABELS.format(labels=", ".join(given for given, _ in SAID)), encoding="utf-8")
    saved.write_bytes(played(page, one_file))
    wgsim("record", "--saved", "--out", folder / "out", saved)
    script = folder / "out/null.json"
    calls = calls_of(json.loads(script.read_text(encoding="utf-8")))
    said = [call.get("label") for call in calls if call["do"] == "createBuffer"]
    check(said == [label for _, label in SAID] + [None], f"labels: {said}")
    others = [(call["do"], call["label"]) for call in calls if "label" in call and call["do"] != "createBuffer"]
    wanted = [
        ("createTexture", "texture"), ("createView", "view"), ("createSampler", "sampler"), ("createBindGroupLayout", "layout"),
        ("createPipelineLayout", "layouts"), ("createComputePipeline", "compute"), ("createRenderPipeline", "render"),
        ("createBindGroup", "group"), ("createQuerySet", "queries"), ("createBundleEncoder", "bundler"), ("finishBundle", "bundle"),
        ("createEncoder", "encoder"), ("beginComputePass", "computing"), ("beginRenderPass", "drawing"), ("pushDebugGroup", "one two"),
        ("finish", "commands"),
    ]
    check(others == wanted, f"labels: {others}")
    drawn = [call.get("baseVertex") for call in calls if call["do"] == "drawIndexed"]
    check(drawn == [None, 0, 5, 2**32 - 1, 2**31, 2**31 - 1], f"base vertices: {drawn}")
    check("left out" not in wgsim("judge", folder / "out", status=1)[0], "judge says that labels or base vertices are left out")
    told = wgsim("explain", script)[0]
    words = 'no pipeline is set on "p1" "drawing" ('
    check(words in told, f"explain of a page with labels does not say `{words}`: {told[:2000]}")


def test_mistakes(folder):
    """Ten samples make no fault; with a mistake, each of the table, `explain` tells its rule and its cause, at the line of the page that
    makes the call."""
    one_file, asked = folder / whole_text.NAME, programs.Program(False)
    one_file.write_text(wgsim("record", "--one-file")[0], encoding="utf-8")
    texts = {path.stem: path.read_text(encoding="utf-8") for path in sorted((PARTS / "samples").glob("*.html"))}
    right = [{"page": name, "was": "", "is": ""} for name in texts]
    table = json.loads((PARTS / "samples/mistakes.json").read_text(encoding="utf-8"))
    counts = {name: sum(row["page"] == name for row in table) for name in texts}
    recording = (TOP / "docs/recording.md").read_text(encoding="utf-8")
    for name, many in counts.items():
        told = re.search(rf"^\| `{name}`: .* \| {many} \| {many} \|$", recording, re.M)
        check(told is not None, f"docs/recording.md does not tell that {name} has {many} mistakes")
    for row in right + table:
        sample, page = texts[row["page"]], folder / "null.html"
        check(sample.count(row["was"]) == 1 or not row["was"], f"samples: {row['page']} has not {row['was']!r} once")
        page.write_text(sample.replace(row["was"], row["is"]) if row["was"] else sample, encoding="utf-8")
        ((path, _),) = visit.write(visit.saved(played(page, one_file), str(folder / "null.recording.json")), "null", str(folder / "out"))
        text, data = places.Text(path.read_bytes(), str(path)), path.read_bytes()
        faults = [one for one in fault_objects.listed(text, data, asked)[0] if one["kind"] == "fault"]
        if "rule" not in row:
            check(not faults, f"samples: {row['page']} has faults: {faults[:1]}")
            continue
        found = faults[0] if faults else {"rule": None, "condition": "", "page": ":0:"}
        place = found.get("commandPage") or found["page"]
        line = page.read_text(encoding="utf-8").splitlines()[int(place.split(":")[1]) - 1]
        is_told = found["rule"] == row["rule"] and row["says"] in found["condition"] and row["call"] in line and found["remedy"]
        check(is_told, f"samples: {row['page']} with {row['is']!r} for {row['was']!r}: {found}, at `{line}`")


SILENT = """<script type="module">
const device = await (await navigator.gpu.requestAdapter()).requestDevice();
device.createBuffer({ size: 16, usage: GPUBufferUsage.COPY_DST });
globalThis.silent = true;
device.createBuffer({ size: 16, usage: 0 });
</script>"""


def test_unanswered(folder):
    """A call to which the browser had no answer when the recording ended is told as such, and not as one that it takes."""
    one_file, page, saved = folder / whole_text.NAME, folder / "null.html", folder / "null.recording.json"
    one_file.write_text(wgsim("record", "--one-file")[0], encoding="utf-8")
    page.write_text(SILENT, encoding="utf-8")
    saved.write_bytes(played(page, one_file))
    told = wgsim("record", "--saved", "--out", folder / "out", saved)[0]
    check("to 1 of them the browser had no answer when it ended" in told, f"record of a browser that does not answer: {told}")
    told = wgsim("judge", folder / "out")[0]
    for words in ("null.json: outside (", "browser does not answer (the browser had not answered when the recording ended)"):
        check(words in told, f"judge of a browser that does not answer does not say `{words}`: {told}")


# Pages that present one frame and go on, each with how many frames are asked for, and why its recording has to end.
FRAMES = [
    ("context.configure({ device, format: 'rgba8unorm' }); context.getCurrentTexture();", 3, "3 frames"),
    ("globalThis.refused = 'no';", 99, "the same error came in 10 frames: no"),
]
DRAWING = """<script type="module">
const device = await (await navigator.gpu.requestAdapter()).requestDevice();
const context = document.querySelectorAll('canvas')[0].getContext('webgpu');
{}
const frame = () => {{ device.queue.submit([device.createCommandEncoder().finish()]); requestAnimationFrame(frame); }};
requestAnimationFrame(frame);
</script>"""


def test_frames(folder):
    """Updates of a page count where nothing is presented, and one error in ten of them ends the recording."""
    one_file, page = folder / whole_text.NAME, folder / "frames.html"
    one_file.write_text(wgsim("record", "--one-file")[0], encoding="utf-8")
    for text, frames, why in FRAMES:
        page.write_text(DRAWING.format(text), encoding="utf-8")
        ran = subprocess.run([NODE, PARTS / "null.js", one_file, page, str(frames)], capture_output=True, timeout=LONGEST)
        found = json.loads(ran.stdout or b'{"recordings": []}')["recordings"]
        check([one["ended"]["why"] for one in found] == [why], f"null: {text}: {found[:1]}: {ran.stderr.decode()[-400:]}")


def test_judged():
    """The recordings that are kept have the verdicts that are expected, as docs/coverage.md says."""
    found = verdicts(KEPT, 0)
    check(sorted(found) == sorted(EXPECTED), f"judge: {sorted(found)} are judged")
    for name, one in found.items():
        check(brief(one) == EXPECTED.get(name), f"judge: {name}: {brief(one)}, and {EXPECTED.get(name)} is wanted")
    text = wgsim("judge", KEPT)[0]
    for words in (
        "textures.json: agrees (", "late.json: differs as known (", 'docs/coverage.md, "When rule 14 is told"', "outside.json: outside (",
        "(it used view formats of a texture)",
        "createComputePipeline is not in the script: the number A + 1 of a group or a binding, at 2:20 of the text of the shader",
        "left out, since no script says it: ", "the browser refuses a shader: ", "outside before call ",
        "no script has it: an object of another device", "agrees at call ",
        "outside at call 28, outside.html:37:34 in frame, the first of 3 times: finish: ",
        "        @compute @workgroup_size(1) fn main() { let a: i32 = 1.5; }\n",
    ):
        check(words in text, f"judge does not say `{words}`")


def test_places():
    """The place of each call is that of its word in the page, and `explain` names those of the faults."""
    for page in sorted(KEPT.glob("*.calls.json")):
        name = page.name.replace(".calls.json", "")
        script = json.loads((KEPT / f"{name}.json").read_text(encoding="utf-8"))["phases"][0][0]
        for number, (call, place) in enumerate(zip(script, json.loads(page.read_text(encoding="utf-8"))["calls"])):
            if "at" in place and not place.get("implied"):
                file, line, column = re.match(r"([\w.-]+):(\d+):(\d+)", place["at"]).groups()
                found = (PAGES / file).read_text(encoding="utf-8").splitlines()[int(line) - 1][int(column) - 1 :]
                check(
                    found.startswith(IN_PAGES.get(call["do"], call["do"])),
                    f"{name}: call {number}, {call['do']}, is said to be at {place['at']}, where `{found[:40]}` stands",
                )
    for name, told in (
        ("resize", "resize.html:21:32 in frame"),
        ("resize", "resize.html:15:24 in frame"),
        ("resize", 'Make the texture of "v3" anew with the width of the canvas, whenever that changes its size.'),
        ("scopes", 'in the page "b2" comes from scopes.html:14:33'),
    ):
        check(told in wgsim("explain", KEPT / f"{name}.json")[0], f"explain of {name}: {told} is not told")
    check("call 26, in the page: " in wgsim("explain", KEPT / "resize.json")[0], "explain does not number calls as judge does")
    faults = [one for one in json.loads(wgsim("explain", "--json", KEPT / "resize.json")[0]) if one["kind"] == "fault"]
    check(
        [(one["page"], one["commandPage"]) for one in faults[:1]] == [("resize.html:21:32 in frame", "resize.html:15:24 in frame")],
        f"explain --json of resize: {faults[:1]}",
    )


def test_browser_errors():
    """`explain` tells the errors that the browser alone made, a shader that it refuses first, with its words and why no rule is broken."""
    text = wgsim("explain", KEPT / "outside.json", status=1)[0]
    words = (
        "the browser made 9 errors where no rule of this core is broken\n\nBROWSER'S ERROR before call 8: createShaderModule\n",
        "    in the page: outside.html:18:23\n    the browser (validation): Error while parsing WGSL: :1:54 error: cannot convert value",
        "no rule of this core is broken: it does not look into shaders. ",
        f"BROWSER'S ERROR at call 7: {KEPT}/outside.json:9:1\n",
        "    the browser (validation, uncaptured): The texture view format (TextureFormat::R8Unorm) is not texture view format compatible",
        (
            "    no rule of this core is broken: it used view formats of a texture, and that may be why. Look at that there: the"
            " browser's words say what it wants.\n"
        ),
        "follows from an earlier error: call 9: ",
        "follows from an earlier error: call 29: ",
    )
    for each in words:
        check(each in text, f"explain of outside does not say `{each}`")
    found = [one for one in json.loads(wgsim("explain", "--json", KEPT / "outside.json", status=1)[0]) if one["kind"] == "browser"]
    check(
        (len(found), found[0]["do"], found[1]["number"], found[1]["call"], found[1]["page"], found[2]["follows"])
        == (9, "createShaderModule", 7, "9:1", "outside.html:17:8", True),
        f"explain --json of outside: {found[:3]}",
    )
    check("the browser made" not in wgsim("explain", KEPT / "late.json")[0], "explain tells an error of the browser that a rule tells")
    again = "this is the first of 3 times at this place of the page"
    heads = re.findall(r"^(?:FAULT|BROWSER'S ERROR) .*", text, re.M)
    check(
        text.count(again) == 2 and f"{again}; it comes again at entries 33, 47\n" in text and len(heads) == 4,
        f"explain of outside does not tell once what comes in each frame: {heads}",
    )


def test_passed_errors(folder):
    """An error of a call that the script does not have is told, and where it only follows from another, in short."""
    for kept in KEPT.glob("outside.*"):
        (folder / kept.name).write_bytes(kept.read_bytes())
    path = folder / "outside.answers.json"
    answers = json.loads(path.read_text(encoding="utf-8"))
    passed = {"before": 20, "outside": "shader text", "detail": "no text", "at": "outside.html:25:1"}
    passed.update(error="validation", caught="uncaptured")
    for word, message in (
        ("createRenderPipeline", "No such thing."),
        ("getBindGroupLayout", "[Invalid RenderPipeline (unlabeled)] is invalid due to a previous error."),
        ("createBindGroup", "BindGroupLayout with '' label is invalid"),
    ):
        answers["passed"].append({**passed, "do": word, "message": message})
    path.write_text(json.dumps(answers), encoding="utf-8")
    text = wgsim("explain", folder / "outside.json", status=1)[0]
    for words in (
        "BROWSER'S ERROR before call 20: createRenderPipeline\n",
        "follows from an earlier error: call 20: getBindGroupLayout: the browser: [Invalid RenderPipeline",
        "follows from an earlier error: call 20: createBindGroup: the browser: BindGroupLayout with",
    ):
        check(words in text, f"explain of errors of calls that no script has does not say `{words}`:\n{text[:3000]}")


# Words of the pictures of recordings: faults by the lines of the page, what only follows, and the browser's own errors.
PICTURED = {
    "resize": (
        "Fault at resize.html:21:32 in frame (line 28 of the script): finish breaks rule 305",
        'in the page "v3" comes from resize.html:17:43 in frame',
        "is number 1 of 4, at resize.html:15:24 in frame (line 24 of the script):",
        "<li class='follows'><p>resize.html:21:16 in frame (line 29 of the script): submit only follows from resize.html:21:32 in frame",
        "<small>operation 1</small><small>resize.html:15:24 in frame</small>",
    ),
    "outside": (
        "The browser made 9 errors where no rule of this core is broken.",
        "Browser's error at outside.html:18:23: createShaderModule",
        "this is the first of 3 times at this place of the page; it comes again at entries 33, 47",
        "Browser's error at outside.html:37:34 in frame (line 30 of the script): finish</b> <small>the first of 3 times</small>",
        "outside.html:19:8 (line 11 of the script): createComputePipeline only follows: the browser",
    ),
}
# What a picture of a page of three frames may take of a slow and busy processor, in seconds: it takes one or two.
SOON = 60


def test_pictures():
    """Pictures of recordings tell faults and errors by the page's lines, and are there soon."""
    for name, words in PICTURED.items():
        before = resource.getrusage(resource.RUSAGE_CHILDREN)
        page = html.unescape(wgsim("picture", KEPT / f"{name}.json")[0])
        after = resource.getrusage(resource.RUSAGE_CHILDREN)
        took = after.ru_utime + after.ru_stime - before.ru_utime - before.ru_stime
        check(took < SOON, f"picture of {name}: it takes {took:.1f} seconds of a processor")
        for each in words:
            check(each in page, f"picture of {name}: `{each}` is not told")
        heads = [page.find("Browser's error at outside.html:18:23"), page.find("<b>Fault at"), page.find("class='legend'")]
        is_first = heads[1] < heads[2] and (name != "outside" or heads[0] < heads[1])
        check(is_first, f"picture of {name}: what comes first is not first: {heads}")


# What a browser may say at a call of a recording that used something that no script says, and what `judge` then tells: the call, what was
# left out, the browser's words, the verdict and the reason.
EXCUSED = [
    (
        "createRenderPipeline",
        ["setImmediates", "primitive.unclippedDepth"],
        "The depth clip control is not allowed.",
        "outside",
        "it used depth that is not clipped",
    ),
    (
        "createRenderPipeline",
        ["setImmediates", "shader"],
        "[Invalid ShaderModule (unlabeled)] is invalid due to a previous error.",
        "outside",
        "it used a shader that the browser refuses",
    ),
    ("createRenderPipeline", ["primitive.unclippedDepth"], "Color format of target 0 is wrong.", "differs", None),
    ("createRenderPipeline", ["setImmediates"], "The immediate data size (80) exceeds the maximum (64).", "differs", None),
    (
        "createRenderPipeline",
        [],
        "Vertex attribute slot 1 used in the shader is not present in the VertexState.",
        "outside",
        "it is about the vertex inputs that the interface of the shader has, at which this core does not look",
    ),
    ("finish", ["setImmediates", "format", "writeTimestamp"], "The immediate data exceeds it.", "outside", "it used immediate data"),
    ("finish", ["setImmediates", "format"], "No bind group set.", "outside", "it used a format of textures that a script does not have"),
]


def test_excused(folder):
    """What was left out excuses an error of the browser alone where it can be why, and nothing else does."""
    for kept in KEPT.glob("bundles.*"):
        (folder / kept.name).write_bytes(kept.read_bytes())
    path = folder / "bundles.answers.json"
    answers = json.loads(path.read_text(encoding="utf-8"))
    calls = json.loads((folder / "bundles.json").read_text(encoding="utf-8"))["phases"][0][0]
    at = {word: next(n for n, call in enumerate(calls) if call["do"] == word) for word in ("createRenderPipeline", "finish")}
    for word, left, message, verdict, why in EXCUSED:
        told = {"call": at[word], "do": word, "error": "validation", "caught": "uncaptured", "message": message, "left": left}
        others = [answer for answer in answers["answers"] if answer["call"] != at[word]]
        path.write_text(json.dumps({**answers, "answers": [*others, told]}), encoding="utf-8")
        judged = verdicts(folder, int(verdict == "differs"))["bundles.json"]["recorded"]["told"]
        found = next(one for one in judged if one["call"] == at[word])
        check((found["verdict"], found["why"]) == (verdict, why), f"judge of {message} beside {left}: {found}")


# Changes of what a browser answered, each with what judge then says: the recording, what is done to an answer, the words.
CHANGED = [
    (
        "queries",
        lambda answer: answer.pop("error", None) and answer.pop("message"),
        "differs at call {call}, {at}: {do}: core refuses it by rule ",
    ),
    (
        "scopes",
        lambda answer: answer.update(caught="scope 1") if answer.get("caught") == "scope 0" else None,
        "scope 0); browser refuses it (validation, scope 1)",
    ),
    (
        "loss",
        lambda answer: answer.update(settle="mapped") if answer.get("settle") == "aborted" else None,
        "core settles aborted; browser settles mapped",
    ),
    (
        "textures",
        lambda answer: answer.update(error="internal") if "error" in answer else None,
        "; browser refuses it (internal, uncaptured)",
    ),
]


def test_changed(folder):
    """A recording whose browser answered otherwise differs, at the call and at its place in the page."""
    for number, (name, change, words) in enumerate(CHANGED):
        out = folder / str(number)
        out.mkdir()
        for kept in KEPT.glob(f"{name}.*"):
            (out / kept.name).write_bytes(kept.read_bytes())
        answers = json.loads((out / f"{name}.answers.json").read_text(encoding="utf-8"))
        before = [dict(answer) for answer in answers["answers"]]
        for answer in answers["answers"]:
            change(answer)
        at = next(n for n, answer in enumerate(answers["answers"]) if answer != before[n])
        places = json.loads((out / f"{name}.calls.json").read_text(encoding="utf-8"))["calls"]
        (out / f"{name}.answers.json").write_text(json.dumps(answers), encoding="utf-8")
        told = wgsim("judge", out, status=1)[0]
        wanted = words.format(**before[at], at=places[before[at]["call"]].get("at"))
        check(told.startswith(f"{name}.json: differs (") and wanted in told, f"judge of a changed {name} does not say `{wanted}`:\n{told}")
    # One that takes what the program refuses, and one that refuses what it takes.
    out = folder / "0"
    answers = json.loads((out / "queries.answers.json").read_text(encoding="utf-8"))
    answers["answers"] = [{"call": 0, "do": "createTexture", "error": "validation", "message": "no", "caught": "uncaptured"}]
    (out / "queries.answers.json").write_text(json.dumps(answers), encoding="utf-8")
    told = wgsim("judge", out, status=1)[0]
    check(
        "differs at call 0, queries.html:" in told and "core takes it; browser refuses it (validation, uncaptured): no" in told,
        f"judge of a changed queries:\n{told}",
    )


def test_saved(folder):
    """What was saved by hand gives the same folder; words that do not go together are refused, and so are pages of other machines."""
    out = folder / "out"
    kept = {suffix: json.loads((KEPT / f"canvases{suffix}.json").read_text(encoding="utf-8")) for suffix in ("", ".answers", ".calls")}
    one = {
        **{key: value for key, value in kept[".answers"].items() if key not in ("form", "page", "browser", "elsewhere", "said")},
        "script": kept[""],
        "calls": kept[".calls"]["calls"],
    }
    saved = folder / "canvases.recording.json"
    saved.write_text(
        json.dumps({"form": 1, "page": "canvases.html", "browser": kept[".answers"]["browser"], "recordings": [one]}), encoding="utf-8"
    )
    wgsim("record", "--saved", "--out", out, saved)
    for suffix in kept:
        check(
            (out / f"canvases{suffix}.json").read_bytes() == (KEPT / f"canvases{suffix}.json").read_bytes(),
            f"record --saved: canvases{suffix}.json is another",
        )
    for status, *words in (
        (2, "record"),
        (2, "record", "a.html", "b.html"),
        (2, "record", "--one-file", "a.html"),
        (2, "record", "--saved", "--frames", "3", saved),
        (2, "record", "--frames", "0", "a.html"),
        (2, "record", "http://192.0.2.1/a.html"),
        (4, "record", folder / "none.html"),
        (4, "record", "--saved", KEPT / "canvases.json"),
        (4, "record", "--browser", "no-such-browser", PAGES / "late.html"),
    ):
        wgsim(*words, status=status)
    text = wgsim("record", "--one-file")[0]
    check(
        'src="wgsim-record.js"' in text and "wgsimRecord" in text and not re.search(r"https?://", text),
        "record --one-file is not what it should be, or names an address",
    )


def test_no_browser():
    """Where no browser is found, it is said how one is installed."""
    names, browser.NAMES = browser.NAMES, ("no-such-browser",)
    try:
        visit.recorded(str(PAGES / "late.html"), None)
        check(False, "record by no browser ends well")
    except exit_status.End as end:
        is_said = "no-such-browser is installed: on Debian `sudo apt-get install chromium` installs one" in end.why
        check(end.status == exit_status.UNREAD and is_said, f"record by no browser: {end.status}: {end.why}")
    finally:
        browser.NAMES = names


def test_told_first(folder):
    """What the page threw is told whole; a buffer that is smaller than what a shader reads comes before a write past its end."""
    for kept in KEPT.glob("compute.*"):
        (folder / kept.name).write_bytes(kept.read_bytes())
    path = folder / "compute.answers.json"
    answers = json.loads(path.read_text(encoding="utf-8"))
    calls = json.loads((folder / "compute.json").read_text(encoding="utf-8"))["phases"][0][0]
    at = next(n for n, call in enumerate(calls) if call["do"] == "createBindGroup")
    message = "Binding size (16) of [Buffer (unlabeled)] is smaller than the minimum binding size (64)."
    told = {"call": at, "do": "createBindGroup", "error": "validation", "caught": "uncaptured", "message": message}
    notes = [{"before": at, "page": "Error: it failed\nhere\nand there"}]
    path.write_text(json.dumps({**answers, "answers": [*answers["answers"], told], "notes": notes}), encoding="utf-8")
    text = wgsim("judge", folder)[0]
    check(": Error: it failed\n        here\n        and there\n" in text, f"judge does not tell the whole of what the page threw:\n{text}")
    first = text.split("\n")[1]
    check(message in first and first.startswith("    differs as known at call"), f"judge does not tell the small buffer first:\n{text}")
    text = wgsim("explain", folder / "compute.json", status=1)[0]
    places = [text.find(message), text.find("\nFAULT at entry ")]
    check(0 < places[0] < places[1], f"explain does not tell the small buffer first:\n{text[:2000]}")


def test_browser(folder):
    """Each page, recorded in Chromium, has the verdicts that are expected; so has one by its address; and nothing goes elsewhere."""
    out = folder / "out"
    for page in sorted(PAGES.glob("*.html")):
        wgsim("record", "--seconds", LONGEST, "--out", out, page)
    found = verdicts(out, 0)
    check(sorted(found) == sorted(EXPECTED), f"recorded: {sorted(found)}")
    for name, one in found.items():
        check(brief(one) == EXPECTED.get(name), f"recorded: {name}: {brief(one)}, and {EXPECTED.get(name)} is wanted")
    with visit.served(str(PAGES / "late.html")) as address:
        told = wgsim("record", "--out", folder / "address", address)[0]
    check("late.json: " in told and (folder / "address/late.json").exists(), f"record of an address: {told}")
    page = folder / "elsewhere.html"
    page.write_text(
        (
            "<script src='http://192.0.2.1/three.js'></script><script>fetch('http://example.org/x'); navigator.gpu.requestAdapter().then(a"
            " => a.requestDevice()).then(d => d.createSampler());</script>"
        ),
        encoding="utf-8",
    )
    told = wgsim("record", "--out", folder, page)[0]
    for address in ("http://192.0.2.1/three.js", "http://example.org/x"):
        check(
            f"the page asked for {address}, which is not of this machine, and did not get it" in told,
            f"record of a page that asks for {address}: {told}",
        )
    page.write_text("<p>nothing", encoding="utf-8")
    told = wgsim("record", "--seconds", 1, "--out", folder, page, status=1)[0]
    check("nothing was recorded" in told, f"record of a page without WebGPU: {told}")


def took(path, text):
    """The milliseconds that the page of 10,000 calls takes in a browser, with a text before its scripts."""
    with tempfile.TemporaryDirectory(prefix="slowdown-", ignore_cleanup_errors=True) as folder, visit.served(
        str(PARTS / "slowdown.html")
    ) as address, browser.opened(path, f"{folder}/profile") as browsing:
        target = browsing.ask("Target.createTarget", url="about:blank")["targetId"]
        session = browsing.ask("Target.attachToTarget", targetId=target, flatten=True)["sessionId"]
        browsing.ask("Page.enable", session)
        browsing.ask("Performance.enable", session, timeDomain="threadTicks")
        browsing.ask("Page.addScriptToEvaluateOnNewDocument", session, source=text)
        browsing.ask("Page.navigate", session, url=address)
        for _ in range(LONGEST):
            value = browsing.ask("Runtime.evaluate", session, expression="globalThis.took", returnByValue=True)["result"].get("value")
            if value:
                metrics = {one["name"]: one["value"] for one in browsing.ask("Performance.getMetrics", session)["metrics"]}
                return {**value, "processor": metrics["TaskDuration"] * 1000}
            time.sleep(1)
    raise browser.Gone("the page told nothing")


def slowdown(path):
    """Prints the least of some runs, with the recorder and without: of the calls, and the processor time of the whole page's thread."""
    runs = {
        name: [took(path, text) for _ in range(5)]
        for name, text in (("without the recorder", ""), ("with it", whole_text.text({"frames": 10**9})))
    }
    for name, found in runs.items():
        calls, whole, processor = (min(one[key] for one in found) for key in ("calls", "all", "processor"))
        print(
            f"10,000 calls {name}: {calls:.0f} ms, {whole:.0f} ms up to when the device had done them; the page's thread took"
            f" {processor:.0f} ms of a processor in all"
        )
    print(f"processors: {os.cpu_count()}, load: {os.getloadavg()[0]:.1f}")


def keep(path):
    """Records all pages, and keeps the recordings."""
    shutil.rmtree(KEPT, ignore_errors=True)
    for page in sorted(PAGES.glob("*.html")):
        print(wgsim("record", "--seconds", LONGEST, "--browser", path, "--out", KEPT, page)[0], end="")


def main():
    words, path = sys.argv[1:], browser.found(None)
    if words[:1] == ["--mistakes"]:
        with tempfile.TemporaryDirectory(prefix="mistakes-") as room:
            by_chromium.test_mistakes(pathlib.Path(room), check, wgsim, verdicts, words[1:])
        print("\n".join(findings))
        return 1 if findings else 0
    if words[:1] in (["--slowdown"], ["--keep"]):
        {"--slowdown": slowdown, "--keep": keep}[words[0]](path)
        return 1 if findings else 0
    if words[:1] == ["--program"]:
        os.environ[programs.NAMED] = str(pathlib.Path(words[1]).resolve())
    elif programs.NAMED not in os.environ:
        programs.Program(True).ready()
        os.environ[programs.NAMED] = str(TOP / "tools/out/unproved/wgsim")
    with tempfile.TemporaryDirectory(prefix="record-") as room, contextlib.ExitStack():
        folder = pathlib.Path(room)
        tests = [
            (test_tables, ()),
            (test_judged, ()),
            (test_places, ()),
            (test_browser_errors, ()),
            (test_pictures, ()),
            (test_passed_errors, (folder / "passed",)),
            (test_changed, (folder / "changed",)),
            (test_excused, (folder / "excused",)),
            (test_told_first, (folder / "first",)),
            (test_no_browser, ()),
            (test_saved, (folder / "saved",)),
            (by_firefox.test_fake, (folder / "fake", check, wgsim)),
        ]
        by_node = (
            (test_null, "null"), (test_frames, "frames"), (test_source_maps, "maps"), (test_workers, "workers"), (test_stand_ins, "images"),
            (test_unanswered, "unanswered"), (test_labels, "labels"), (test_mistakes, "mistakes"),
        )
        tests += [(test_wgsl, ()), *((test, (folder / name,)) for test, name in by_node)] if NODE else []
        tests += [(test_browser, (folder / "browser",))] if path else []
        of_firefox = (folder / "firefox", check, wgsim, verdicts, brief, EXPECTED, IN_PAGES)
        tests += [(by_firefox.test_real, of_firefox)] if by_firefox.PATH else []
        for test, given in tests:
            for each in given[:1]:
                each.mkdir()
            test(*given)
    for finding in findings:
        print(finding)
    if not NODE:
        print("tests of the recorder: the pages were not played by node, SKIPPED, since node is not installed")
    if not path:
        print(
            f"tests of the recorder: the pages were not recorded in a browser, SKIPPED, since none of {', '.join(browser.NAMES)} is"
            " installed"
        )
    if not by_firefox.PATH:
        print("tests of the recorder: no page was recorded in Firefox, SKIPPED, since none is installed")
    print(f"tests of the recorder: {len(findings)} findings")
    return 1 if findings else 0


sys.exit(main())
