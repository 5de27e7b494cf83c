"""Tests of `wgsim hunt`: an engine and a browser that lie in five ways are found out, what is found is small, and bad input is told.

usage: tests/hunt/run [--program PATH] [--scripts N]

The engine that lies answers by the second reading (tests/hunt/liar.py). Where Chromium is installed, one that lies is hunted too
(tests/hunt/lying_browser), and then itself with N scripts, 2000; what is found of it is told, and is no finding of the test unless its
own files are wrong. Where it is not installed that is said. Prints a line for each finding, and fails if there is one."""

import argparse
import collections
import functools
import json
import os
import pathlib
import random
import re
import signal
import subprocess
import sys
import tempfile
import time

from wgsim import exit_status
from wgsim.hunting import core, engines, flat, hunter, known, shaders, shape, smaller, sources, translation, written_pages
from wgsim.program import program as programs
from wgsim.reading import calls
from wgsim.recorder import browser

import liar

TOP = pathlib.Path(__file__).resolve().parents[2]
HERE = pathlib.Path(__file__).resolve().parent
# Of each lie the calls that the scripts have of which one shows it, the cases of which mutations are hunted, the beginning of the name of
# what is found, and how many calls a script has that is written by hand.
LIES = {
    "copy": ("copyBufferToBuffer", "copies", ("finish-taken-rule-25",), 5),
    "scope": ("pushErrorScope", "errors", ("createBuffer-scope", "popErrorScope-scope", "uncapturederror-scope"), 6),
    "twice": ("workDone", "errors", ("workDone-twice",), 2),
    "draw": ("draw", "draws", ("finish-refused",), 9),
    "crash": ("resolveQuerySet", "queries", ("script-crash",), 4),
}
# By how many seeds each lie is hunted. A hunt goes on where none of its scripts shows the lie, so many times at most: which scripts a seed
# gives changes with each case that is added, and of some lies every second hunt of six scripts has none.
SEEDS, PLAYED, MOST_TIMES = 12, 6, 20
FILES = {"script.json", "page.html", "wpt.html", "report.md"}
LONGEST = 1500
findings = []


def check(holds, what):
    if not holds:
        findings.append(what)


def wgsim(*words, status=0, **more):
    """Runs the tool, which has to end with one of some statuses, or with what a function says then, and returns what it wrote and said."""
    ran = subprocess.run([TOP / "wgsim", *map(str, words)], capture_output=True, cwd=TOP, timeout=LONGEST, **more)
    status = status() if callable(status) else status
    statuses = status if isinstance(status, tuple) else (status,)
    check(
        ran.returncode in statuses and b"Traceback" not in ran.stderr,
        f"wgsim {' '.join(map(str, words))}: status {ran.returncode} and not {status}: {ran.stderr.decode()[-600:]}",
    )
    return ran.stdout.decode(), ran.stderr.decode()


def state_of(folder):
    return json.loads((folder / "hunt.json").read_text(encoding="utf-8"))


def shown(folder, lie):
    """What a hunt has found of a lie."""
    return [row for row in state_of(folder)["found"].values() if row["name"].startswith(LIES[lie][2])]


def hunted(folder, lie, scripts, *words, **more):
    """Hunts a lie, some scripts at a time, until one shows it, and returns what the hunt wrote last. Its status says whether there is any
    difference."""
    of, cases, _, _ = LIES[lie]
    words = ("hunt", *words, "--of", of, "--from", f"tests/cases/{cases}", "--scripts", scripts, "--out", folder)
    for _ in range(MOST_TIMES):
        out, _ = wgsim(*words, status=lambda: int(bool(state_of(folder)["found"])), **more)
        if shown(folder, lie):
            break
    return out


def told_lie(folder, lie, out, is_browser=False):
    """A lie is found, made small, and told. A browser that ends is started anew for each script that is tried, so that fewer are."""
    most = 60 if is_browser and lie == "crash" else LIES[lie][3]
    found = shown(folder, lie)
    check(found, f"{lie}: nothing was found of it: {out[-600:]}")
    for row in found[:1]:
        check(row["calls"] <= most, f"{lie}: {row['name']} has {row['calls']} calls, and {most} will do")
        check({path.name for path in (folder / row["name"]).iterdir()} == FILES, f"{lie}: {row['name']} has not the files {FILES}")
        check(row["name"] in out, f"{lie}: {row['name']} is not told: {out[-300:]}")
        script = (folder / row["name"] / "script.json").read_bytes()
        wgsim("run", "-", input=script)


def test_engine(folder):
    """An engine that lies is found out; one that does not is not."""
    python, liar = TOP / "tools/python", HERE / "liar.py"
    for lie in LIES:
        told_lie(folder / lie, lie, hunted(folder / lie, lie, PLAYED, "--command", f"{python} {liar} {lie}"))
    wgsim("hunt", "--command", f"{python} {liar} none", "--traces", "--scripts", 6, "--from", "examples", "--out", folder / "none")
    before = state_of(folder / "none")
    wgsim("hunt", "--command", f"{python} {liar} none", "--scripts", 3, "--out", folder / "none")
    check(state_of(folder / "none")["next"] == before["next"] + 3, "a hunt does not go on where it was")


def test_bad_input(folder):
    """What cannot be hunted is told, and nothing is written over."""
    full = folder / "full"
    full.mkdir()
    (full / "kept").write_text("kept", encoding="utf-8")
    engine = f"{TOP / 'tools/python'} {HERE / 'liar.py'} none"
    wgsim("hunt", "--command", engine, "--out", full, status=exit_status.UNWRITTEN)
    check([path.name for path in full.iterdir()] == ["kept"], "a folder that is of no hunt is written to")
    (folder / "other").mkdir()
    (folder / "other/hunt.json").write_text("[]", encoding="utf-8")
    wgsim("hunt", "--command", engine, "--out", folder / "other", status=exit_status.UNREAD)
    for words, status in (
        (("--browser", "no-such-browser"), exit_status.UNREAD),
        (("--command", "no-such-program"), exit_status.UNREAD),
        (("--command", "'"), exit_status.WORDS),
        (("--from", folder / "none-there"), exit_status.UNREAD),
        (("--from", full), exit_status.UNREAD),
        (("--of", "noCall"), exit_status.WORDS),
        (("--scripts", "x"), exit_status.WORDS),
        (("--jobs", "0"), exit_status.WORDS),
        (("--patience", "0"), exit_status.WORDS),
        (("--browser", HERE / "firefox_that_is_not_there"), exit_status.UNREAD),
        (("--scripts", "1", "--minutes", "1"), exit_status.WORDS),
        (("--traces",), exit_status.WORDS),
        (("--command", engine, "--browser", "chromium"), exit_status.WORDS),
        (("--browser", "/bin/true"), exit_status.NO_ANSWER),
    ):
        _, said = wgsim("hunt", "--out", folder / "new", *words, status=status)
        check(said.startswith("wgsim: ") or "\nwgsim: " in said, f"hunt {words}: says {said!r}")


def test_firefox_fake(folder):
    """A Firefox that has no WebGPU, ends, or speaks another protocol is told so, by a sentence and a status."""
    for how, status, sentence in (
        ("none", exit_status.UNREAD, "it has no WebGPU"),
        ("other", exit_status.NO_ANSWER, "it speaks another protocol than Marionette 3"),
        ("ends", exit_status.NO_ANSWER, "it has ended"),
        ("refuses", exit_status.NO_ANSWER, "it refuses WebDriver:NewSession: unknown error: it is a fake"),
    ):
        words = ("--browser", HERE / "firefox_fake", "--scripts", 1, "--jobs", 1, "--out", folder / f"fake-{how}")
        _, said = wgsim("hunt", *words, status=status, env={**os.environ, "WGSIM_FAKE": how})
        check(said.endswith(f"wgsim: {HERE / 'firefox_fake'}: {sentence}\n"), f"a Firefox that is a fake, {how}: says {said!r}")


def test_no_browser(folder):
    """Where no browser is installed that is told, with the package that has one."""
    for browsing, package in (("chromium", "chromium"), ("firefox", "firefox-esr")):
        env = {**os.environ, "PATH": str(folder)}
        ran = subprocess.run([sys.executable, TOP / "wgsim", "hunt", "--browser", browsing], capture_output=True, cwd=folder, env=env)
        said = ran.stderr.decode()
        check(ran.returncode == exit_status.UNREAD and f"apt-get install {package}`" in said, f"no {browsing}: {ran.returncode}: {said!r}")


def test_stopped(folder):
    """What was found is kept where a hunt is stopped."""
    engine = f"{TOP / 'tools/python'} {HERE / 'liar.py'} twice"
    words = [TOP / "wgsim", "hunt", "--command", engine, "--of", "workDone", "--scripts", "100000", "--out", folder / "stopped"]
    # A shell has what it runs in the background ignore control and C, and all that comes of that would.
    heard = functools.partial(signal.signal, signal.SIGINT, signal.SIG_DFL)
    run = subprocess.Popen(words, cwd=TOP, stdout=subprocess.PIPE, stderr=subprocess.PIPE, preexec_fn=heard)
    until = time.monotonic() + LONGEST
    while time.monotonic() < until and not list((folder / "stopped").glob("*/report.md")):
        time.sleep(0.2)
    run.send_signal(signal.SIGINT)
    out, said = run.communicate(timeout=LONGEST)
    check(run.returncode == 130 and b"Traceback" not in said, f"stopped: status {run.returncode}: {said.decode()[-600:]}")
    check(b"differences" in out and state_of(folder / "stopped")["found"], f"stopped: what was found is not kept: {out.decode()[-300:]}")


def test_translation():
    """Each call of scripts is one in a browser, each kind of binding has its variable, and what a script is made of can be played."""
    check(set(translation.TRANSLATE) == set(calls.CALLS) - {"drop"}, "tools/wgsim/hunting/translation.py has not the calls of scripts")
    check(set(shaders.ATTRIBUTES) == set(calls.WORDS["attribute format"]), "shaders.py has not the formats of attributes")
    draw = {"do": "drawIndexed", "on": "p", "indices": 3, "instances": 1, "firstIndex": 0, "firstInstance": 0}
    for base, told in ((0, 0), (2**31 - 1, 2**31 - 1), (2**31, -(2**31)), (2**32 - 1, -1)):
        found = translation.TRANSLATE["drawIndexed"]({**draw, "baseVertex": base})["args"]
        check(found == [3, 1, 0, told, 0], f"the base vertex {base} is {found} in a browser")
    asking, source = core.Core(None), sources.Source(3)
    for number in range(12):
        _, top = source.script(number)
        made = flat.flattened(asking, top, random.Random(number))
        answered = flat.playable(asking, made, collections.Counter()) if made is not None else None
        if answered is None:
            continue
        names = [call["as"] for call in answered.flat.calls if "as" in call]
        again = smaller.renamed(answered.flat.calls)
        same = asking.answered(core.Flat(again, answered.flat.limits))
        check(len(set(names)) == len(names) and not any(call["do"] == "drop" for call in again), f"script {number}: it cannot be played")
        check(not any("label" in call for call in again), f"script {number}: it has labels")
        check(
            same is not None and [e.line for e in same.entry_of.values()] == [e.line for e in answered.entry_of.values()],
            f"script {number}: other names, other answers",
        )
        translation.translated(answered)


# A pass to which nothing is attached.
NOTHING = {"colors": [], "depth": None, "queries": None, "as": "p"}
# What describes a sampler, and a render pipeline, with all keys at what they have where they are left out.
SAMPLER = {
    **dict.fromkeys(translation.FILTERS, "nearest"), "compare": None, "lodMinClamp": 0, "lodMaxClamp": 2097152, "maxAnisotropy": 1,
    **dict.fromkeys(translation.ADDRESSES, "clamp-to-edge"), "as": "s",
}
PIPELINE = {
    "layout": "y", "iface": [], "buffers": [], "targets": [], "depth": None, "samples": 1, "mask": 2**32 - 1, "alphaToCoverage": False,
    "primitive": {"topology": "triangle-list", "stripIndexFormat": None, "frontFace": "ccw", "cullMode": "none"}, "as": "r",
}
ADDED = {"operation": "add", "srcFactor": "one", "dstFactor": "zero"}
KEPT = {"compare": "always", "failOp": "keep", "depthFailOp": "keep", "passOp": "keep"}
DEPTH = {
    "format": "stencil8", "depthWrite": False, "depthCompare": "always", "stencilFront": KEPT, "stencilBack": KEPT,
    "stencilReadMask": 2**32 - 1, "stencilWriteMask": 2**32 - 1, "bias": False,
}
LEFT_OUT = {"depthWrite": "none", "depthCompare": "none"}
FACES = {"stencilBack": {**KEPT, "failOp": "zero"}, "stencilWriteMask": 1}
DRAWN = "{{ layout: y, vertex: {{ module: module }}, depthStencil: {{ format: 'stencil8', {} }} }}"
CLEARED = {
    "view": "v", "depthLoad": "clear", "depthStore": "store", "depthReadOnly": False, "stencilLoad": None, "stencilStore": None,
    "stencilReadOnly": False, "stencilClearValue": 0,
}
BEGUN = {**NOTHING, "maxDrawCount": None}
PASSED = "{{ colorAttachments: [], depthStencilAttachment: {{ view: v, depthLoadOp: 'clear', depthStoreOp: 'store', {} }} }}"
# What a call is handed in a page: its word, its keys, and the arguments in JavaScript.
HANDED = [
    (
        "setViewport", {"x": 32768, "left": True, "y": 1, "above": False, "width": 98304, "height": 0, "minDepth": 0, "maxDepth": 65536},
        "-0.5, 1.52587890625e-05, 1.5, 0, 0, 1",
    ),
    (
        "setViewport",
        {"x": 0, "left": True, "y": 131072, "above": True, "width": 2**53 - 2**29, "height": 1, "minDepth": 1, "maxDepth": 0},
        "0, -2, 137438945280, 1.52587890625e-05, 1.52587890625e-05, 0",
    ),
    ("setScissorRect", {"x": 1, "y": 2, "width": 3, "height": 2**32 - 1}, "1, 2, 3, 4294967295"),
    ("setBlendConstant", {}, "[0, 0, 0, 1]"),
    ("setStencilReference", {"reference": 7}, "7"),
    ("insertDebugMarker", {}, "'marker'"),
    ("setBindGroup", {"index": 1, "group": None, "offsets": []}, "1, null"),
    ("setBindGroup", {"index": 1, "group": None, "offsets": [256]}, "1, null, [256]"),
    ("setBindGroup", {"index": 1, "group": "g", "offsets": []}, "1, g"),
    ("setVertexBuffer", {"slot": 1, "buffer": None, "offset": 4, "size": None}, "1, null, 4"),
    ("setVertexBuffer", {"slot": 1, "buffer": None, "offset": 0, "size": 8}, "1, null, 0, 8"),
    ("createPipelineLayout", {"layouts": [None, "l"], "as": "y"}, "{ bindGroupLayouts: [null, l] }"),
    ("beginRenderPass", {**NOTHING, "maxDrawCount": 0}, "{ colorAttachments: [], maxDrawCount: 0 }"),
    ("beginRenderPass", {**NOTHING, "maxDrawCount": None}, "{ colorAttachments: [] }"),
    ("createSampler", {"kind": "filtering", "as": "s"}, "{ magFilter: 'linear' }"),
    ("createSampler", {**SAMPLER}, "{}"),
    (
        "createSampler",
        {**SAMPLER, "minFilter": "linear", "compare": "never", "lodMinClamp": 1, "lodMaxClamp": 65536, "addressModeV": "repeat"},
        "{ minFilter: 'linear', compare: 'never', addressModeV: 'repeat', lodMinClamp: 1.52587890625e-05, lodMaxClamp: 1 }",
    ),
    ("createSampler", {**SAMPLER, "maxAnisotropy": 0}, "{ maxAnisotropy: 0 }"),
    ("createRenderPipeline", PIPELINE, "{ layout: y, vertex: { module: module } }"),
    (
        "createRenderPipeline",
        {
            **PIPELINE, "buffers": [None, {"stride": 0, "step": "vertex", "attributes": []}],
            "targets": [
                None, {"format": "r8unorm", "blend": None, "writeMask": 15},
                {"format": "r8unorm", "blend": {"color": {**ADDED, "operation": "max"}, "alpha": ADDED}, "writeMask": 0},
            ],
            "primitive": {"topology": "line-strip", "stripIndexFormat": "uint16", "frontFace": "cw", "cullMode": "back"},
            "samples": 4, "mask": 0, "alphaToCoverage": True,
        },
        "{ layout: y, vertex: { module: module, buffers: [null, { arrayStride: 0, stepMode: 'vertex', attributes: [] }] }, fragment: "
        "{ module: module, targets: [null, { format: 'r8unorm' }, { format: 'r8unorm', blend: { color: { operation: 'max' }, alpha: {} }, "
        "writeMask: 0 }] }, primitive: { topology: 'line-strip', stripIndexFormat: 'uint16', frontFace: 'cw', cullMode: 'back' }, "
        "multisample: { count: 4, mask: 0, alphaToCoverageEnabled: true } }",
    ),
    ("createRenderPipeline", {**PIPELINE, "depth": {**DEPTH, "stencilWrite": True}}, DRAWN.format(
        "depthWriteEnabled: false, depthCompare: 'always', stencilFront: { passOp: 'replace' }, stencilBack: { passOp: 'replace' }"
    )),
    ("createRenderPipeline", {**PIPELINE, "depth": {**DEPTH, **LEFT_OUT, "bias": True, **FACES}}, DRAWN.format(
        "stencilBack: { failOp: 'zero' }, stencilWriteMask: 1, depthBias: 1"
    )),
    ("beginRenderPass", {**BEGUN, "depth": {**CLEARED, "depthClearValue": None}}, PASSED.format("depthClearValue: 1")),
    ("beginRenderPass", {**BEGUN, "depth": {**CLEARED, "depthClearValue": 32768}}, PASSED.format("depthClearValue: 0.5")),
    (
        "beginRenderPass", {**BEGUN, "depth": {**CLEARED, "depthClearValue": "none", "stencilClearValue": 7}},
        PASSED.format("stencilClearValue: 7"),
    ),
]
# Fixed numbers, each with that of the float that a page makes of it.
FLOATS = [
    (0, 0), (1, 1), (2**24 - 1, 2**24 - 1), (2**24 + 1, 2**24), (2**24 + 3, 2**24 + 4), (8192 * 65536 + 32, 8192 * 65536),
    (8192 * 65536 + 33, 8192 * 65536 + 64), (8192 * 65536 - 1, 8192 * 65536), (2**53 - 1, 2**53 - 2**29),
]


def test_states():
    """What a page hands over where it sets a pass is what the script says, fixed numbers exactly; and only floats are handed over."""
    for word, keys, told in HANDED:
        args = translation.TRANSLATE[word]({"do": word, "on": "e", **keys})["args"]
        check(written_pages.items(args) == told, f"{word} with {keys} is handed {written_pages.items(args)} in a page")
    for number, told in FLOATS:
        call = {"do": "setViewport", "on": "p", "width": number, "height": 1, "label": "x"}
        found = flat.with_floats(call)
        check(found == {**call, "width": told} and call["width"] == number, f"the fixed number {number} is {found['width']} in a page")
        call = {"do": "beginRenderPass", "on": "e", "colors": [], "depth": {"view": "v", "depthClearValue": number}, "as": "p"}
        found = flat.with_floats(call)["depth"]["depthClearValue"]
        check(found == told and call["depth"]["depthClearValue"] == number, f"the fixed number {number} of a depth is {found} in a page")
    left_out = {"do": "beginRenderPass", "on": "e", "colors": [], "depth": {"view": "v", "depthClearValue": "none"}, "as": "p"}
    check(flat.with_floats(left_out) == left_out, "a depth that is left out is another in a page")


class Lying:
    """The engine that lies, without a process of its own."""

    about, limits, most_ends = {}, {}, 500

    def __init__(self, lie):
        self.lie = lie

    def each(self, scripts):
        return [self.told(answered) for answered in scripts]

    def told(self, answered):
        if self.lie == "crash" and any(call["do"] == "resolveQuerySet" for call in answered.flat.calls):
            return {"gone": "no report"}
        lines, lie = [entry.line for entry in answered.entry_of.values()], "none" if self.lie == "crash" else self.lie
        return engines.answers_of(answered, getattr(liar, lie)(lines, answered.flat.calls))


def test_small():
    """Each lie is found by each seed, and what is made small has no more calls than what is written by hand, whatever it is made of."""
    for lie, (of, cases, names, most) in LIES.items():
        kept = sources.kept_in(TOP / "tests/cases" / cases)
        for seed in range(1, SEEDS + 1):
            told, found = [], []
            hunting = hunter.Hunter(core.Core(None), Lying(lie), sources.Source(seed, (of,), kept), told.append)
            for first in range(0, PLAYED * MOST_TIMES, PLAYED):
                hunting.play(range(first, first + PLAYED))
                found = [each for each in told if each.is_small and each.difference.name().startswith(names)]
                if found:
                    break
            check(found, f"{lie}, seed {seed}: nothing was found of it in {PLAYED * MOST_TIMES} scripts")
            for each in found:
                calls = len(each.answered.flat.calls)
                check(calls <= most, f"{lie}, seed {seed}: {each.difference.name()} has {calls} calls, and {most} will do")


def test_known():
    """Each difference that is known has its point in the coverage, and a script, that is one."""
    coverage = (TOP / "docs/coverage.md").read_text(encoding="utf-8")
    asking = core.Core(None)
    for row in known.read():
        check(row["row"] in coverage, f"tools/known.json: {row['name']}: docs/coverage.md has no point {row['row']}")
        check({"name", "kinds", "why", "section", "script"} <= set(row), f"tools/known.json: {row['name']} is not whole")
        for call in row["script"]:
            check(set(call) - {"do"} <= set(shape.keys_of(call["do"])), f"tools/known.json: {row['name']}: {call}")
        check(asking.answered(core.Flat(row["script"])) is not None, f"tools/known.json: {row['name']}: its script is refused")


def test_lying_browser(folder):
    """A browser that lies is found out."""
    for lie in LIES:
        out = hunted(folder / f"browser-{lie}", lie, 8, "--browser", HERE / "lying_browser", env={**os.environ, "WGSIM_LIE": lie})
        told_lie(folder / f"browser-{lie}", lie, out, True)


def test_browser(folder, scripts):
    """The browser that is installed is hunted; what is found is told, and each script is accounted for."""
    out, _ = wgsim("hunt", "--scripts", scripts, "--from", "tests/cases", "--out", folder / "browser", status=(0, 1))
    state = state_of(folder / "browser")
    check(state["next"] == scripts, f"{scripts} scripts were to be played, and the hunt is at {state['next']}")
    played = state["counts"]["scripts"] + state["left"].get(hunter.REFUSED, 0)
    check(played == scripts, f"of {scripts} scripts {played} were played or refused")
    for row in state["found"].values():
        check({path.name for path in (folder / "browser" / row["name"]).iterdir()} == FILES, f"{row['name']} has not the files {FILES}")
    print("notice: " + "; ".join(line for line in out.splitlines()[-1:]))


def main():
    parser = argparse.ArgumentParser(prog="tests/hunt/run", description=__doc__, formatter_class=argparse.RawDescriptionHelpFormatter)
    parser.add_argument("--program", help="runs as PROGRAM run < SCRIPT")
    parser.add_argument("--scripts", type=int, default=2000, help="how many scripts the browser that is installed plays")
    parser.add_argument("--only", help="the tests with this in their names")
    words = parser.parse_args()
    if words.program is not None:
        os.environ[programs.NAMED] = os.path.abspath(words.program)
    with tempfile.TemporaryDirectory(prefix="hunt-") as name:
        folder = pathlib.Path(name)
        tests = [test_translation, test_states, test_small, test_known, lambda: test_bad_input(folder), lambda: test_firefox_fake(folder)]
        tests += [lambda: test_no_browser(folder), lambda: test_engine(folder), lambda: test_stopped(folder)]
        names = ["translation", "states", "small", "known", "bad_input", "firefox_fake", "no_browser", "engine", "stopped"]
        if browser.found(None) is None:
            print("notice: Chromium is not installed, so no browser is hunted (Debian: apt-get install chromium)")
        else:
            tests += [lambda: test_lying_browser(folder), lambda: test_browser(folder, words.scripts)]
            names += ["lying_browser", "browser"]
        for test, each in zip(tests, names):
            if words.only is None or re.search(words.only, each):
                test()
    for line in findings:
        print(line)
    sys.exit(1 if findings else 0)


if __name__ == "__main__":
    main()
