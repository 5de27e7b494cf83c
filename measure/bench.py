"""What calls cost: the instructions that the proved program takes for made scripts, and the memory, divided by their calls; and what lines
of traces cost that are checked.

Run at the top of the repository, after `./wgsim prove` has built the program. It counts instructions by valgrind's callgrind, which gives
the same number whatever else the machine does, and the most memory that was resident in a run without valgrind, and prints the table of
docs/costs.md. `--long` measures scripts of some 65,536 calls in place of the others, each against one of half its calls, which takes a
quarter of an hour: where nothing is a square, a call costs the same in both. `--traces` measures `check` on traces of 200,000 lines, each
against one of half its lines. `--submits` measures what a device does under its lock for the submit of a
command buffer, by its commands, and what it takes to note one more. `--texts` measures the processor time for texts of which one object
has 400,000 members, and with `--check` fails where one takes more than it may. `--program PATH` names another program; `--only WORD`
measures the scripts alone whose title has the word; `--functions N` lists, below each script, the N functions that took most, and
`--inclusive` with all that they call.

Through C, by `measure/loop.c`, which is linked with the archive that the gate built, or by `--archive PATH` with another, and `--libc PATH`
with another heap: `--through-c` counts what calls cost, by two pairs of counts or those of `--counts` alone, and what a device keeps;
`--write` writes the tables into docs/costs.md. `--kept` measures what a device keeps alone, up to ten million rounds, which takes minutes.
`--check` fails where a figure is more than 5 parts in 100 above that of docs/costs.md, or more is resident than docs/costs.md allows; with
`--counts small` that takes a minute. `--beside-browser` makes the same calls by a page in Chromium, or by `--browser PATH` in another
browser, and compares the processor time of its process for graphics with that through C. """

import argparse
import json
import pathlib
import random
import re
import subprocess
import sys
import tempfile

import beside
import texts
import through_c

TOP = pathlib.Path(__file__).resolve().parent.parent
BUDGET = 2**53 - 1
# The bytes and the calls that a script may have.
MOST_BYTES, MOST_CALLS = 4_194_304, 65_536
# Below so many calls what the program itself takes is most of its memory.
FEW = 4_000
# What a device does under its lock, what of that finds what a submit adds to the trace, and the call that notes what a command does.
LOCKED, ADDED, NOTE = "wg_core::device::Core::step_for_log", "wg_core::plan::add_submit", "wg_cbtrack::track::CbTrack::note"
COPIES = [10, 1_000, 10_000]
# How many buffers a command buffer has used, and how often one of them is cleared again.
USED, AGAIN = [1, 100, 10_000], 100
# The status of a trace whose barriers are not enough.
DIFFERS = 8
# Runs a command from a small process, since what is resident in the one that starts it counts for the command too.
RESIDENT = (
    "import resource, subprocess, sys; s = subprocess.run(sys.argv[1:], stdout=subprocess.DEVNULL).returncode;"
    " print(resource.getrusage(resource.RUSAGE_CHILDREN).ru_maxrss); sys.exit(s)"
)


def script(calls):
    """A script of one phase with one lane."""
    return {"budget": BUDGET, "phases": [[calls]]}


def buffer(name, size=4096, usage=12):
    """A buffer, which is copied from and to unless another usage is given."""
    return {"do": "createBuffer", "size": size, "usage": usage, "as": name}


def write(name, size=16):
    return {"do": "writeBuffer", "buffer": name, "offset": 0, "size": size}


def scattered(count):
    """Writes of 4 bytes, each 8 bytes from the next, in a random order."""
    places = [8 * i for i in range(count - 2)]
    random.Random(1).shuffle(places)
    writes = [{"do": "writeBuffer", "buffer": "b", "offset": place, "size": 4} for place in places]
    return script([buffer("b", 8 * count)] + writes + [complete(count - 2)])


def complete(op):
    return {"do": "complete", "op": op}


def loop(count):
    """Writes to and copies between eight buffers, each copy recorded, finished and submitted on its own."""
    calls = [buffer(f"b{i}") for i in range(8)]
    state = 1

    def draw():
        nonlocal state
        state = (state * 1103515245 + 12345) % 2**31
        return state // 65536

    for i in range(count):
        first, second, third = draw(), draw(), draw()
        source = first % 8
        target = (source + 1 + second % 7) % 8
        place = 4 * (third % 256)
        calls += [
            {"do": "writeBuffer", "buffer": f"b{source}", "offset": place, "size": 64},
            {"do": "createEncoder", "as": f"e{i}"},
            {
                "do": "copyBufferToBuffer",
                "on": f"e{i}",
                "source": f"b{source}",
                "sourceOffset": place,
                "target": f"b{target}",
                "targetOffset": place,
                "size": 128,
            },
            {"do": "finish", "on": f"e{i}", "as": f"c{i}"},
            {"do": "submit", "buffers": [f"c{i}"]},
        ]
    calls.append(complete(2 * count))
    calls += [{"do": "destroy", "object": f"b{i}"} for i in range(8)]
    return script(calls)


def submit(count):
    """One command buffer that clears as many distinct buffers."""
    calls = [buffer(f"b{i}", 16) for i in range(count)] + [{"do": "createEncoder", "as": "e"}]
    calls += [{"do": "clearBuffer", "on": "e", "buffer": f"b{i}", "offset": 0, "size": 16} for i in range(count)]
    return script(calls + [{"do": "finish", "on": "e", "as": "c"}, {"do": "submit", "buffers": ["c"]}])


def destroys(count):
    """Buffers that are written and destroyed, and then one completion."""
    calls = [buffer(f"b{i}", 16) for i in range(count)]
    calls += [write(f"b{i}") for i in range(count)]
    calls += [{"do": "destroy", "object": f"b{i}"} for i in range(count)]
    return script(calls + [complete(count)])


def ended(count, how, at_once=False):
    """Half as many buffers with distinct names, each destroyed or dropped, when all are made or at once."""
    makes = [buffer(f"b{i}", 16) for i in range(count // 2)]
    ends = [{"do": how, "object": f"b{i}"} for i in range(count // 2)]
    return script([call for both in zip(makes, ends) for call in both] if at_once else makes + ends)


def drops(count):
    """Buffers that are each cleared by an encoder of their own; buffer, encoder and command buffer are dropped."""
    calls = []
    for i in range(count):
        calls += [
            buffer(f"b{i}", 16),
            {"do": "createEncoder", "as": f"e{i}"},
            {"do": "clearBuffer", "on": f"e{i}", "buffer": f"b{i}", "offset": 0, "size": 16},
            {"do": "finish", "on": f"e{i}", "as": f"c{i}"},
            {"do": "submit", "buffers": [f"c{i}"]},
            {"do": "drop", "object": f"b{i}"},
            {"do": "drop", "object": f"e{i}"},
            {"do": "drop", "object": f"c{i}"},
        ]
        if i % 64 == 63:
            calls.append(complete(i + 1))
    return script(calls)


def awaited(count):
    """Buffers that are dropped while an older encoder is open, which is dropped at last."""
    calls = [{"do": "createEncoder", "as": "e"}]
    for i in range(count):
        calls += [buffer(f"b{i}", 16), {"do": "drop", "object": f"b{i}"}]
    return script(calls + [{"do": "drop", "object": "e"}])


def recorded(count, command):
    """One encoder with as many commands."""
    calls = [buffer("a"), buffer("b"), {"do": "createEncoder", "as": "e"}] + [command] * (count - 6)
    return script(calls + [{"do": "finish", "on": "e", "as": "c"}, {"do": "submit", "buffers": ["c"]}, complete(1)])


def copies(count, submits):
    """One encoder with as many copies to and fro between two buffers, and the submit of what it makes, or none."""
    calls = [buffer("a"), buffer("b"), {"do": "createEncoder", "as": "e"}]
    for i in range(count):
        source, target = ("a", "b") if i % 2 == 0 else ("b", "a")
        calls.append(
            {"do": "copyBufferToBuffer", "on": "e", "source": source, "sourceOffset": 0, "target": target, "targetOffset": 0, "size": 16}
        )
    calls.append({"do": "finish", "on": "e", "as": "c"})
    return script(calls + [{"do": "submit", "buffers": ["c"]}] * submits)


def cleared(buffers, again):
    """One encoder that clears so many buffers, each in an entry of its own, and then the first of them so often again."""
    calls = [buffer(f"b{i}") for i in range(buffers)] + [{"do": "createEncoder", "as": "e"}]
    calls += [{"do": "clearBuffer", "on": "e", "buffer": f"b{i}"} for i in range(buffers)]
    return script(calls + [{"do": "clearBuffer", "on": "e", "buffer": "b0"}] * again)


def bound(entries):
    """A bind group of one storage and one uniform binding, and as many more that no stage sees, with a compute pipeline."""
    kinds = [{"binding": 0, "visibility": 4, "kind": "storage"}, {"binding": 1, "visibility": 4, "kind": "uniform"}]
    kinds += [{"binding": i, "visibility": 0, "kind": "uniform"} for i in range(2, entries)]
    return [
        buffer("s", 256, 128),
        buffer("u", 256, 64),
        {"do": "createBindGroupLayout", "entries": kinds, "as": "l"},
        {"do": "createPipelineLayout", "layouts": ["l"], "as": "pl"},
        {"do": "createComputePipeline", "layout": "pl", "as": "k"},
        {
            "do": "createBindGroup",
            "layout": "l",
            "entries": [{"binding": i, "buffer": "u" if i else "s"} for i in range(entries)],
            "as": "g",
        },
    ]


def dispatches(count, entries=2, again=False):
    """One pass with as many dispatches of one bind group, which is set once, or again before each."""
    setting = {"do": "setBindGroup", "on": "p", "index": 0, "group": "g"}
    calls = bound(entries) + [{"do": "createEncoder", "as": "e"}, {"do": "beginComputePass", "on": "e", "as": "p"}]
    calls += [{"do": "setPipeline", "on": "p", "pipeline": "k"}]
    calls += (
        ([setting] + [{"do": "dispatch", "on": "p", "x": 1}] * count)
        if not again
        else [setting, {"do": "dispatch", "on": "p", "x": 1}] * count
    )
    calls += [{"do": "end", "on": "p"}, {"do": "finish", "on": "e", "as": "c"}, {"do": "submit", "buffers": ["c"]}]
    return script(calls + [complete(1)])


def drawn(count, kind):
    """One render pass: as many draws of one vertex buffer, that buffer set before each, or as many distinct vertex buffers."""
    layout = {"stride": 16, "attributes": [{"format": "float32x4", "offset": 0, "location": 0}]}
    calls = [
        buffer("v", 4096, 32),
        {"do": "createTexture", "size": [4, 4, 1], "usage": 16, "format": "rgba8unorm", "as": "t"},
        {"do": "createView", "texture": "t", "as": "w"},
        {"do": "createPipelineLayout", "layouts": [], "as": "pl"},
        {"do": "createRenderPipeline", "layout": "pl", "buffers": [layout], "targets": ["rgba8unorm"], "as": "k"},
    ]
    order = list(range(count))
    if kind == "random":
        random.Random(1).shuffle(order)
    calls += [buffer(f"v{i}", 64, 32) for i in range(count)] if kind in ("distinct", "random") else []
    calls += [
        {"do": "createEncoder", "as": "e"},
        {"do": "beginRenderPass", "on": "e", "colors": [{"view": "w", "load": "clear", "store": "store"}], "as": "p"},
        {"do": "setPipeline", "on": "p", "pipeline": "k"},
    ]

    def setting(name):
        return {"do": "setVertexBuffer", "on": "p", "slot": 0, "buffer": name}

    draw = {"do": "draw", "on": "p", "vertices": 3}
    if kind == "draws":
        calls += [setting("v")] + [draw] * count
    elif kind == "set":
        calls += [setting("v"), draw] * count
    else:
        calls += [setting(f"v{i}") for i in order] + [draw]
    calls += [{"do": "end", "on": "p"}, {"do": "finish", "on": "e", "as": "c"}, {"do": "submit", "buffers": ["c"]}]
    return script(calls + [complete(1)])


def shared(count):
    """One render pass in which each of as many buffers is both bound as storage and set as a vertex buffer."""
    calls = [
        {"do": "createTexture", "size": [4, 4, 1], "usage": 16, "format": "rgba8unorm", "as": "t"},
        {"do": "createView", "texture": "t", "as": "w"},
        {"do": "createBindGroupLayout", "entries": [{"binding": 0, "visibility": 1, "kind": "read-only-storage"}], "as": "l"},
    ]
    names = list(range(count))
    for i in names:
        calls += [
            buffer(f"b{i}", 64, 160),
            {"do": "createBindGroup", "layout": "l", "entries": [{"binding": 0, "buffer": f"b{i}"}], "as": f"g{i}"},
        ]
    random.Random(1).shuffle(names)
    calls += [
        {"do": "createEncoder", "as": "e"},
        {"do": "beginRenderPass", "on": "e", "colors": [{"view": "w", "load": "clear", "store": "store"}], "as": "p"},
    ]
    for i in names:
        calls += [
            {"do": "setBindGroup", "on": "p", "index": 0, "group": f"g{i}"},
            {"do": "setVertexBuffer", "on": "p", "slot": 0, "buffer": f"b{i}"},
        ]
    calls += [{"do": "end", "on": "p"}, {"do": "finish", "on": "e", "as": "c"}, {"do": "submit", "buffers": ["c"]}]
    return script(calls + [complete(1)])


def waiting(count, every):
    """A write and as many workDones, completed at the end; or a write with each, completed after each so many."""
    if not every:
        return script([buffer("b"), write("b")] + [{"do": "workDone"}] * (count - 3) + [complete(1)])
    calls, ops = [buffer("b")], 0
    while len(calls) + 2 * every < count:
        for _ in range(every):
            calls += [write("b"), {"do": "workDone"}]
        ops += every
        calls.append(complete(ops))
    return script(calls)


def turned(count):
    """Many workDones wait, each for a write of its own, and then each is completed on its own."""
    third = count // 3
    calls = [buffer("b")] + [write("b"), {"do": "workDone"}] * third
    return script(calls + [complete(i + 1) for i in range(third)])


def remapped(count):
    """One buffer that is written, mapped and unmapped again and again, completed each time."""
    calls = [buffer("b", 4096, 9)]
    for i in range(count // 4):
        calls += [write("b"), {"do": "mapAsync", "buffer": "b", "mode": 1}, complete(i + 1), {"do": "unmap", "buffer": "b"}]
    return script(calls)


def mapped(count, ends):
    """Many buffers, each written and with a map that waits: then each is completed and unmapped, or just unmapped."""
    many = count // (5 if ends == "complete" else 4)
    names = [f"b{i}" for i in range(many)]
    calls = [buffer(name, 16, 9) for name in names] + [write(name) for name in names]
    calls += [{"do": "mapAsync", "buffer": name, "mode": 1} for name in names]
    for i, name in enumerate(names):
        calls += [complete(i + 1)] if ends == "complete" else []
        calls.append({"do": "destroy", "object": name} if ends == "destroy" else {"do": "unmap", "buffer": name})
    return script(calls)


def scopes(count, deep):
    """Error scopes, each popped at once, or when all are pushed; or a fault for each, which none of them catches."""
    push, pop = {"do": "pushErrorScope", "filter": "internal"}, {"do": "popErrorScope"}
    half = count // 2
    if deep == "faults":
        return script([buffer("b")] + [push] * half + [write("b", 3)] * (half - 1))
    return script([push] * half + [pop] * half if deep else [push, pop] * half)


COPY = {"do": "copyBufferToBuffer", "on": "e", "source": "a", "sourceOffset": 0, "target": "b", "targetOffset": 0, "size": 16}
CLEAR = {"do": "clearBuffer", "on": "e", "buffer": "a"}

# The title of a script with its size, what makes it, and the sizes.
SCRIPTS = [
    ("loop of {} iterations", loop, (125, 1000, 8000)),
    ("submit of {} distinct buffers", submit, (10, 100, 1000)),
    ("{} destroys before one complete", destroys, (10, 100, 1000)),
    ("{} encoders with submits and drops", drops, (125, 1000, 8000)),
    ("{} drops under an open encoder", awaited, (125, 1000, 8000)),
    ("{} creations and destroys with distinct names", lambda n: ended(n, "destroy"), (8000, 65536)),
    ("a pass of {} dispatches", dispatches, (10, 20, 1000, 1010)),
    ("a pass of {} dispatches, each with its group", lambda n: dispatches(n, again=True), (10, 1000)),
    ("a pass of 10 dispatches with {} bindings", lambda n: dispatches(10, n), (250, 500, 1000)),
    ("a render pass of {} draws", lambda n: drawn(n, "draws"), (10, 1000, 8000)),
    ("a render pass of {} draws, each with its vertex buffer", lambda n: drawn(n, "set"), (10, 1000, 8000)),
    ("a render pass of {} vertex buffers", lambda n: drawn(n, "distinct"), (10, 1000, 8000)),
    ("a render pass of {} vertex buffers in a random order", lambda n: drawn(n, "random"), (1000, 2000)),
    ("a render pass of {} buffers, each bound and set, in a random order", shared, (1000, 2000)),
]

# Each of these is measured with half as many calls as well. No script has more bytes than may be, and few have long calls.
LONG = [
    ("loop of {} iterations", loop, 13000),
    ("{} writes", lambda n: script([buffer("b")] + [write("b")] * (n - 2) + [complete(n - 2)]), MOST_CALLS),
    ("{} writes, none of which touches another", scattered, 16000),
    ("{} calls: workDones, one complete", lambda n: waiting(n, 0), MOST_CALLS),
    ("{} calls: workDones, a complete after each", lambda n: waiting(n, 1), MOST_CALLS),
    ("{} calls: workDones, a complete after each 64", lambda n: waiting(n, 64), MOST_CALLS),
    ("{} calls: workDones that all wait, then a complete for each", turned, MOST_CALLS - 2),
    ("{} calls: one buffer, mapped and unmapped", remapped, MOST_CALLS - 4),
    ("{} calls: maps that all wait, then a complete and an unmap for each", lambda n: mapped(n, "complete"), MOST_CALLS),
    ("{} calls: maps that all wait, then an unmap for each", lambda n: mapped(n, "unmap"), MOST_CALLS),
    ("{} calls: maps that all wait, then a destroy for each", lambda n: mapped(n, "destroy"), MOST_CALLS),
    ("{} buffers, each created and destroyed", lambda n: ended(n, "destroy", True), MOST_CALLS),
    ("{} buffers, created and then destroyed", lambda n: ended(n, "destroy"), MOST_CALLS),
    ("{} buffers, each created and dropped", lambda n: ended(n, "drop", True), MOST_CALLS),
    ("{} buffers, created and then dropped", lambda n: ended(n, "drop"), MOST_CALLS),
    ("{} drops under an open encoder", awaited, MOST_CALLS // 2 - 1),
    ("{} pushes and pops of error scopes", lambda n: scopes(n, ""), MOST_CALLS),
    ("{} pushes and then pops of error scopes", lambda n: scopes(n, "pops"), MOST_CALLS),
    ("{} calls: error scopes, and faults that none catches", lambda n: scopes(n, "faults"), MOST_CALLS),
    ("{} copies in one encoder", lambda n: recorded(n, COPY), 39000),
    ("{} clears in one encoder", lambda n: recorded(n, CLEAR), MOST_CALLS),
    ("a pass of {} dispatches", dispatches, MOST_CALLS - 14),
    ("a pass of {} dispatches, each with its group", lambda n: dispatches(n, again=True), 30000),
    ("a render pass of {} draws", lambda n: drawn(n, "draws"), MOST_CALLS - 13),
    ("a render pass of {} draws, each with its vertex buffer", lambda n: drawn(n, "set"), 30000),
    ("a render pass of {} vertex buffers", lambda n: drawn(n, "distinct"), 30000),
    ("a render pass of {} vertex buffers in a random order", lambda n: drawn(n, "random"), 30000),
    ("a render pass of {} buffers, each bound and set, in a random order", shared, 10000),
]

# The lines of a trace that is checked, and the bytes that one may have.
LINES, MOST_OF_A_TRACE = 200_000, 67_108_864


def trace(lines):
    """The text of a trace."""
    return "".join(f"{line}\n" for line in ["trace", *lines, "end"]).encode()


def numbered(steps):
    """The lines of steps, each with the lines before its own and the accesses behind it."""
    return trace(
        line
        for number, (before, after) in enumerate(steps)
        for line in (*before, f"step {number} op 1 dispatch", *(f"acc {one}" for one in after))
    )


def rows_of_one_step(lines, order):
    """A step with a row for each run of a buffer, in some order, between two steps that access the whole of it, with barriers."""
    rows = [f"both b 0 {8 * place} {8 * place + 4}" for place in order(range(lines - 8))]
    whole, bar = [f"write b 0 0 {8 * lines}"], ["bar b 0 storage storage"]
    return numbered([([], whole), (bar, rows), (bar, whole)])


def shuffled(numbers):
    found = list(numbers)
    random.Random(1).shuffle(found)
    return found


def runs_of_one_object(lines, ordered):
    """Steps that write a run of one buffer each, with a barrier each or none at all, and a read of all."""
    bar = ["bar b 0 storage storage"]
    places = shuffled(range(lines // 3 if ordered else lines // 2))
    return numbered(
        [([bar, []][not ordered], [f"write b 0 {4 * place} {4 * place + 4}"]) for place in places]
        + [(bar, [f"read b 0 0 {4 * len(places)}"])]
    )


def nested_runs(lines, ordered):
    """Steps that write runs of one buffer, each within the one before, with barriers or none."""
    count = lines // (3 if ordered else 2)
    return numbered([(["bar b 0 storage storage"] * ordered, [f"write b 0 {place} {2 * count - place}"]) for place in range(count)])


def one_cell(lines, kinds):
    """Steps that access one cell, by kinds that come again and again, with a barrier before each."""
    return numbered([(["bar b 0 storage storage"], [f"{kinds[number % len(kinds)]} b 0 0 4"]) for number in range(lines // 3)])


def one_cell_unordered(lines, first, then):
    """A step that accesses one cell, and steps that do with no barrier between them, after one barrier."""
    return numbered(
        [([], [f"{first} b 0 0 4"]), (["bar b 0 storage storage"], [])] + [([], [f"{then} b 0 0 4"]) for _ in range(lines // 2)]
    )


def objects_of_one_step(lines):
    """A step with a barrier and a row for each of many buffers, before and behind which another one uses them all."""
    count = lines // 5
    bars = [f"bar b {number} copy-dst storage" for number in range(count)]
    rows = [f"both b {number} 0 4" for number in range(count)]
    return numbered([([], rows), (bars, rows), (bars, rows)])


def layers(lines, sort):
    """Layers of a texture, or slices, that are written one by one and then read as one, over and over."""
    bar, each = [f"bar t 0 color 0 0 {64 if sort == 't' else 1} storage storage"], []
    while 2 * len(each) < lines - 200:
        each += [([], [f"write {sort} 0 color 0 {number} {number + 1}"]) for number in range(64)] + [
            (bar, [f"read {sort} 0 color 0 0 64"]),
            (bar, []),
        ]
    return numbered(each)


# Each of these has some LINES lines, and is measured with half as many as well.
TRACES = [
    ("{} lines: rows of one step", lambda n: rows_of_one_step(n, list)),
    ("{} lines: rows of one step in a random order", lambda n: rows_of_one_step(n, shuffled)),
    ("{} lines: runs of one buffer, with a barrier each", lambda n: runs_of_one_object(n, True)),
    ("{} lines: runs of one buffer, without barriers", lambda n: runs_of_one_object(n, False)),
    ("{} lines: runs of one buffer, each within the last, with a barrier each", lambda n: nested_runs(n, True)),
    ("{} lines: runs of one buffer, each within the last, without barriers", lambda n: nested_runs(n, False)),
    ("{} lines: writes of one cell, with a barrier each", lambda n: one_cell(n, ["write"])),
    ("{} lines: writes and reads of one cell, with a barrier each", lambda n: one_cell(n, ["write", "read", "both"])),
    ("{} lines: reads of one cell, without barriers", lambda n: one_cell_unordered(n, "write", "read")),
    ("{} lines: writes of one cell, without barriers", lambda n: one_cell_unordered(n, "read", "write")),
    ("{} lines: many buffers, each used by three steps", objects_of_one_step),
    ("{} lines: layers of a texture, written apart and read as one", lambda n: layers(n, "t")),
    ("{} lines: slices of a texture, written apart and read as one", lambda n: layers(n, "s")),
]

# Words that the program takes in place of a script, with their calls.
MADE = [("gen 1000", 5017), ("gen 8000", 40017), ("gen 125 64", 40017)]


class Run:
    """The program run by words over a script, or over none."""

    def __init__(self, program, words, made=None):
        self.command = [str(program), *words]
        if isinstance(made, bytes):
            self.text, self.calls = made, made.count(b"\n")
            if len(made) > MOST_OF_A_TRACE:
                sys.exit(f"a trace of {len(made)} bytes is more than may be")
            return
        self.text = json.dumps(made, separators=(",", ":")).encode() if made else b""
        self.calls = sum(len(lane) for phase in made["phases"] for lane in phase) if made else 0
        if len(self.text) > MOST_BYTES or self.calls > MOST_CALLS:
            sys.exit(f"a script of {self.calls} calls has {len(self.text)} bytes, which is more than may be")

    def ran(self, before):
        command = [*before, *self.command]
        run = subprocess.run(command, input=self.text, capture_output=True)
        if run.returncode not in (0, DIFFERS):
            sys.exit(f"{' '.join(command)} ended with {run.returncode}:\n{run.stderr.decode()}")
        return run

    def is_known(self):
        """Whether the program knows the words."""
        return subprocess.run(self.command, input=self.text, capture_output=True).returncode != 2

    def resident(self):
        """The most memory that was resident, in KB."""
        return int(self.ran([sys.executable, "-S", "-c", RESIDENT]).stdout)

    def measure(self, functions=0, inclusive=False, within=None):
        """The instructions, of the whole or within calls of one function, and the functions that took most."""
        with tempfile.TemporaryDirectory() as folder:
            found = pathlib.Path(folder) / "callgrind"
            self.ran(["valgrind", "--tool=callgrind", f"--callgrind-out-file={found}", *([f"--toggle-collect={within}"] if within else [])])
            total = int(re.search(r"^(?:summary|totals): (\d+)", found.read_text(), re.MULTILINE).group(1))
            lines = []
            if functions:
                listing = subprocess.run(
                    ["callgrind_annotate", *["--inclusive=yes"] * inclusive, str(found)], capture_output=True, text=True
                ).stdout
                lines = [line for line in listing.splitlines() if re.match(r"\s*[\d,]+ \(", line)][1 : functions + 1]
            return total, lines


def row(title, run, calls, words, half=None):
    """Prints a script's line of the table."""
    total, lines = run.measure(words.functions, words.inclusive)
    memory = f"{run.resident() / calls:.1f}" if calls >= FEW else ""
    growth = ""
    if half:
        growth = f" {total / calls / (half.measure()[0] / half.calls):.2f} |"
    print(f"| {title} | {calls} | {total} | {total // calls} | {memory} |{growth}", *lines, sep="\n", flush=True)


def submits(program):
    """The tables of what a submit takes under the lock, and of what it takes to note a step."""
    print("| Copies | Instructions of the submit under the lock | A copy | Of that what it adds to the trace, a copy |")
    print("|---|---|---|---|")
    for count in COPIES:
        with_it, without = (Run(program, ["run"], copies(count, n)).measure(within=LOCKED)[0] for n in (1, 0))
        added = Run(program, ["run"], copies(count, 1)).measure(within=ADDED)[0]
        print(f"| {count:,} | {with_it - without:,} | {(with_it - without) // count:,} | {added // count:,} |", flush=True)
    print("\n| Buffers that were used before | Instructions of one more note |")
    print("|---|---|")
    for count in USED:
        more, less = (Run(program, ["run"], cleared(count, n)).measure(within=NOTE)[0] for n in (AGAIN, 0))
        print(f"| {count:,} | {(more - less) // AGAIN:,} |", flush=True)


def loops(words):
    """What is measured through C: what calls cost and keep, whether that is more than the document has, or the same beside a browser."""
    if words.check and not through_c.has("gcc", "nothing is measured through C"):
        return
    with tempfile.TemporaryDirectory() as folder:
        loop = through_c.Loop(through_c.linked(words.archive, words.libc), folder)
        if words.beside_browser:
            print(beside.table(loop, words.browser, words.only))
        elif words.kept:
            print(through_c.memory_table(loop, words.only, [*through_c.ROUNDS, 10_000_000]))
        elif words.check:
            sys.exit(0 if through_c.check(loop, words.counts or "large") else 1)
        else:
            counts = [words.counts] if words.counts else list(through_c.COUNTS)
            tables = [through_c.costs_table(loop, counts, words.only, words.functions), through_c.memory_table(loop, words.only)]
            (through_c.put if words.write else print)("\n\n".join(filter(None, tables)))


def scripts(words):
    """The table of what calls of scripts cost."""
    heads = (
        "| Trace | Lines | Instructions | A line | KB a line |"
        if words.traces
        else "| Script | Calls | Instructions | A call | KB a call |"
    )
    print(f"{heads}{' Against half |' * (words.long or words.traces)}")
    print(f"|---|---|---|---|---|{'---|' * (words.long or words.traces)}")
    if words.traces:
        for title, make in TRACES:
            if words.only in title.format(LINES):
                whole, half = Run(words.program, ["check"], make(LINES)), Run(words.program, ["check"], make(LINES // 2))
                row(title.format(whole.calls), whole, whole.calls, words, half)
        return
    if words.long:
        for title, make, size in LONG:
            if words.only in title.format(size):
                whole, half = Run(words.program, ["run"], make(size)), Run(words.program, ["run"], make(size // 2))
                row(title.format(size), whole, whole.calls, words, half)
        return
    for title, make, sizes in SCRIPTS:
        for size in sizes:
            if words.only in title.format(size):
                run = Run(words.program, ["run"], make(size))
                row(title.format(size), run, run.calls, words)
    for line, calls in MADE:
        run = Run(words.program, line.split())
        if words.only in line and run.is_known():
            row(f"the words `{line}`", run, calls, words)


def arguments():
    parser = argparse.ArgumentParser(prog="measure/bench", description=__doc__, formatter_class=argparse.RawDescriptionHelpFormatter)
    parser.add_argument("--program", default=TOP / "crates/wgsim/out/wgsim", type=pathlib.Path)
    parser.add_argument("--only", default="")
    for word in ("long", "traces", "texts", "kept", "submits", "through-c", "check", "beside-browser", "write", "inclusive"):
        parser.add_argument(f"--{word}", action="store_true")
    parser.add_argument("--counts", choices=through_c.COUNTS)
    parser.add_argument("--archive")
    parser.add_argument("--libc")
    parser.add_argument("--browser")
    parser.add_argument("--functions", default=0, type=int)
    return parser.parse_args()


def main():
    words = arguments()
    if words.texts and words.check:
        sys.exit(0 if texts.check(words.program) else 1)
    elif words.texts:
        texts.table(words.program)
    elif words.through_c or words.check or words.beside_browser or words.kept:
        loops(words)
    elif words.submits:
        submits(words.program)
    else:
        scripts(words)


main()
