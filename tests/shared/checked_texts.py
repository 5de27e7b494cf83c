"""Texts that are checked, each of which stands at the edge of a rule of traces: what is just a line of a trace and what is none, which
lines may follow which, and which of several rules comes first."""

STEP = "step 0 op 1 clear"
GREATEST, GREATEST_32 = 2**53 - 1, 2**32 - 1

# Lines that may follow a step line, and such that are none of a trace, or not there.
LINES = [
    "use b 0 clear", "use q 0 clear", "use t 0 color 0 0 1 clear", "use s 0 color 0 0 1 clear", "use b 0 none", "use b 0", "use b 0 ",
    "use b 0 clear ", "use  b 0 clear", " use b 0 clear", "use b 00 clear", "use b 01 clear", "use b +1 clear", "use b -0 clear",
    "use b 0 0 1 clear", "use q 0 0 1 clear", f"use b {GREATEST} clear", f"use b {GREATEST + 1} clear",
    f"use t 0 color {GREATEST_32} 0 1 clear", f"use t 0 color {GREATEST_32 + 1} 0 1 clear", f"use t 0 color 0 0 {GREATEST_32} clear",
    f"use t 0 color 0 0 {GREATEST_32 + 1} clear", f"use t {GREATEST} stencil 0 {GREATEST_32 - 1} {GREATEST_32} clear",
    "use t 0 depth 0 1 1 clear", "use t 0 depth 0 2 1 clear", "use t 0 colour 0 0 1 clear", "use t 0 all 0 0 1 clear", "use t 0 clear",
    "use x 0 clear", "use b 0 input+constant", "use b 0 constant+input", "use b 0 input+input", "use b 0 +input", "use b 0 input+",
    "use b 0 input++clear", "use b 0 Input",
    (
        "use b 0"
        " input+constant+storage+storage-read+attachment+attachment-read+copy-src+copy-dst"
        "+query-write+query-read+host-read+host-write+clear"
    ),
    "use b 0 read", "use b 0 write", "Use b 0 clear", "use", "acc read b 0 0 1", "acc write q 0 0 1", "acc both t 0 stencil 0 0 1",
    "acc drop s 0 color 0 0 1", "acc readdrop b 0 0 1", "acc clear b 0 0 1", "acc read s 0 depth 0 0 1", "acc read s 0 stencil 0 0 1",
    "acc read b 0", "acc read b 0 0", "acc read b 0 1 1", "acc read b 0 1 0", "acc read b 0 0 1 2",
    f"acc read b {GREATEST} {GREATEST - 1} {GREATEST}", f"acc read b 0 0 {GREATEST + 1}", f"acc read q 0 0 {GREATEST_32}",
    f"acc read q 0 0 {GREATEST_32 + 1}", f"acc read q 0 {GREATEST_32} {GREATEST_32 + 1}", f"acc read s 0 color 0 0 {GREATEST_32}",
    f"acc read s 0 color 0 0 {GREATEST_32 + 1}", f"acc read s 0 color {GREATEST_32 + 1} 0 1", f"acc read t 0 color {GREATEST_32} 0 1",
    "acc read t 0 0 1", "acc read", "acc b 0 0 1", "acc read write b 0 0 1", "bar b 0 clear copy-src", "bar b 0 none copy-src",
    "bar q 0 none copy-src", "bar t 0 color 0 0 1 none copy-src", "bar s 0 color 0 0 1 none copy-src", "bar b 0 clear none",
    "bar b 0 none none", "bar b 0 clear", "bar b 0 clear copy-src clear", "bar b 0 clear+copy-src clear+copy-src", "bar",
    "bar b 0 copy-src+clear copy-dst+input", "bar t 0 color 0 0 0 none copy-src", "bar t 0 color 0 0 9 none copy-src",
    "bar b 0 0 1 clear copy-src", "step 1 op 1 clear", "step 1 host 0 clear", "step 1 op 0 hostRead", "step 1 op 1 late",
    "step 1 op 1 Clear", "step 1 op 1", "step 1 clear", "step 1 op clear", "step 0 op 1 clear", "step 2 op 1 clear", "step 01 op 1 clear",
    "step 1 op 01 clear", f"step 1 op {GREATEST} clear", f"step 1 op {GREATEST + 1} clear", "step 1 op 1 submit",
    "step 1 op 1 resolveQuerySet", "step 1 op 1 copyTextureToTexture", "step 1 op 1 clear clear", "step 1 entry 1 clear", "free b 0",
    "free t 0", "free q 0", "free s 0", "free t 0 color 0 0 1", "free", "free b", f"free b {GREATEST}", f"free b {GREATEST + 1}",
    "free b 0 ", "end", "end ", " end", "End", "trace", "history", "", " ", "0 0 lose plain", "clear", "# x",
]

# Traces whole, from behind the line `trace`.
WHOLE = [
    [],
    ["end"],
    [STEP],
    [STEP, "end"],
    ["end", "end"],
    ["end", ""],
    ["end", STEP],
    ["end", "free b 0"],
    ["end", "trace"],
    ["end", "bar b 0 none"],
    ["use b 0 clear", "end"],
    ["acc read b 0 0 1", "end"],
    ["free b 0", "end"],
    ["free b 0", "use b 0 clear", "end"],
    ["free b 0", "acc read b 0 0 1", "end"],
    ["bar b 0 clear input", "end"],
    ["bar b 0 clear input", "free b 0", "end"],
    ["bar b 0 clear input", "use b 0 clear", "end"],
    ["bar b 0 clear input"],
    ["bar b 0 clear input", "bar b 0 clear input", STEP, "end"],
    ["bar b 0 clear input", "step 1 op 1 clear", "end"],
    ["bar b 0 clear input", "other", "end"],
    [STEP, "acc read b 0 0 1", "use b 0 clear", "end"],
    [STEP, "use b 0 clear", "use b 0 clear", "end"],
    [STEP, "use b 0 clear", "bar b 0 clear input", "end"],
    [STEP, "acc read b 0 0 1", "acc write b 0 1 2", "end"],
    [STEP, "acc read b 0 0 2", "acc write b 0 1 2", "end"],
    [STEP, "acc read b 0 0 1", "acc read b 0 2 3", "acc read b 0 1 2", "end"],
    [STEP, "acc read b 0 0 1", "acc read b 0 2 3", "acc read b 0 1 3", "end"],
    [STEP, "acc read b 0 0 9", "acc read b 0 2 3", "end"],
    [STEP, "acc read b 0 2 3", "acc read b 0 0 9", "end"],
    [STEP, "acc read b 0 0 1", "acc write b 1 0 1", "end"],
    [
        STEP, "acc read t 0 color 0 0 1", "acc read t 0 depth 0 0 1", "acc read t 0 color 1 0 1", "acc read s 0 color 0 0 1",
        "acc read q 0 0 1", "end",
    ],
    [STEP, "acc read t 0 color 0 0 2", "acc read t 0 depth 0 0 1", "acc write t 0 color 0 1 3", "end"],
    [STEP, "acc read s 0 color 1 0 2", "acc drop s 0 color 1 1 2", "end"],
    [STEP, "acc read b 0 0 1", "acc read b 0 0 1"],
    [STEP, "acc read b 0 0 1", "acc read b 0 0 1", "other"],
    [STEP, "acc read b 0 0 1", "free b 0", "acc read b 0 0 1", "end"],
    [STEP, "acc read b 0 0 1", "step 1 op 1 clear", "acc read b 0 0 1", "end"],
    [STEP, "acc read b 0 0 1", "step 2 op 1 clear", "acc read b 0 0 1", "end"],
    [STEP, "acc read b 0 0 1", STEP, "acc read b 0 0 1", "end"],
    [STEP, "step 1 op 1 clear", "step 3 op 1 clear", "other", "end"],
]

# Traces that agree or differ: their accesses and barriers alone, step by step.
JUDGED = [
    [["write b 0 0 4"], ["write b 0 4 8"]],
    [["write b 0 0 8"], ["write b 0 4 12"]],
    [["write b 0 0 8"], ["write b 0 4 12"], ["|b 0", "write b 0 0 12"]],
    [["write b 0 0 8"], ["write b 0 4 12"], ["|b 0", "read b 0 0 4"]],
    [["write b 0 0 8"], ["write b 0 4 12"], ["|b 0", "read b 0 4 5"], ["|b 0", "write b 0 4 8"]],
    [["write b 0 0 4"], ["read b 0 0 4"]],
    [["write b 0 0 4"], ["|b 0", "read b 0 0 4"]],
    [["write b 0 0 4"], ["|b 1", "read b 0 0 4"]],
    [["read b 0 0 4"], ["write b 0 0 4"]],
    [["read b 0 0 4"], ["|b 0", "write b 0 0 4"]],
    [["read b 0 0 4"], ["read b 0 0 4"]],
    [["write q 7 0 4"], ["|b 7", "read q 7 3 5"]],
    [["write q 7 0 4"], ["|q 7", "read q 7 3 5"]],
    [["write b 0 0 1"], ["|b 0"], ["write b 0 0 1"]],
    [["write b 0 0 1"], ["write b 0 0 1"], ["|b 0"]],
    [["|b 0", "write b 0 0 1"], ["write b 0 0 1"]],
    [["both b 0 0 1"], ["|b 0", "both b 0 0 1"], ["|b 0", "both b 0 0 1"]],
    [["both b 0 0 1"], ["|b 0", "both b 0 0 1"], ["both b 0 0 1"]],
    [["drop b 0 0 1"], ["|b 0", "write b 0 0 1"], ["|b 0", "readdrop b 0 0 1"]],
    [["drop b 0 0 1"], ["write b 0 0 1"], ["|b 0", "readdrop b 0 0 1"]],
    [["drop b 0 0 1"], ["drop b 0 0 1"], ["|b 0", "write b 0 0 1"]],
    [["read b 0 0 9"], ["write b 0 2 3"], ["write b 0 1 9"]],
    [["write t 0 color 0 0 2"], ["|t 0 color 0 0 1", "read t 0 color 0 0 2"]],
    [["write t 0 color 0 0 2"], ["|t 0 color 0 0 2", "read t 0 color 0 0 2"]],
    [["write t 0 color 0 0 2"], ["|t 0 color 1 0 2", "read t 0 color 0 0 2"]],
    [["write t 0 depth 0 0 2"], ["|t 0 stencil 0 0 2", "read t 0 depth 0 0 2"]],
    [["write s 0 color 0 0 9"], ["|t 0 color 0 0 1", "read s 0 color 0 5 6"]],
    [["write s 0 color 0 0 9"], ["|t 0 color 0 5 6", "read s 0 color 0 5 6"]],
    [["write s 0 color 0 0 9"], ["|t 0 color 0 0 9", "read s 0 color 0 5 6"]],
    [["write s 0 color 1 0 9"], ["|t 0 color 0 0 1", "read s 0 color 1 5 6"]],
    [["write s 0 color 0 0 9"], ["|t 0 color 0 1 9", "write s 0 color 0 5 6"]],
    [["write t 1 color 0 0 1"], ["write s 1 color 0 0 1"], ["write q 1 0 1"], ["write b 1 0 1"]],
    [
        ["write t 1 color 0 0 1", "write s 1 color 0 0 1", "write q 1 0 1", "write b 1 0 1"],
        ["write t 1 color 0 0 1", "write s 1 color 0 0 1", "write q 1 0 1", "write b 1 0 1"],
    ],
    [
        ["write t 1 color 0 0 1", "write s 1 color 0 0 1", "write q 1 0 1"],
        ["write t 1 color 0 0 1", "write s 1 color 0 0 1", "write q 1 0 1"],
    ],
    [["write t 1 stencil 0 0 1", "write s 1 color 0 0 1"], ["write t 1 stencil 0 0 1", "write s 1 color 0 0 1"]],
    [["write b 10 0 1", "write t 9 color 0 0 1"], ["write b 10 0 1", "write t 9 color 0 0 1"]],
    [["write t 1 stencil 0 0 1", "write t 1 color 5 0 1"]] * 2,
    [["write t 1 color 1 0 1", "write t 1 color 0 9 10"]] * 2,
    [["write b 1 0 1"], ["read b 1 0 1"], ["|b 1", "write b 1 0 1"], ["read b 1 0 1"]],
    [["read b 1 0 1"], ["read b 0 0 1"], ["write b 1 0 1"], ["write b 0 0 1"]],
    [["write b 0 0 1"], ["write b 0 0 1"], ["read b 0 0 1"], ["write b 0 0 1"]],
]


def of_steps(steps):
    lines = []
    for number, rows in enumerate(steps):
        lines += [f"bar {row[1:]} clear copy-src" for row in rows if row.startswith("|")] + [f"step {number} op {number + 1} dispatch"]
        lines += [f"acc {row}" for row in rows if not row.startswith("|")]
    return [*lines, "end"]


def text_of(lines, before=("history", "anything", "end")):
    return "".join(line + "\n" for line in [*before, "trace", *lines]).encode()


ODD = {
    "empty": b"",
    "a-line-end": b"\n",
    "trace-alone": b"trace\n",
    "trace-without-a-line-end": b"trace",
    "trace-and-end": b"trace\nend\n",
    "no-last-line-end": b"trace\nend",
    "no-trace": b"history\nend\n",
    "trace-with-a-space": b"trace \nend\n",
    "tab-before-the-trace": b"a\tb\ntrace\nend\n",
    "return": b"trace\r\nend\r\n",
    "the-last-letter": b"~ !\ntrace\nend\n",
    "past-the-last-letter": b"\x7f\ntrace\nend\n",
    "zero": b"\x00\ntrace\nend\n",
    "no-ascii": "ä\ntrace\nend\n".encode(),
    "no-ascii-after-a-wrong-line": "trace\nother\nä\nend\n".encode(),
    "no-line-end-after-a-wrong-line": b"trace\nother\nend",
    "two-traces": b"trace\ntrace\nend\n",
    "trace-before-history": b"trace\nhistory\ntrace\nend\n",
    "spaces-at-the-limit": None,
    "spaces-past-the-limit": None,
    "lines-at-the-limit": None,
}
MOST_BYTES = 67_108_864


def odd(name):
    great = {
        "spaces-at-the-limit": b" " * MOST_BYTES,
        "spaces-past-the-limit": b" " * (MOST_BYTES + 1),
        "lines-at-the-limit": b"\n" * (MOST_BYTES - 10) + b"trace\nend\n",
    }
    return great[name] if ODD[name] is None else ODD[name]


def of_odd(name):
    return lambda: odd(name)


def of_lines(lines):
    return lambda: text_of(lines)


FIXED = {f"checked-{name}": of_odd(name) for name in ODD}
FIXED |= {
    f"checked-line-{number}": of_lines([STEP, line, *(["step 1 op 1 dispatch"] if line.startswith("bar") else []), "end"])
    for number, line in enumerate(LINES)
}
FIXED |= {f"checked-whole-{number}": of_lines(lines) for number, lines in enumerate(WHOLE)}
FIXED |= {f"checked-judged-{number}": of_lines(of_steps(steps)) for number, steps in enumerate(JUDGED)}
