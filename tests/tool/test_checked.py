"""What check says of traces: in words and as an object, with the barrier that is missing, and of texts that are no trace.

Where many traces are asked about, the judge of the second reading answers in the place of the program.
"""

import json
import random
import re

from common import CASES, EXAMPLES, TOP, asked, check, ends_so, wanted, wgsim
from model import judge, trace_text
from shared import all_orders, checked_texts, small_traces
from wgsim.matching import checked as checks
from wgsim.matching import notrace
from wgsim.pages import marked_trace
from wgsim.reading import places

REPORTS = [path for script in EXAMPLES for path in sorted(script.parent.glob(script.stem + "*.report")) if wanted(script)[0] == 0]
LOG = TOP / "examples/two-overlapping-writes.report"
WITHOUT = LOG.read_bytes().replace(b"bar b 0 copy-dst copy-dst\n", b"")
MANY = 1500


class Judge:
    """The judge of the second reading, as a program that is asked."""

    plays = True
    said = "the judge"

    def check(self, data):
        status, text = judge.check(data)
        return status, text.encode()


class Fixed(Judge):
    """A program that has one answer."""

    def __init__(self, line):
        self.line = line

    def check(self, data):
        return judge.DIFFERS, self.line


class Docs(Judge):
    """The program of the tests, under the name that the documents show."""

    said = "the proved program"

    def check(self, data):
        return asked.program.check(data)


def mended(data, found):
    """A trace with the barrier that is proposed, in front of its step."""
    lines = data.decode().split("\n")
    lines.insert(found.apart[1].at - 1, found.barrier())
    return "\n".join(lines).encode()


def items_of(data):
    return [item for _, item in trace_text.read(data)]


def number_of(step):
    return None if step is None else step.number


def may_see(items, cell, reader, writer):
    """Whether in some order that keeps the barriers a reader, or the end, sees a write, or none."""
    kinds = all_orders.cells_of(items)[cell]
    return any(
        all_orders.seen(order, kinds)[reader] == writer for order in all_orders.orders(sorted(kinds), all_orders.bars_of(items, cell))
    )


def test_mended():
    """Of random small traces: what is told may be seen, and with the barrier that is proposed the clash is gone, until the trace agrees."""
    chance, cases, rounds = random.Random(7), set(), 0
    for seed in range(MANY):
        data = small_traces.text_of(small_traces.small(chance))
        for _ in range(100):
            found = checks.Checked(data, "T", Judge())
            if found.status != judge.DIFFERS:
                break
            rounds += 1
            items, one = items_of(data), found.clash
            reader, cell, writer = judge.verdict(items)
            told = (number_of(one.reader), one.writer.number) == (reader, writer)
            check(
                told and may_see(items, cell, reader, number_of(one.otherwise)),
                f"check tells what cannot be seen, of\n{data.decode()}{found.lines()}",
            )
            check(
                number_of(one.seen) == all_orders.seen(sorted(all_orders.cells_of(items)[cell]), all_orders.cells_of(items)[cell])[reader],
                f"check tells another write, of\n{data.decode()}",
            )
            cases.add((one.case, one.reader is None))
            data = mended(data, one)
            check(
                (reader, cell, writer) not in all_orders.clashes(items_of(data)),
                f"the barrier that check proposes is not enough:\n{data.decode()}{found.lines()}",
            )
        check(found.status == judge.AGREES, f"with the barriers that check proposes the trace does not come to agree (seed {seed})")
    check(rounds > MANY // 2 and len(cases) == 4, f"of {MANY} random traces too few differ: {rounds} times, {cases}")


def test_left_out():
    """Of each report with a barrier left out, and without any: with the barriers that are proposed it agrees again."""
    chance, again, several = random.Random(11), 0, 0
    for path in [
        *REPORTS,
        *(each for script in CASES for each in script.parent.glob(script.stem + ".report") if each.stat().st_size < 20_000),
    ]:
        lines = path.read_text().splitlines()
        bars = [number for number, line in enumerate(lines) if line.startswith("bar ")]
        for left in [[chance.choice(bars)], bars] if bars else []:
            data = small_traces.text_of([line for number, line in enumerate(lines) if number not in left])
            found = checks.Checked(data, path.name, Judge())
            again += len(left) == 1 and found.clash is not None and found.clash.barrier() == lines[left[0]]
            several += len(left) == 1 and found.clash is not None
            for _ in range(400):
                if found.status != judge.DIFFERS:
                    break
                data = mended(data, found.clash)
                found = checks.Checked(data, path.name, Judge())
            check(found.status == judge.AGREES, f"{path.name} without barriers does not come to agree with those that check proposes")
    check(several > 20 and again * 2 > several, f"of {several} barriers that were left out check proposes {again} as they were")


def test_bad():
    """Of each text that is no trace it is told what breaks the rule, at the line that the program names, in words of docs/report.md."""
    table = (TOP / "docs/report.md").read_text(encoding="utf-8").partition("## What `check` writes")[2]
    for sentence in notrace.REFUSES:
        check(sentence in table, f"docs/report.md does not say: {sentence}")
    chance, told = random.Random(3), set()
    texts = [make() for name, make in checked_texts.FIXED.items() if "limit" not in name]
    texts += [small_traces.changed(chance, small_traces.small(chance)) for _ in range(MANY // 3)]
    for data in texts:
        found = checks.Checked(data, "T", Judge())
        if found.status != judge.BAD_TRACE:
            continue
        rule, line = found.fault()
        what = notrace.find(data, rule, line)
        check(what is not None and (rule == 1 or what.line == line), f"of {found.line} nothing is found in\n{data!r}")
        if what is not None:
            told.add(what.refuses)
            shown = found.lines()
            check(what.column >= 1 and shown[-1].strip() == "^" and "expected:" in "".join(shown), f"of {found.line} is told:\n{shown}")
            check(
                json.loads(checks.check_json(data, "T", Judge())[0])["at"] == f"{what.line}:{what.column}",
                f"{found.line}: another place with --json",
            )
    check(told == set(notrace.REFUSES), f"these were never met: {set(notrace.REFUSES) - told}")


# Traces behind the line `trace`, with the status, and what has to be said of them.
SAID = (
    ("step 0 op 1 writeBuffer|acc write b 3 0 8|end", 0, ["agrees: in every order"]),
    (
        "step 0 op 1 writeBuffer|acc write b 3 0 8|step 1 op 2 dispatch|acc both b 3 0 8|end", 8,
        [
            "differs 1 0 b 3 0 1: step 1 may see byte 0 of buffer 3 otherwise than as printed",
            "step 1 reads it:\n    T:4: step 1 op 2 dispatch\n    T:5: acc both b 3 0 8\n",
            "step 0 writes it, as the last before step 1:\n    T:2: step 0 op 1 writeBuffer\n    T:3: acc write b 3 0 8\n",
            "as printed, step 1 sees what step 0 wrote",
            "the barriers let step 1 come before step 0, and it then sees what no step of the trace wrote",
            "on buffer 3 between step 0 and step 1. This one is enough, in front of T:4:\n    bar b 3 copy-dst storage\n",
            "is guessed",
        ],
    ),
    (
        "step 0 op 1 clear|use q 2 clear|acc write q 2 0 4|step 1 op 1 renderPass|use q 2 query-write|acc write q 2 1 2|"
        "bar q 2 query-write query-read|step 2 op 1 resolveQuerySet|use q 2 query-read|acc read q 2 1 3|end",
        8,
        [
            "step 2 may see query 1 of query set 2", "step 0 writes it earlier:", "step 1 writes it, as the last before step 2:",
            "the barriers let step 0 come after step 1, and step 2 then sees what step 0 wrote",
            "in front of T:5:\n    bar q 2 clear query-write\n",
        ],
    ),
    (
        (
            "step 0 op 1 copyTextureToBuffer|use t 5 color 1 0 4 copy-src|acc read t 5 color 1 1 4|step 1 op 1 renderPass|use t 5 color 1 2"
            " 4 constant+attachment|acc write t 5 color 1 2 4|end"
        ),
        8,
        [
            "differs 0 1 t 5 color 1 2 3", "color mip 1 layer 2 of texture 5", "step 1 writes it later:",
            "as printed, step 0 sees what no step of the trace wrote",
            "the barriers let step 1 come before step 0, which then sees what step 1 wrote",
            "    bar t 5 color 1 2 3 copy-src constant+attachment\n",
            "or, for all layers that both access: bar t 5 color 1 2 4 copy-src constant+attachment",
        ],
    ),
    (
        "step 0 op 1 clear|acc write s 5 color 0 0 9|step 1 op 1 dispatch|acc read s 5 color 0 3 4|end",
        8,
        [
            "color mip 0 slice 3 of texture 5",
            "a barrier is missing, on color mip 0 of texture 5 between",
            "    bar t 5 color 0 0 1 clear constant\n",
        ],
    ),
    (
        "step 0 op 1 clear|acc write b 3 8 8|end",
        9,
        [
            "bad trace 2 3: T is no trace", "trace rule 2 refuses: a line after `trace` is neither", "\nT:3:17\n", "found:    `8`",
            "HI above LO",
        ],
    ),
    (
        "step 0 op 1 clear|acc wrote b 3 0 8|end",
        9,
        ["bad trace 2 3", "\nT:3:5\n", "one of read, write, both, drop, readdrop", 'the nearest is "write"'],
    ),
    ("step 1 op 1 clear|end", 9, ["bad trace 3 2", "\nT:2:6\n", "step 0: steps are counted from 0"]),
    (
        "step 0 op 1 clear|bar b 0 clear input|end",
        9,
        ["bad trace 3 4", "`end` behind a `bar` line", "a barrier behind the last step is left out"],
    ),
    (
        "step 0 op 1 copyBufferToBuffer|acc read b 3 0 8|acc write b 3 4 12|end",
        9,
        ["bad trace 4 4", "\nT:4:11\n", "byte 4 of buffer 3, which line 3 gives too: `acc read b 3 0 8`", "one line `both`"],
    ),
)


def test_said(folder):
    """What is said of each answer, from a file and from standard input, with the status of the program."""
    for lines, status, words in SAID:
        data = small_traces.text_of(["trace", *lines.split("|")])
        (folder / "T").write_bytes(data)
        told = ends_so(status, "check", str(folder / "T"))[0].replace(str(folder / "T"), "T")
        for word in words:
            check(word in told, f"check does not say `{word}` of {lines}:\n{told}")
        check(
            ends_so(status, "check", *["-"] * (status == 0), data=data)[0].replace("<standard input>", "T") == told,
            f"check says something else of standard input than\n{told}",
        )
        one = json.loads(checks.check_json(data, "T", Judge())[0])
        check(
            (one["status"], told.startswith(one["answer"] + ":"), one["kind"])
            == (status, True, ("agrees", "differs", "bad trace")[max(status - 7, 0)]),
            f"check --json: {one}",
        )
        page = marked_trace.picture(data, "T", Judge())[0]
        check(
            page.count("bar missing'>missing") == (status == 8) and page.startswith("<!DOCTYPE html>"),
            f"picture --check of {lines} marks no missing barrier",
        )
    for data, words in (
        (b"", "which is empty"),
        (b"trace\r\nend\r\n", "lines end with LF alone"),
        (b"history\nend\n", "no line `trace`"),
        (b"trace\nend", "LF at the end of the last line"),
        (b"bad script 1\n", "the report of a script that is refused"),
    ):
        told = checks.check(data, "T", Judge())[0]
        check(told.startswith("bad trace 1 0: ") and words in told, f"check of {data} does not say `{words}`:\n{told}")


def test_object():
    """The keys of the object that --json writes of a clash, and of a bad trace."""
    one = json.loads(ends_so(8, "check", "--json", "--script", str(LOG.with_suffix(".json")), data=WITHOUT)[0])
    wants = {"kind": "differs", "answer": "differs end 0 b 0 4 5", "status": 8, "cell": "b 0 4 5", "reader": None, "case": "earlier"}
    check({key: one[key] for key in wants} == wants and one["maySee"] == one["writer"] and one["sees"]["step"] == 1, f"check --json: {one}")
    writer = {
        "step": 0,
        "line": 6,
        "text": "step 0 op 1 writeBuffer",
        "accessLine": 8,
        "access": "acc write b 0 0 8",
        "call": "1:82",
        "do": "writeBuffer",
    }
    check(one["writer"] == writer, f"check --json: the writer is {one['writer']}")
    barrier = {"text": "bar b 0 copy-dst copy-dst", "after": 0, "before": 1, "line": 9, "guessed": [], "wider": None}
    check(one["barrier"] == barrier, f"check --json: the barrier is {one['barrier']}")
    one = json.loads(ends_so(9, "check", "--json", data=WITHOUT.replace(b"step 1", b"step 2"))[0])
    wants = {
        "kind": "bad trace",
        "rule": 3,
        "line": 9,
        "at": "9:6",
        "text": "step 2 op 2 writeBuffer",
        "condition": "step 2",
        "remedy": None,
    }
    check({key: one[key] for key in wants} == wants and one["values"]["expected"].startswith("step 1: "), f"check --json: {one}")


def test_script():
    """With the script of a report the steps have their calls, and objects their names; where the two do not belong together, it is said."""
    script, other = str(LOG.with_suffix(".json")), str(TOP / "examples/first-frame.json")
    told = ends_so(8, "check", "--script", script, data=WITHOUT)[0]
    for words in (
        'byte 4 of "b" (1:31)',
        f'of the call at {script}:1:82: {{"do":"writeBuffer","buffer":"b","offset":0,"size":8}}',
        'a barrier is missing, on "b" (1:31) between',
    ):
        check(words in told, f"check --script does not say `{words}`:\n{told}")
    for more, data, why in (
        (other, WITHOUT, "cannot match them: "),
        (script, b"trace\n" + WITHOUT.partition(b"trace\n")[2], "line 1 is none of a report"),
        (str(LOG), WITHOUT, "cannot match them: "),
    ):
        told = ends_so(8, "check", "--script", more, data=data)[0]
        check(why in told and "byte 4 of buffer 0" in told, f"check --script {more} does not say `{why}`:\n{told}")
        check(
            json.loads(ends_so(8, "check", "--json", "--script", more, data=data)[0])["unmatched"],
            "check --json does not say that the script is another one",
        )
    check("agrees" in ends_so(0, "check", "--script", script, str(LOG))[0], "check --script of what agrees does not say so")
    for path in EXAMPLES:
        status, reports_of = wanted(path)
        told = checks.check(reports_of[0].replace(b"\nuse b", b"\nuse q"), path.name, Judge(), places.Text(path.read_bytes(), path.name))[0]
        check(
            status != 0 or "cannot match" not in told, f"check --script does not match the report of {path.name} with its script:\n{told}"
        )


def test_pages():
    """The page of a trace: it marks the steps, names by the script, and is a page too where the text is no trace, or is empty."""
    page = ends_so(8, "picture", "--check", "--script", str(LOG.with_suffix(".json")), data=WITHOUT)[0]
    check(page.count("class='step work marked'") == 2 and page.count("class='mark'>") == 2, "picture --check does not mark two steps")
    check(
        "aria-label='b'" in page and "missing:<br>copy-dst<br>\u2192 copy-dst" in page,
        "picture --check has not the missing barrier by its names",
    )
    for path in REPORTS:
        page, status = marked_trace.picture(path.read_bytes(), path.name, Judge())
        check(
            status == 0
            and "bar missing" not in page.partition("<main>")[2]
            and len(re.findall(r">step \d+<", page)) == path.read_text().count("\nstep "),
            f"picture --check of {path.name}: not each step, or a mark",
        )
    check(
        "The trace is empty" in marked_trace.picture(b"trace\nend\n", "T", Judge())[0], "picture --check of an empty trace does not say so"
    )


def test_shown():
    """What docs/checking.md and docs/tool.md show of check is what it says."""
    for name in ("checking", "tool"):
        for command, shown in re.findall(
            r"^\$ (.*?wgsim check.*)\n((?:.+\n|\n(?!```))*?)(?=^\$|^```$)", (TOP / f"docs/{name}.md").read_text(encoding="utf-8"), re.M
        ):
            data = LOG.read_bytes() if not command.startswith("grep") else WITHOUT
            where = LOG.relative_to(TOP) if not command.startswith("grep") else "<standard input>"
            told = checks.check(data, str(where), Docs())[0]
            check(told.rstrip("\n") == shown.rstrip("\n"), f"docs/{name}.md: `{command}` does not print what is shown of it:\n{told}")


def long(count):
    """A trace of many steps, of which the last alone has no barrier, with the line that the program writes of it."""
    lines = ["trace"]
    for number in range(count):
        bars = [f"bar b {number % 7} copy-dst copy-dst"] * (number != count - 1)
        lines += [*bars, f"step {number} op {number} writeBuffer", f"use b {number % 7} copy-dst", f"acc both b {number % 7} 0 8"]
    return small_traces.text_of([*lines, "end"]), f"differs {count - 8} {count - 1} b {(count - 1) % 7} 0 1\n".encode()


def test_statuses(folder):
    """What is not there or too large, a full device, and a trace of many lines."""
    check(
        wgsim("check", str(folder / "missing")).returncode == 4 and wgsim("check", str(folder)).returncode == 4,
        "wgsim check of no file: the status is not 4",
    )
    check(
        wgsim("check", "--script", str(folder / "missing"), str(LOG)).returncode == 4,
        "wgsim check with no such script: the status is not 4",
    )
    told, said = ends_so(7, "check", data=b" " * 67108865)
    check(not told and "more than 67108864 bytes" in said, f"wgsim check of a text that is too large says {said}")
    for count, said in (
        (700, lambda data, _: ends_so(8, "check", data=data)[0]),
        (300_000, lambda data, line: checks.check(data, "T", Fixed(line))[0]),
    ):
        data, line = long(count)
        told = said(data, line)
        wants = f"    bar b {(count - 1) % 7} copy-dst copy-dst\n    step {count - 1} op {count - 1} writeBuffer\n"
        check(told.startswith(line.decode().strip()) and wants in told, f"wgsim check of many lines says:\n{told}")
    for words in (["--json", "--json", "a", "b"], ["--script"], ["--script", "-"], ["--script", "-", "-"], ["--report", "a", "b"]):
        check(wgsim("check", *words).returncode == 2, f"wgsim check {' '.join(words)}: the status is not 2")
    for words in (["--script", "a", "b"], ["--check", "--report", "a", "b"], ["--check", "a", "b"], ["--check", "--script", "-"]):
        check(wgsim("picture", *words).returncode == 2, f"wgsim picture {' '.join(words)}: the status is not 2")
