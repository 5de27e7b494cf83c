"""Runs a program on every case of this folder, several at once, and compares what it writes and its exit status.

    tests/cases/run [--program PATH]    prints a line for each difference, and a count; fails if there is one
    tests/cases/run --rules             prints the rule numbers that no case has unmet, and runs nothing

README.md says what a case is.
"""

import argparse
import concurrent.futures
import json
import os
import pathlib
import re
import subprocess
import sys

import large
import large_passes
from made import lane, report

HERE = pathlib.Path(__file__).resolve().parent
TOP = HERE.parent.parent
TRACE_LIMIT = 67_108_864
VERDICTS = {"agrees": 0, "differs": 8, "bad": 9}
SECONDS = 300
TIMES = 10  # how often a script is run that has several reports


def files():
    """A case for each script that has a report of its own, or several, of which each run is to bring one."""
    for script in sorted(HERE.glob("*/*.json")):
        status = script.with_suffix(".status")
        number = int(status.read_text()) if status.exists() else 0
        name = str(script.relative_to(HERE).with_suffix(""))
        others = sorted(script.parent.glob(script.stem + ".alt*.report"))
        reports = [path.read_bytes() for path in (script.with_suffix(".report"), *others)]
        yield name, ["run"], script.read_bytes(), reports if others else reports[0], number


def tables():
    """A case for each row of a table of scripts that are refused."""
    for table in sorted(HERE.glob("*/*.refused")):
        around = "@"
        for number, line in enumerate(table.read_text(encoding="utf-8").splitlines(), 1):
            if line.startswith("> "):
                around = line[2:]
            elif line and not line.startswith("# "):
                refusal, script = line.split("\t")
                name = f"{table.relative_to(HERE)}:{number}"
                yield name, ["run"], around.replace("@", script).encode(), f"bad script {refusal}\n".encode(), 3


def traces():
    """A case of `check` for each row of a table of traces."""
    for table in sorted(HERE.glob("*/*.traces")):
        around = "@"
        for number, line in enumerate(table.read_text(encoding="utf-8").splitlines(), 1):
            if line.startswith("> "):
                around = line[2:]
            elif line and not line.startswith("# "):
                said, trace = line.split("\t")
                text = around.replace("@", trace).encode("ascii").decode("unicode_escape").encode("latin-1")
                yield f"{table.relative_to(HERE)}:{number}", ["check"], text, f"{said}\n".encode(), VERDICTS[said.split()[0]]


def lengths_of_traces():
    """The longest text that `check` reads, and one that is longer by one byte."""
    trace = b"trace\nstep 0 op 1 clear\nend\n"
    yield "the longest text to check", ["check"], trace.rjust(TRACE_LIMIT, b"\n"), b"agrees\n", 0
    yield "a text to check that is too long", ["check"], trace.rjust(TRACE_LIMIT + 1, b"\n"), b"", 7
    yield "the most spaces to check", ["check"], b" " * TRACE_LIMIT, b"bad trace 1 0\n", 9


def checks(played):
    """A case of `check` for each report that some case expects, and for those of the examples: each agrees."""
    expected = [
        (name, each)
        for name, words, _, reports, status in played
        if words[:1] == ["run"] and status == 0
        for each in (reports if type(reports) is list else [reports])
    ]
    expected += [(str(path.relative_to(TOP)), path.read_bytes()) for path in sorted(TOP.glob("examples/*.report"))]
    for name, text in expected:
        if text.startswith(b"history\n"):
            yield f"check of the report of {name}", ["check"], text, b"agrees\n", 0


# The words of generated scripts, and the line of each.
GENERATED = {
    "gen 1": "entries 21 ops 2 faults 0 frees 8 bars 2 clears 1",
    "gen 1 1": "entries 21 ops 2 faults 0 frees 8",
    "gen 2 3": "entries 41 ops 12 faults 0 frees 8",
    "gen 400": "entries 1617 ops 800 faults 0 frees 8 bars 1240 clears 48",
    "gen 50 8": "entries 1617 ops 800 faults 0 frees 8",
    "gen 8000": "entries 32017 ops 16000 faults 0 frees 8 bars 24043 clears 51",
    "gen 125 64": "entries 32017 ops 16000 faults 0 frees 8",
    "gen 8000 1": "entries 32017 ops 16000 faults 0 frees 8",
}


def losses():
    """The realistic frame, on a device that is lost before each of its calls in turn, and behind the last. Its events up to there, and
    their part of the trace, are those of the frame; behind there everything that is made is invalid, and nothing is queued, done or
    refused."""
    frame = TOP / "examples/realistic-frame"
    (calls,) = json.loads(frame.with_suffix(".json").read_text())["phases"][0]
    lines = frame.with_suffix(".report").read_text().splitlines()
    entries, trace = [line.split(" ", 2)[2] for line in lines[1:lines.index("trace")]], lines[lines.index("trace") + 1:-1]
    events = [call["do"] for call in calls if call["do"] == "finish" or "on" not in call]
    assert events == [entry.split(" ")[0] for entry in entries]
    map_entry = events.index("mapAsync")

    def on_a_lost_device(number, word, is_submitted):
        if word == "mapAsync":
            return f"mapAsync promise settle {number} aborted"
        if word == "complete":
            return "complete plain" if is_submitted else "complete bad"
        # What makes an object counts on in the numbers of objects, as in the frame.
        return entries[number - 1].replace(" valid", " invalid") if " made " in entries[number - 1] else f"{word} plain"

    for place in range(len(calls) + 1):
        lost = sum(call["do"] == "finish" or "on" not in call for call in calls[:place])
        queued = [entry.split(" op ")[1] for entry in entries[:lost] if " op " in entry]
        behind = [on_a_lost_device(number, word, "3" in queued) for number, word in enumerate(events[lost:], lost + 1)]
        waits = lost in range(map_entry + 1, len(events))
        said = [*entries[:lost], f"lose plain settle {map_entry} aborted" if waits else "lose plain", *behind]
        script = lane([json.dumps(call) for call in [*calls[:place], {"do": "lose"}, *calls[place:]]])
        yield f"the frame, lost before its call {place}", ["run"], script, report(said, steps_of(trace, queued, lost == len(events))), 0


def steps_of(trace, operations, with_host):
    """The beginning of a trace that has the steps of some operations, and with those the barriers before them, and host steps or none."""
    last, is_wanted = 0, False
    for number, line in enumerate(trace, 1):
        word, *fields = line.split(" ")
        if word == "step":
            is_wanted = fields[2] in operations if fields[1] == "op" else with_host
        if is_wanted and word in ("step", "use", "acc"):
            last = number
    return trace[:last]


def generated():
    """Scripts that the program generates: nothing is read, so that what stands in the input is not refused."""
    for line, counts in GENERATED.items():
        yield f"the words '{line}'", line.split(), b"no script", f"{counts}\n".encode(), 0


def words():
    """Words on the command line that ask for nothing."""
    lines = (
        "", "run x", "run run", "Run", "play", "gen", "gen 0", "gen 8001", "gen 200 41", "gen 126 64", "gen 8000 2", "gen 1 65",
        "gen 1 0",
    )
    lines += ("Check", "check 1", "check check", "check run", "run check", "check gen 1", "gen check")
    for line in (
        *lines, "gen 01", "gen 1 01", "gen +1", "gen -1", "gen 1x", "gen 4294967297", "gen 1 4294967297", "gen 1 1 1", "Gen 1", "gen run",
    ):
        yield f"the words '{line}'", line.split(), b"", b"", 2


def played():
    return [*files(), *tables(), *large.cases(), *large_passes.cases(), *losses(), *generated(), *words()]


def cases():
    run = played()
    return [*run, *traces(), *lengths_of_traces(), *checks(run)]


def shown(text):
    return repr(text[:200].decode("utf-8", "backslashreplace"))


def difference(program, case):
    """What is wrong with a case, or nothing."""
    reports = case[3]
    if type(reports) is not list:
        return difference_of_run(program, case, reports)
    return next((wrong for _ in range(TIMES) if (wrong := difference_of_run(program, case, *reports))), None)


def difference_of_run(program, case, *reports):
    """The same of one run, which is to bring one of some reports. Of several the difference is told to one that begins like it."""
    name, arguments, script, _, status = case
    try:
        run = subprocess.run([program, *arguments], input=script, capture_output=True, timeout=SECONDS)
    except subprocess.TimeoutExpired:
        return f"{name}: no end after {SECONDS} seconds"
    if run.stdout not in reports:
        report = max(reports, key=lambda one: len(os.path.commonprefix([one, run.stdout])))
        want, got = report.splitlines(True), run.stdout.splitlines(True)
        at = next((i for i, pair in enumerate(zip(want, got)) if pair[0] != pair[1]), min(len(want), len(got)))
        wanted = shown(want[at]) if at < len(want) else "the end"
        found = shown(got[at]) if at < len(got) else "the end"
        return f"{name}: line {at + 1} is to be {wanted}, and is {found}"
    if run.returncode != status:
        return f"{name}: the status is to be {status}, and is {run.returncode}"
    return None


def known_rules():
    """The rule numbers of the documents: of calls, and of scripts."""
    of_calls = re.findall(r"^\|[^|]*\| *(\d[\d, ]*)\|", (TOP / "docs/rules.md").read_text(encoding="utf-8"), re.M)
    script = (TOP / "docs/script.md").read_text(encoding="utf-8").split("## What is refused")[1]
    of_scripts = re.findall(r"^\| (\d+) \|", script, re.M)
    return {int(n) for cell in of_calls for n in cell.split(",")}, {int(n) for n in of_scripts}


def print_rules():
    reports = b"\n".join(case[3] if type(case[3]) is bytes else b"\n".join(case[3]) for case in played()).decode()
    met = {int(n) for n in re.findall(r" fault [a-z-]+ (\d+) ", reports)}
    refused = {int(n) for n in re.findall(r"^bad script (\d+)", reports, re.M)}
    of_calls, of_scripts = known_rules()
    print("rules of calls that no case has unmet:", *sorted(of_calls - met))
    print("rules of scripts that no case breaks:", *sorted(of_scripts - refused))


def main():
    parser = argparse.ArgumentParser(prog="tests/cases/run", description="Runs a program on every case of this folder.")
    parser.add_argument("--program", default=str(TOP / "crates/wgsim/out/wgsim"))
    parser.add_argument("--rules", action="store_true", help="print the rule numbers that no case has unmet")
    options = parser.parse_args()
    if options.rules:
        print_rules()
        return 0
    if not os.access(options.program, os.X_OK):
        sys.exit(f"tests/cases/run: there is no program {options.program}")
    every = cases()
    with concurrent.futures.ThreadPoolExecutor(os.cpu_count()) as pool:
        found = [line for line in pool.map(lambda case: difference(options.program, case), every) if line]
    print(*found, sep="\n", end="\n" if found else "")
    print(f"cases: {len(every) - len(found)} passed, {len(found)} failed")
    return 1 if found else 0


sys.exit(main())
