"""What the second reading is asked for: verify, run --callers and outcomes, by the reports that lie beside the examples and cases."""

import json
import math
import re

from common import CASES, EXAMPLES, TOP, check, ends_so, shell, wanted, wgsim
from growth import grown
from wgsim.matching import orders
from wgsim.matching import verified as verifying

RACE = TOP / "examples/submit-races-destroy.json"
FRAME = TOP / "examples/first-frame.json"


def callers_of(report):
    """The callers of a report that is right: the second field of each entry."""
    return [line.split()[1] for line in report.decode().split("\ntrace\n")[0].splitlines()[1:]]


def test_legal(path):
    """Each report beside a script is one that it can have, and where a line is left out or doubled it is none."""
    for report in wanted(path)[1]:
        told, status = verifying.verify((path.read_bytes(), path.name), (report, "R"))
        check(status == 0, f"{path.name}: verify finds its report wrong:\n{told}")
        lines = report.splitlines(True)
        for number, without in ((n, b"".join(lines[:n] + lines[n + 1 :])) for n in {len(lines) // 2, len(lines) - 1}):
            told, status = verifying.verify((path.read_bytes(), path.name), (without, "R"))
            check(
                status == 1 and told.startswith(f"R:{first_other(report, without)}: "),
                f"{path.name}: line {number + 1} is left out, and verify says:\n{told}",
            )


def first_other(one, other):
    """The number of the first line in which two texts differ."""
    pairs = list(zip(one.splitlines(True), other.splitlines(True)))
    return next((n for n, (mine, theirs) in enumerate(pairs, 1) if mine != theirs), len(pairs) + 1)


# A report of an example, what is put in place of what, the first wrong line, and what verify says of it.
WRONG = [
    ("error-scopes", "made 1 invalid fault", "made 1 valid fault", ["is to be: ", "invalid, since rule"]),
    (
        "write-of-an-invalid-buffer",
        " fault validation 12 uncaptured",
        "",
        ["rule 12 is the first that is unmet; it asks of writeBuffer", 'WebGPU, "Invalid Internal Objects'],
    ),
    ("write-of-an-invalid-buffer", "validation 12 ", "validation 13 ", ["rule 12 is the first that is unmet"]),
    (
        "two-overlapping-writes",
        "writeBuffer op 2",
        "writeBuffer plain fault validation 202 uncaptured",
        ["no rule is unmet", "this one is number 2"],
    ),
    ("two-overlapping-writes", "2 0 writeBuffer", "2 1 writeBuffer", ["the turn is of caller 0"]),
    ("two-overlapping-writes", "1 0 writeBuffer", "5 0 writeBuffer", ["this is number 1"]),
    ("two-overlapping-writes", "2 0 writeBuffer", "2 0 submit", ["the next call of caller 0 is writeBuffer"]),
    (
        "two-overlapping-writes",
        "bar b 0 copy-dst copy-dst\n",
        "",
        ["is to be: bar b 0 copy-dst copy-dst", "a barrier stands before it: the part was last used as copy-dst"],
    ),
    ("two-overlapping-writes", "trace\nstep 0", "trace\nbar b 0 none copy-dst\nstep 0", ["no further barrier stands before it"]),
    (
        "two-overlapping-writes",
        "acc write b 0 4 12",
        "acc write b 0 4 13",
        ["is to be: acc write b 0 4 12", "is of writeBuffer, of entry 2, "],
    ),
    ("two-overlapping-writes", "end\n", "end\n\n", ["nothing comes after that"]),
    ("two-overlapping-writes", "end\n", "end", ["with no end of the line"]),
    ("two-overlapping-writes", "trace\n", "", ["the script is through"]),
    ("two-overlapping-writes", "history\n", "history\r\n", ["is to be: history"]),
    ("lost-device", " settle 5 done", "", ["it settles the promise of entry 5, of the call at "]),
    ("first-frame", "free ", "free b 77\nfree ", ["gives back what entry "]),
    ("unknown-name", "bad script 10", "bad script 9", ["is to be: bad script 10 0 0 0", "script rule 10 refuses: "]),
    ("submit-races-destroy", "5 ", "5x ", ["entry 5 stands there: in phase 1 the turn may be of caller"]),
    ("submit-races-destroy", "5 0 ", "5 7 ", ["entry 5 cannot be of caller 7: in phase 1 the turn may be of caller"]),
]


def test_wrong():
    """Of a report that is wrong in one place verify names the line, what is right there, and why."""
    for name, old, new, words in WRONG:
        path = TOP / f"examples/{name}.json"
        right = path.with_suffix(".report").read_bytes().decode()
        at = right.index("\n" + old) + 1 if "\n" + old in right else right.find(old)
        if at < 0:
            check(False, f"examples/{name}.report has no `{old}`")
            continue
        report = (right[:at] + new + right[at + len(old) :]).encode()
        told, status = verifying.verify((path.read_bytes(), path.name), (report, "R"))
        line = first_other(right.encode(), report)
        check(
            status == 1 and told.startswith(f"R:{line}: "),
            f"{name}, `{new}` in place of `{old}`: verify does not name line {line}:\n{told}",
        )
        for each in words:
            check(each in told, f"{name}, `{new}` in place of `{old}`: verify does not say `{each}`:\n{told}")


def long_script(count):
    """A script of so many calls: a buffer, writes of it, a complete and a destroy; and its report, line by line as docs/report.md has
    them."""
    write = {"do": "writeBuffer", "buffer": "b", "offset": 0, "size": 4}
    calls = [
        {"do": "createBuffer", "size": 16, "usage": 8, "as": "b"},
        *[write] * (count - 3),
        {"do": "complete", "op": count - 3},
        {"do": "destroy", "object": "b"},
    ]
    entries = [
        "0 0 createBuffer made 0 valid",
        *[f"{n} 0 writeBuffer op {n}" for n in range(1, count - 2)],
        f"{count - 2} 0 complete plain",
        f"{count - 1} 0 destroy plain",
    ]
    steps = [
        f"{'bar b 0 copy-dst copy-dst' + chr(10) if n else ''}step {n} op {n + 1} writeBuffer\nuse b 0 copy-dst\nacc write b 0 0 4"
        for n in range(count - 3)
    ]
    return (
        json.dumps({"budget": 16, "phases": [[calls]]}).encode(),
        "\n".join(["history", *entries, "trace", *steps, "free b 0", "end", ""]).encode(),
    )


def test_long(folder):
    """40,000 calls are verified and played in a time that is in proportion: writes by a report that is made line by line, and the generated
    script by its counts."""
    script, report = folder / "script", folder / "report"

    def verified(count, status=0, freed=b"free b 0"):
        calls, right = long_script(count)
        script.write_bytes(calls)
        report.write_bytes(right.replace(b"free b 0", freed))
        return ends_so(status, "verify", str(script), str(report))[0]

    def played(rounds):
        script.write_bytes(wgsim("script", str(rounds)).stdout)
        return ends_so(0, "run", "--callers", ",".join(["0"] * (17 + 4 * rounds)), str(script))[0]

    wrong = grown(verified, 40_000)[1]
    check(wrong is None, f"a report of 40,000 entries that is right is verified: {wrong}")
    told, wrong = grown(lambda count: verified(count, 1, b"free b 1"), 40_000)
    check(wrong is None, f"a report of 40,000 entries that is wrong at its end is verified: {wrong}")
    check("is to be: free b 0" in told and "its last operation, 39997, is complete" in told, f"a report that is wrong at its end: {told}")
    told, wrong = grown(played, 8000)
    check(wrong is None, f"the generated script of 8000 iterations is played: {wrong}")
    counts = (
        told.split("\ntrace\n")[0].count("\n"), len(set(re.findall(r" op (\d+)$", told, re.M))), told.count(" fault "),
        told.count("\nfree "),
    )
    check(
        counts == (17 + 4 * 8000, 2 * 8000, 0, 8),
        f"the generated script of 8000 iterations: entries, operations, faults and releases are {counts}",
    )


def test_callers():
    """Each report is what the script has in the order of its callers, byte for byte; an order that there cannot be has status 1."""
    for path in EXAMPLES + [case for case in CASES if case.parent.name in ("lanes", "releases")]:
        status, reports = wanted(path)
        for report in reports:
            found = orders.forced(path.read_bytes(), path.name, list(map(int, callers_of(report))) if status == 0 else [])
            check(found == (status, report.decode()), f"{path.name}: run --callers has another report:\n{found}")
    right = callers_of(wanted(RACE)[1][0])
    told, said = ends_so(0, "run", "--callers", ",".join(right), str(RACE))
    check(told.encode() == wanted(RACE)[1][0] and "not proved" in said, f"run --callers of a race: {told}{said}")
    for callers, words in (
        (right[:-1], "before the script does"),
        (right + ["0"], "the script is through"),
        (["1"] + right[1:], "entry 0 cannot be of caller 1: in phase 0 the turn may be of caller 0 with its createBuffer"),
        ([], "the callers end at entry 0"),
    ):
        told, said = ends_so(1, "run", "--callers", ",".join(callers), str(RACE))
        check(words in said and not told, f"run --callers {callers}: {said}")
    check(
        ends_so(0, "run", "--callers", "", data=b'{"budget":0,"phases":[[[],[]],[]]}')[0] == "history\ntrace\nend\n",
        "a script of no calls has no empty order",
    )


def test_outcomes():
    """The outcomes of a race are just the reports that lie beside it, each once; and a race of too many orders is not begun."""
    for path in EXAMPLES + [case for case in CASES if case.parent.name == "lanes"]:
        status, reports = wanted(path)
        if status == 0 and orders_of(path) > 200:
            continue
        told = "".join(orders.outcomes(path.read_bytes(), path.name))
        if status == 3:
            check(told.encode() == reports[0], f"outcomes of {path.name}: {told}")
            continue
        found = re.findall(r"^outcome (\d+) of (\d+): callers ([\d,]+|none): .*\n((?:.*\n)*?end\n)", told, re.M)
        texts = [text.encode() for _, _, _, text in found]
        check(len(found) == orders_of(path) == len(set(texts)), f"outcomes of {path.name}: {len(found)} of {orders_of(path)} orders")
        check(set(reports) <= set(texts), f"outcomes of {path.name}: not the reports beside it")
        for _, _, callers, text in found:
            check(
                (",".join(callers_of(text.encode())) or "none") == callers, f"outcomes of {path.name}: callers {callers} of another report"
            )
    told, said = ends_so(0, "outcomes", str(RACE))
    check(told.count("\noutcome ") == orders_of(RACE) and "not proved" in said, f"outcomes of a race: {said}")
    lanes = [[{"do": "workDone"}] * 6] * 3
    told, said = ends_so(10, "outcomes", data=json.dumps({"budget": 0, "phases": [lanes]}).encode())
    check("17,153,136 orders" in said and "10,000" in said and not told, f"outcomes of 18!/(6!)^3 orders: {said}")


def orders_of(path):
    """How many orders of turns a script has, by the entries that each caller has in each phase of its reports, each phase by its first
    report."""
    script = json.loads(path.read_bytes())
    total = 1
    for lanes in script["phases"]:
        counts = [sum(is_event(lane, n) for n in range(len(lane))) for lane in lanes]
        total *= math.factorial(sum(counts))
        for count in counts:
            total //= math.factorial(count)
    return total


RECORDING = re.compile(r"copy|clear|resolve|begin|set|dispatch|draw|execute|end$|endOcclusion|pushDebug|popDebug")
PASSES, FINISHES = ("beginComputePass", "beginRenderPass"), ("finish", "finishBundle")


def is_event(lane, number):
    """Whether a call of a lane makes an entry: where it records, only after a finish of what it is on, or the end of its pass."""
    call = lane[number]
    if not RECORDING.match(call["do"]):
        return True
    before = lane[:number]
    encoder = next((one["on"] for one in before if one["do"] in PASSES and one["as"] == call["on"]), call["on"])
    return any(one["do"] in FINISHES and one["on"] == encoder or one["do"] == "end" and one["on"] == call["on"] for one in before)


def test_statuses(folder):
    """Names with spaces, folders, files that are not there or too long, and pipes that are closed, each with its status."""
    script, report = folder / "a frame.json", folder / "a report of it"
    script.write_bytes(FRAME.read_bytes())
    report.write_bytes(wanted(FRAME)[1][0])
    (folder / "long").write_bytes(b" " * 5_000_000)
    (folder / "bytes").write_bytes(b"\xff\xfe")
    told, said = ends_so(0, "verify", str(script), str(report))
    check(told.startswith(f"{report}: a report of the script: ") and "not proved" in said, f"verify of names with spaces: {told}{said}")
    ends_so(0, "verify", str(script), "-", data=report.read_bytes())
    ends_so(0, "verify", "-", str(report), data=script.read_bytes())
    for names, status in (
        (("a frame.json", "."), 4), ((".", "a report of it"), 4), (("missing", "a report of it"), 4), (("a frame.json", "missing"), 4),
        (("long", "a report of it"), 7), (("a frame.json", "long"), 1), (("a frame.json", "bytes"), 1), (("bytes", "a report of it"), 1),
    ):
        ends_so(status, "verify", *(str(folder / name) for name in names))
    for words in (["outcomes"], ["run", "--callers", "0"]):
        for name, status in ((".", 4), ("missing", 4), ("long", 7), ("bytes", 3)):
            ends_so(status, *words, str(folder / name))
    frame = ",".join(callers_of(report.read_bytes()))
    for words in (f"verify '{script}' '{report}'", f"outcomes '{script}'", f"run --callers {frame} '{script}'"):
        check(
            shell(f"{TOP}/wgsim {words} | true").returncode in (0, 5, 141),
            f"wgsim {words} into a closed pipe: the status is neither 0 nor 5",
        )
        check(shell(f"{TOP}/wgsim {words} > /dev/full").returncode == 5, f"wgsim {words} onto a full device: the status is not 5")
    for words in (f"verify - '{report}'", "outcomes", "run --callers 0"):
        check(shell(f"{TOP}/wgsim {words} <&-").returncode == 4, f"wgsim {words} with no standard input: the status is not 4")
