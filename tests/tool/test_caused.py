"""What explain says of the cause of each fault, and of a report that is there."""

import json

from common import TOP, check, ends_so
from growth import grown
from wgsim.program import program as programs

FRAME = TOP / "examples/too-few-vertices.json"


def test_given():
    """A report that is there is explained where no program is, in words and for a machine."""
    given = ["--report", str(FRAME.with_suffix(".report")), str(FRAME)]
    nothing = {programs.NAMED: "/nowhere/wgsim"}
    told = ends_so(0, "explain", *given, environment=nothing)[0]
    check("number 4 of 5: " in told and " asking " not in told, f"explain --report: {told}")
    found = [
        (each["kind"], each["entry"], each.get("rule"), each.get("follows_from"))
        for each in json.loads(ends_so(0, "explain", "--json", *given, environment=nothing)[0])
    ]
    check(
        found[:3] == [("fault", 7, 250, None), ("fault", 9, 351, None), ("fault", 10, 12, 7)] and len(found) == 14,
        f"explain --json --report: {found}",
    )


def long_script(commands, writes):
    """A script of an encoder with so many commands, the last of which is wrong, and so many writes of a destroyed buffer; and its
    report."""
    calls = [
        {"do": "createBuffer", "size": 16, "usage": 8, "as": "b"},
        {"do": "createEncoder", "as": "e"},
        *[{"do": "clearBuffer", "on": "e", "buffer": "b"}] * (commands - 1),
    ]
    calls += [
        {"do": "clearBuffer", "on": "e", "buffer": "b", "offset": 2},
        {"do": "finish", "on": "e", "as": "c"},
        {"do": "destroy", "object": "b"},
    ]
    calls += [{"do": "writeBuffer", "buffer": "b", "offset": 0, "size": 4}] * writes
    entries = [
        "createBuffer made 0 valid", "createEncoder made 1 valid", "finish made 2 invalid fault validation 276 uncaptured",
        "destroy plain",
    ]
    entries += ["writeBuffer plain fault validation 203 uncaptured"] * writes
    report = ["history", *[f"{n} 0 {entry}" for n, entry in enumerate(entries)], "trace", "free b 0", "end", ""]
    return json.dumps({"budget": 16, "phases": [[calls]]}).encode(), "\n".join(report).encode()


def test_long(folder):
    """Scripts of 40,000 calls, of which each fourth is a fault, are explained in a time that is in proportion."""
    def explained(count):
        script, report = long_script(count * 3 // 4, count // 4)
        (folder / "script").write_bytes(script)
        (folder / "report").write_bytes(report)
        return ends_so(0, "explain", "--report", str(folder / "report"), str(folder / "script"))[0]

    told, wrong = grown(explained, 40_000)
    check(wrong is None, f"a script of 40,000 calls is explained: {wrong}")
    check(
        "is number 30000 of 30000: " in told and told.count('"b" (1:29) was destroyed at ') == 10_000,
        f"a script of 40,000 calls: explain says\n{told[:2000]}",
    )
