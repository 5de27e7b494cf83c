"""What judge says of a folder of scripts."""

import json
import os

from common import TOP, check, ends_so, shell, wanted

GOOD = [TOP / f"examples/{name}.json" for name in ("first-frame", "unknown-name", "error-scopes")]
RACE = TOP / "tests/cases/lanes/map-races-write.json"
RESULTS = ("as expected", "another order", "differs", "nothing expected", "no answer")


def filled(folder):
    """A folder with scripts whose results are known: three that are as expected, two that differ, one that races, one without a word, and
    one that is too long."""
    for path in GOOD:
        (folder / f"{path.stem} of it.json").write_bytes(path.read_bytes())
        (folder / f"{path.stem} of it.expected").write_bytes(wanted(path)[1][0])
    (folder / "wrong.json").write_bytes(GOOD[0].read_bytes())
    (folder / "wrong.expected").write_bytes(wanted(GOOD[0])[1][0].replace(b"end\n", b""))
    (folder / "refused.json").write_bytes(GOOD[1].read_bytes())
    (folder / "refused.expected").write_bytes(b"bad script 11 0 0 0\n")
    (folder / "race.json").write_bytes(RACE.read_bytes())
    (folder / "race.expected").write_bytes(wanted(RACE)[1][0])
    (folder / "alone.json").write_bytes(GOOD[0].read_bytes())
    (folder / "long.json").write_bytes(b" " * 5_000_000)
    (folder / "notes.txt").write_bytes(b"no script")
    (folder / "folder.json").mkdir()


def test_judge(folder):
    """Each script has a line, in the order of names, and the summary counts them; with --json each line is an object."""
    filled(folder)
    told, _ = ends_so(1, "judge", str(folder))
    lines = told.splitlines()
    names = sorted(path.name for path in folder.iterdir() if path.suffix == ".json" and path.is_file())
    check([line.split(": ")[0] for line in lines[:-1]] == names, f"judge has not a line for each script in the order of names:\n{told}")
    for words in (
        "first-frame of it.json: as expected (40 entries, 0 faults)",
        "unknown-name of it.json: as expected (refused)",
        "refused.json: differs at line 1: expected `bad script 11 0 0 0`, and found `bad script 10 0 0 0` (refused)",
        "alone.json: nothing expected (40 entries, 0 faults)",
        "long.json: nothing expected (too large)",
        "wrong.json: differs at line ",
    ):
        check(words in told, f"judge does not say `{words}`:\n{told}")
    check(any(f"race.json: {how} (" in told for how in RESULTS[:2]), f"judge does not take a race that came in another order:\n{told}")
    check(
        lines[-1].startswith("8 scripts in ") and "2 differs" in lines[-1] and "2 nothing expected" in lines[-1],
        f"judge has another summary: {lines[-1]}",
    )
    objects = [json.loads(line) for line in ends_so(1, "judge", "--json", str(folder))[0].splitlines()]
    check([one["script"] for one in objects[:-1]] == names, "judge --json has not an object for each script in the order of names")
    refused = next(one for one in objects if one.get("script") == "refused.json")
    check(
        (refused["status"], refused["result"], refused["line"], refused["found"]) == (3, "differs", 1, "bad script 10 0 0 0"),
        f"judge --json: {refused}",
    )
    check(
        set(objects[-1]["results"]) == set(RESULTS) and sum(objects[-1]["results"].values()) == objects[-1]["scripts"] == 8,
        f"judge --json has another summary: {objects[-1]}",
    )
    for name in ("wrong", "refused"):
        (folder / f"{name}.expected").unlink()
    check("differs" not in ends_so(0, "judge", str(folder))[0], "judge without a difference tells one")


ORDERED = """#!/bin/bash
# A program that gives the report which lies beside the tests under its own name, whatever it reads.
cat > /dev/null; cat "$0.report"
"""


def test_orders(folder):
    """Where turns came in another order than is expected, both reports have to be ones of the script."""
    scripts = folder / "scripts"
    scripts.mkdir()
    (scripts / "race.json").write_bytes(RACE.read_bytes())
    one, other = wanted(RACE)[1][:2]
    program = folder / "program"
    program.write_text(ORDERED)
    program.chmod(0o755)
    for expected, found, result, status in (
        (one, other, "another order", 0), (other, one, "another order", 0), (one, one, "as expected", 0),
        (one, other.replace(b" op ", b" op 1"), "differs", 1), (one.replace(b" valid", b" invalid", 1), other, "differs", 1),
    ):
        (scripts / "race.expected").write_bytes(expected)
        (folder / "program.report").write_bytes(found)
        told, _ = ends_so(status, "judge", str(scripts), environment={"WGSIM_PROGRAM": str(program)})
        check(told.startswith(f"race.json: {result}"), f"judge of a race: {result} is wanted:\n{told}")


def test_statuses(folder):
    """No folder, an empty one, a program without an answer, and pipes that are closed, each with its status."""
    test_orders(folder)
    scripts, empty, file = folder / "with a script", folder / "without a script", folder / "a file"
    scripts.mkdir()
    empty.mkdir()
    file.write_bytes(b"{}")
    for n in range(40):
        (scripts / f"script {n}.json").write_bytes(b'{"budget":0,"phases":[]}')
    for name, words in ((empty, "has no script"), (file, "is no folder"), (folder / "missing", "there is no such folder")):
        told, said = ends_so(4, "judge", str(name))
        check(words in said and not told, f"judge of {name.name}: {said}")
    told, _ = ends_so(12, "judge", str(scripts), environment={"WGSIM_PROGRAM": "/bin/false"})
    check("script 0.json: no answer (status 12)" in told and "40 no answer" in told, f"judge by a program without an answer: {told}")
    locked = scripts / "locked.json"
    locked.write_bytes(b"{}")
    locked.chmod(0)
    told, _ = ends_so(0 if os.access(locked, os.R_OK) else 9, "judge", str(scripts))
    check(told.startswith("locked.json: "), f"judge of a file that cannot be read: {told}")
    check(
        shell(f"{TOP}/wgsim judge '{scripts}' | true").returncode in (0, 5, 141), "judge into a closed pipe: the status is neither 0 nor 5"
    )
    check(shell(f"{TOP}/wgsim judge '{scripts}' > /dev/full").returncode == 5, "judge onto a full device: the status is not 5")
    check(b"\r" not in shell(f"{TOP}/wgsim judge '{scripts}'").stderr, "judge shows its progress where standard error is no terminal")
    shown = (
        shell(f"script -qec \"{TOP}/wgsim judge '{scripts}'\" /dev/null < /dev/null")
        if shell("command -v script").returncode == 0
        else None
    )
    check(shown is None or b" of 41 scripts (0:" in shown.stdout, "judge shows no progress on a terminal")
