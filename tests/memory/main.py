"""Refuses each single allocation of the program in turn, on each example, which is run, and on its report, which is checked, and on a pass
with a bundle and queries; or on the scripts and reports that are named.

A run whose n-th allocation is refused has to end with status 6 and nothing written, or with the same status and the same
bytes as the run with ample memory. n counts up until a run has fewer allocations. The library that refuses is refusing.c,
built with gcc into a temporary folder and loaded before the C library.

Ends with 1 if there was a wrong run.
"""

import argparse
import concurrent.futures
import os
import pathlib
import subprocess
import sys
import tempfile

TOP = pathlib.Path(__file__).resolve().parents[2]
NO_MEMORY = 6
REFUSED = b"an allocation was refused"
TIMEOUT = 600


def arguments():
    parser = argparse.ArgumentParser(prog="tests/memory/run", description=__doc__.split("\n", maxsplit=1)[0])
    parser.add_argument(
        "--program", default=TOP / "crates/wgsim/out/wgsim", help="runs as PROGRAM run < SCRIPT, and as PROGRAM check < REPORT"
    )
    parser.add_argument("--jobs", type=int, default=len(os.sched_getaffinity(0)), help="how many processes")
    parser.add_argument("scripts", nargs="*", type=pathlib.Path, help="in place of the examples: scripts, and reports, NAME.report")
    return parser.parse_args()


def build(folder):
    library = pathlib.Path(folder) / "refusing.so"
    subprocess.run(["gcc", "-O1", "-shared", "-fPIC", "-o", library, pathlib.Path(__file__).with_name("refusing.c")], check=True)
    return library


def run(program, word, data, **settings):
    environment = os.environ | {key: str(value) for key, value in settings.items()}
    return subprocess.run([program, word], input=data, capture_output=True, env=environment, timeout=TIMEOUT, check=False)


def try_script(program, library, script):
    """How many allocations were refused, how many of these runs wrote the whole report, and what was wrong."""
    data, word = script.read_bytes(), "check" if script.suffix == ".report" else "run"
    ample = run(program, word, data)
    reports = [ample.stdout]
    if word == "run":
        reports += [path.read_bytes() for path in script.parent.glob(script.stem + ".alt*.report")]
        reports += [script.with_suffix(".report").read_bytes()] * (len(reports) > 1)
    number, whole, wrong = 1, 0, []
    while True:
        try:
            found = run(program, word, data, LD_PRELOAD=library, REFUSED_ALLOCATION=number)
        except subprocess.TimeoutExpired:
            return number, whole, [*wrong, f"allocation {number} refused: no end within {TIMEOUT} seconds"]
        if REFUSED not in found.stderr:
            return number - 1, whole, wrong
        if found.returncode == ample.returncode and found.stdout in reports:
            whole += 1
        elif (found.returncode, found.stdout) != (NO_MEMORY, b""):
            wrong.append(f"allocation {number} refused: status {found.returncode}, {len(found.stdout)} bytes written")
        number += 1


def main():
    words = arguments()
    program = os.path.abspath(words.program)
    if not os.access(program, os.X_OK):
        sys.exit(f"{program} is not there: `./wgsim prove` builds it")
    examples = TOP / "examples"
    bundled = TOP / "tests/cases/bundles/bundle-and-occlusion-queries.json"
    scripts = words.scripts or [*sorted(examples.glob("*.json")), bundled, *sorted(examples.glob("*.report"))]
    refusals, faults = 0, 0
    with tempfile.TemporaryDirectory() as folder, concurrent.futures.ThreadPoolExecutor(words.jobs) as pool:
        library = build(folder)
        for script, (count, whole, wrong) in zip(scripts, pool.map(lambda one: try_script(program, library, one), scripts)):
            print(f"{script.name}: {count} allocations refused, {whole} of them without harm", flush=True)
            for line in wrong:
                print(f"{script.name}: {line}")
            refusals += count
            faults += len(wrong)
    print(f"{refusals} allocations refused on {len(scripts)} scripts and reports: {faults} wrong runs")
    sys.exit(1 if faults or not refusals else 0)


main()
