"""Tests of the tool `wgsim`: its words, its build, and what it says of each example and case.

usage: tests/tool/run [--program PATH] [NAME ..]

The tests are the functions test_.. of the files test_..py of this folder. One that takes a `folder` is given an empty one to write in; one
that takes a `path` is called with that of each example and case; the others take nothing. With names, as test_words or test_inputs, only
the tests of these names and files are run. Without --program the program is compiled without its proofs, as `wgsim --unproved` does, and
kept.

Prints a line for each finding, and fails if there is one.
"""

import argparse
import contextlib
import importlib
import inspect
import io
import os
import pathlib
import sys
import tempfile

import common
from wgsim.program import program as programs

HERE = pathlib.Path(__file__).resolve().parent


def tests(names):
    """The tests in the order of the files, each with the names of what it takes."""
    found = []
    for module in (importlib.import_module(path.stem) for path in sorted(HERE.glob("test_*.py"))):
        for name, test in vars(module).items():
            is_own = name.startswith("test_") and inspect.isfunction(test) and test.__module__ == module.__name__
            if is_own and (not names or name in names or module.__name__ in names):
                found.append((test, list(inspect.signature(test).parameters)))
    return found


def run(test, takes, room):
    """Runs a test with what it takes."""
    if takes == ["folder"]:
        folder = pathlib.Path(room) / f"{test.__module__} of {test.__name__}"
        folder.mkdir()
        with contextlib.redirect_stdout(io.StringIO()):
            test(folder)
    elif takes == ["path"]:
        for path in [*common.EXAMPLES, *common.CASES]:
            test(path)
    elif not takes:
        test()
    else:
        common.check(False, f"{test.__module__}.{test.__name__} takes {', '.join(takes)}, and a test takes a folder, a path or nothing")


def compiled(named):
    """The program to ask: the one that is named, or the unproved one, which is compiled and kept first if need be."""
    if named:
        return str(pathlib.Path(named).resolve())
    first = common.EXAMPLES[0]
    status, reports_of = common.wanted(first)
    ran = common.wgsim("--unproved", "run", str(first), environment={programs.NAMED: None})
    is_right = ran.returncode == status and ran.stdout in reports_of
    common.check(is_right, f"wgsim --unproved run {first.name}: status {ran.returncode}, {ran.stderr.decode()}")
    common.check(b"WITHOUT its proofs" in ran.stderr, "an unproved run does not say that it is unproved")
    kept = common.TOP / "tools/out/unproved/wgsim"
    common.check(kept.exists(), "the unproved program was not kept")
    return str(kept)


def main():
    parser = argparse.ArgumentParser(prog="tests/tool/run", description=__doc__, formatter_class=argparse.RawDescriptionHelpFormatter)
    parser.add_argument("--program", metavar="PATH", help="the program to ask")
    parser.add_argument("names", nargs="*", metavar="NAME", help="of tests, and of files of tests")
    words = parser.parse_args()
    found = tests(words.names)
    if not found:
        sys.exit(f"tests of the tool: there are none of these names: {' '.join(words.names)}")
    os.environ[programs.NAMED] = compiled(words.program)
    common.asked.program = programs.Program(False)
    with tempfile.TemporaryDirectory() as room:
        for test, takes in found:
            run(test, takes, room)
    for finding in common.findings:
        print(finding)
    print(f"tests of the tool: {len(found)} tests, {len(common.findings)} findings")
    sys.exit(1 if common.findings else 0)


main()
