"""Runs the tests of this folder, one after another, each whatever came of those before it. They are found by name: a test is a folder with
a `run`, and its file `needs` says what it needs.

usage: tests/every [--needs WORD] [NAME ..]

--needs nothing runs what needs no program, program what needs one that is proved and built, and archive what needs that of the C interface;
with none all are run, in this order. With names only the tests of these. Ends with 1 if one failed, and says which.
"""

import argparse
import subprocess
import sys
import time

from found import NEEDS, all_tests
from wgsim import TOP


def main():
    parser = argparse.ArgumentParser(prog="tests/every", description=__doc__, formatter_class=argparse.RawDescriptionHelpFormatter)
    parser.add_argument("--needs", choices=NEEDS, help="runs those alone that need this")
    parser.add_argument("names", nargs="*", metavar="NAME", help="runs these alone")
    words = parser.parse_args()
    tests = all_tests()
    unknown = sorted(set(words.names) - {test.name for test in tests})
    if unknown:
        parser.error(f"there is no test {', '.join(unknown)}: the tests are {', '.join(test.name for test in tests)}")
    failed = []
    for needs in [words.needs] if words.needs else NEEDS:
        for test in tests:
            for more in test.runs[needs] if not words.names or test.name in words.names else []:
                said, begun = " ".join([f"tests/{test.name}/run", *more]), time.monotonic()
                print(f"== {said}", flush=True)
                status = subprocess.run([TOP / f"tests/{test.name}/run", *more], cwd=TOP, check=False).returncode
                print(f"== {said}: status {status}, {time.monotonic() - begun:.0f} seconds", flush=True)
                failed += [said] if status else []
    if failed:
        print(f"failed: {', '.join(failed)}")
    return 1 if failed else 0


sys.exit(main())
