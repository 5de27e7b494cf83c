"""What a change needs: by the files that differ from a commit, which tests want a run, and which crates.

usage: tests/changed [--run] [COMMIT]

COMMIT is HEAD where none is named; files that git does not know yet count too. A crate wants `rt check` where a file of it differs, or one
of a crate that it stands on; and of those in which a file differs the edits that stand in tests/edits want a new trial. Which files a test
goes by is told in its `needs`. --run runs the tests for which there is what they need: a program that is proved, and all crates below the C
interface.
"""

import argparse
import pathlib
import subprocess
import sys

from found import NEEDS, all_tests
from wgsim import TOP
from wgsim.program import building, crates

# What the words in `needs` stand for: what the crates of the program are, and those of the C interface.
CRATES_OF = {"program": "wgsim", "archive": "wg_c"}


def files_since(commit):
    """The files that differ from a commit, and those that are new."""
    words = (["git", "diff", "--name-only", commit, "--"], ["git", "ls-files", "--others", "--exclude-standard"])
    told = [subprocess.run(each, cwd=TOP, stdout=subprocess.PIPE, text=True, check=True).stdout.splitlines() for each in words]
    return sorted({*told[0], *told[1]})


def crates_in(files):
    """The crates of which a file differs; all, where that is the list of them."""
    known = crates.listed()
    found = {pathlib.PurePath(file).parts[1] for file in files if file.startswith("crates/") and file.count("/") > 1}
    return sorted(known if "crates.txt" in files else found & known.keys())


def is_tried(tried, files, changed):
    """Whether what a test goes by has changed."""
    for word in tried:
        if word in CRATES_OF and {*crates.needed(CRATES_OF[word])} & {*changed}:
            return True
        if word not in CRATES_OF and any(word == "." or file == word or file.startswith(f"{word}/") for file in files):
            return True
    return False


def is_there(needs):
    """Whether there is what a run needs."""
    libraries = (TOP / "crates" / name / "out/rlib" for name in crates.needed("wg_c") if name != "wg_c")
    return needs == "nothing" or (building.is_built() if needs == "program" else all(library.is_dir() for library in libraries))


def main():
    parser = argparse.ArgumentParser(prog="tests/changed", description=__doc__, formatter_class=argparse.RawDescriptionHelpFormatter)
    parser.add_argument("--run", action="store_true", help="runs the tests")
    parser.add_argument("commit", nargs="?", default="HEAD", metavar="COMMIT", help="the commit from which files differ")
    words = parser.parse_args()
    files = files_since(words.commit)
    changed = crates_in(files)
    tests = [test.name for test in all_tests() if is_tried(test.tries, files, changed)]
    print(f"{len(files)} files differ from {words.commit}")
    print(f"crates to check: {' '.join(sorted(crates.above(changed))) or 'none'}")
    print(f"crates whose edits are to be tried (tests/edits/try): {' '.join(changed) or 'none'}")
    print(f"tests to run: {' '.join(tests) or 'none'}", flush=True)
    failed = False
    for needs in NEEDS if words.run and tests else ():
        if is_there(needs):
            ran = subprocess.run([TOP / "tests/every", "--needs", needs, *tests], cwd=TOP, check=False)
            failed = failed or ran.returncode != 0
        else:
            print(f"not run: what needs {'a proved program' if needs == 'program' else 'the crates of the C interface, proved'}")
    return 1 if failed else 0


sys.exit(main())
