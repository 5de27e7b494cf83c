"""The tests of this folder, by what their files `needs` say.

A file `needs` has a line `tries: PATH ..`, the files and folders of which a change wants the test, with the words `program`, for all crates
that the program stands on, and `archive`, for those that the C interface does; and a line for each run of it: the word for what that needs,
and behind a colon the words of the command line. """

import pathlib

TESTS = pathlib.Path(__file__).resolve().parent
# What a run may need, in the order in which there is something of it.
NEEDS = ("nothing", "program", "archive")


class Test:
    """A test by its name: what of the repository it tries, and its runs, by what they need."""

    def __init__(self, folder):
        self.name = folder.name
        self.tries, self.runs = [], {needs: [] for needs in NEEDS}
        for line in (folder / "needs").read_text(encoding="utf-8").splitlines():
            word, _, rest = line.partition(":")
            if word == "tries":
                self.tries = rest.split()
            else:
                self.runs[word].append(rest.split())


def all_tests():
    """All tests, in the order of their names."""
    return [Test(run.parent) for run in sorted(TESTS.glob("*/run"))]
