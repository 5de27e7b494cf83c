"""`wgsim judge`: every script of a folder is run, as many at once as there are processors, and what is expected of it is compared.

A script is a file NAME.json, and NAME.expected beside it has the report that is expected. Where lanes race, a run may bring another order
of turns than the one that is expected; then both reports have to be ones that the script can have, by the second reading. Where
NAME.answers.json lies beside it, it was recorded in a browser, and what that answered is compared call by call. """

from __future__ import annotations

import collections
import concurrent.futures
import contextlib
import json
import os
import pathlib
import subprocess
import sys
import time
from typing import TYPE_CHECKING, Callable, Generator

from wgsim import exit_status
from wgsim.matching import compared
from wgsim.program import building
from wgsim.program.program import OWN
from wgsim.reading import browser_answers
from wgsim.reading.places import escaped
from wgsim.reading.report import count

if TYPE_CHECKING:
    from wgsim.program.program import Program

SAME, OTHER, DIFFERS, ALONE, FAILED = "as expected", "another order", compared.DIFFERS, "nothing expected", "no answer"
RECORDED = (compared.AGREES, compared.KNOWN, compared.OUTSIDE)
HOWS = (SAME, OTHER, *RECORDED, DIFFERS, ALONE, FAILED)
WRITTEN = {
    0: "a report",
    exit_status.REFUSED: "refused",
    exit_status.TOO_LARGE: "too large",
    exit_status.NO_MEMORY: "no memory",
    exit_status.UNREAD: "cannot be read",
    exit_status.UNWRITTEN: "could not be written",
}


class Result:
    """What came of one script: the status of the program, and how its report stands to the one that is expected."""

    def __init__(self, name: str, status: int, how: str) -> None:
        self.name = name
        self.status = status
        self.how = how
        self.line: int | None = None
        self.wanted: str | None = None
        self.found: str | None = None
        self.entries, self.faults = 0, 0
        self.has_report = False
        self.compared: compared.Compared | None = None

    def text(self) -> str:
        said = WRITTEN.get(self.status, f"status {self.status}")
        if self.has_report:
            said = f"{count(self.entries, 'entry')}, {count(self.faults, 'fault')}"
        where = f" at line {self.line}: expected `{self.wanted}`, and found `{self.found}`" if self.line is not None else ""
        below = [f"\n    {escaped(line)}" for line in self.compared.lines()] if self.compared is not None else []
        return f"{self.name}: {self.how}{where} ({said})" + "".join(below)

    def json(self) -> str:
        entries, faults = (self.entries, self.faults) if self.has_report else (None, None)
        told = {"script": self.name, "status": self.status, "result": self.how, "entries": entries, "faults": faults}
        recorded = {"recorded": self.compared.json()} if self.compared is not None else {}
        return json.dumps({**told, "line": self.line, "expected": self.wanted, "found": self.found, **recorded})


class Judge:
    """Runs the program on the scripts of a folder."""

    def __init__(self, folder: pathlib.Path, program: Program) -> None:
        self.folder = folder
        self.program = program

    def of(self, name: str) -> Result:
        """The result of one script."""
        path = self.folder / name
        try:
            with open(path, "rb") as file:
                ran = subprocess.run(
                    [self.program.path, "run"], stdin=file, stdout=subprocess.PIPE, stderr=subprocess.DEVNULL, close_fds=False
                )
        except OSError:
            return Result(name, exit_status.UNREAD, FAILED)
        if ran.returncode not in OWN or ran.returncode in (exit_status.UNREAD, exit_status.UNWRITTEN):
            return Result(name, ran.returncode if ran.returncode in OWN else exit_status.NO_ANSWER, FAILED)
        result = Result(name, ran.returncode, ALONE)
        if ran.stdout.startswith(b"history\n"):
            history = ran.stdout[: ran.stdout.index(b"trace\n")]
            result.has_report = True
            result.entries, result.faults = history.count(b"\n") - 1, history.count(b" fault ")
        if path.with_name(path.stem + browser_answers.ANSWERS).exists():
            result.compared = compared.Compared(path, path.read_bytes(), ran.stdout.decode("utf-8"))
            result.how = result.compared.how()
            return result
        expected = path.with_suffix(".expected")
        if expected.exists():
            self.compare(result, path, expected.read_bytes(), ran.stdout)
        return result

    def compare(self, result: Result, path: pathlib.Path, wanted: bytes, found: bytes) -> None:
        """Sets what is expected beside what was found, by bytes, and where the turns came in another order by the second reading."""
        result.how = SAME
        if wanted == found:
            return
        result.how = DIFFERS
        ours, theirs = wanted.decode("utf-8", "replace").split("\n"), found.decode("utf-8", "replace").split("\n")
        at = next((n for n, (one, other) in enumerate(zip(ours, theirs)) if one != other), min(len(ours), len(theirs)))
        result.line, (result.wanted, result.found) = at + 1, [lines[at] if at < len(lines) else "the end" for lines in (ours, theirs)]
        if turns(wanted) != turns(found) and sorted(turns(wanted)) == sorted(turns(found)) and self.are_legal(path, wanted, found):
            result.how, result.line, result.wanted, result.found = OTHER, None, None, None

    def are_legal(self, path: pathlib.Path, *reports: bytes) -> bool:
        """Whether reports are ones that a script can have."""
        from wgsim.matching import verified

        script = (path.read_bytes(), path.name)
        return all(verified.verify(script, (report, "the report"))[1] == exit_status.SAME for report in reports)


def turns(report: bytes) -> list[bytes]:
    """The callers of the entries of a report."""
    lines = report.split(b"\ntrace\n")[0].split(b"\n")[1:]
    return [line.split(b" ")[1] for line in lines if line.count(b" ") > 1]


class Progress:
    """A line on a terminal that is written over, of how far the scripts are."""

    def __init__(self, total: int) -> None:
        self.total = total
        self.start = time.monotonic()
        self.is_shown = sys.stderr is not None and sys.stderr.isatty()
        self.last = 0.0

    def tell(self, done: int) -> None:
        if self.is_shown and time.monotonic() - self.last > 0.1:
            self.last = time.monotonic()
            sys.stderr.write(f"\rwgsim: {done} of {self.total} scripts ({building.clock(self.start)})")
            sys.stderr.flush()

    def clear(self) -> None:
        """Takes the line away, so that another text may stand there."""
        if self.is_shown and self.last:
            sys.stderr.write("\r" + " " * 60 + "\r")
            sys.stderr.flush()


def scripts_of(name: str) -> tuple[pathlib.Path, list[str]]:
    """The scripts of a folder, in the order of their names."""
    folder = pathlib.Path(name)
    if not folder.is_dir():
        raise exit_status.End(exit_status.UNREAD, f"{name} is no folder" if folder.exists() else f"{name}: there is no such folder")
    try:
        found = sorted(
            path.name for path in folder.iterdir() if path.suffix == ".json" and path.is_file() and not browser_answers.is_beside(path.name)
        )
    except OSError as error:
        raise exit_status.End(exit_status.UNREAD, f"{name}: {error.strerror}") from None
    if not found:
        raise exit_status.End(exit_status.UNREAD, f"{name} has no script: no file whose name ends with .json")
    return folder, found


def ran(pool: concurrent.futures.Executor, judged: Judge, names: list[str]) -> Generator[Result, None, None]:
    """The results of some scripts, in their order, as they come; what has not begun when they are closed does not begin."""
    yield from pool.map(judged.of, names)


def judge(name: str, is_json: bool, program: Callable[[], Program], write: Callable[[str], None]) -> int:
    """Runs the scripts of a folder, writes a line of each in the order of their names, and a summary. Returns the status."""
    folder, names = scripts_of(name)
    asked = program()
    asked.ready()
    judged, progress = Judge(folder, asked), Progress(len(names))
    counts: collections.Counter[str] = collections.Counter()
    with concurrent.futures.ThreadPoolExecutor(os.cpu_count() or 1) as pool, contextlib.closing(ran(pool, judged, names)) as results:
        for number, result in enumerate(results, 1):
            counts[result.how] += 1
            progress.clear()
            write((result.json() if is_json else result.text()) + "\n")
            progress.tell(number)
    progress.clear()
    took = time.monotonic() - progress.start
    write(summary(counts, len(names), took, is_json))
    return exit_status.NO_ANSWER if counts[FAILED] else exit_status.DIFFERENT if counts[DIFFERS] else exit_status.SAME


def summary(counts: dict[str, int], total: int, took: float, is_json: bool) -> str:
    """The last line: how many scripts have which result."""
    if is_json:
        return (
            json.dumps(
                {
                    "scripts": total,
                    "seconds": round(took, 1),
                    "results": {how: counts[how] for how in HOWS if counts[how] or how not in RECORDED},
                }
            )
            + "\n"
        )
    told = ", ".join(f"{counts[how]} {how}" for how in HOWS if counts[how])
    return f"{count(total, 'script')} in {took:.1f} seconds: {told}\n"
