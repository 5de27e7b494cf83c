"""Builds the proved program where its sources are not those that it was built from, and tells how far the proofs are."""

from __future__ import annotations

import contextlib
import os
import pathlib
import re
import shutil
import signal
import subprocess
import sys
import time
from typing import Any, Iterator

from wgsim import TOP, exit_status
from wgsim.program import crates, proof_costs, release
from wgsim.reading.report import count

CRATE = TOP / "crates/wgsim"
PROGRAM = CRATE / "out/wgsim"
STAMP = CRATE / "out/wgsim.sources"
# What a check of one crate takes at most, in kB.
MEMORY = 2_000_000
SHORTEST, ITS_REPORT = b'{"budget":0,"phases":[]}', b"history\ntrace\nend\n"
NEEDS_RT = "the toolchain `rt` is needed to {}, and is not on the PATH; README.md says which one"


def say(text: str) -> None:
    print(f"wgsim: {text}", file=sys.stderr, flush=True)


def needed() -> dict[str, list[str]]:
    """The crates that the program stands on, itself included, each with those of the repository that it names."""
    listed = crates.listed()
    return {name: listed[name] for name in crates.needed("wgsim")}


def sum_of_sources() -> str:
    """A checksum of all that the program is made of."""
    return crates.sum_of(needed())


def stamp_of(program: pathlib.Path, sources: str) -> str:
    """What is kept beside a program: what it was built from, and which file it is."""
    what = program.stat()
    return f"{sources} {what.st_size} {what.st_mtime_ns}\n"


def is_built() -> bool:
    """Whether the program is built from the sources as they are now, or came so with a release."""
    if release.is_one():
        return release.is_proved()
    try:
        return STAMP.read_text(encoding="utf-8") == stamp_of(PROGRAM, sum_of_sources())
    except OSError:
        return False


def jobs(memory: int = MEMORY) -> int:
    """How many crates to prove side by side, or processes to run of which each takes some kB: as many as processors and memory allow."""
    free = 2 * memory
    for line in pathlib.Path("/proc/meminfo").read_text(encoding="utf-8").splitlines():
        if line.startswith("MemAvailable:"):
            free = int(line.split()[1])
    return max(1, min(len(os.sched_getaffinity(0)), free // memory))


def clock(since: float) -> str:
    seconds = int(time.monotonic() - since)
    return f"{seconds // 60}:{seconds % 60:02}"


def from_nothing() -> str:
    """What a proof of the crates that the program stands on takes here, by what each took where they were measured."""
    below, at_once = needed(), jobs()
    return f"some {proof_costs.told(proof_costs.clock_of(set(below), below, at_once))} with {count(at_once, 'crate')} at a time"


def toolchain() -> str | None:
    """What the toolchain says of itself, or None where it is not there or says nothing."""
    if shutil.which("rt") is None:
        return None
    ran = subprocess.run(["rt", "version"], stdin=subprocess.DEVNULL, stdout=subprocess.PIPE, stderr=subprocess.DEVNULL, text=True)
    return ran.stdout.strip().partition("\n")[0] or None


@contextlib.contextmanager
def started(words: list[str], **how: Any) -> Iterator[subprocess.Popen[Any]]:
    """Runs a command with all that it starts in a group of its own, which is stopped where the tool is."""
    with subprocess.Popen(words, start_new_session=True, **how) as run:
        try:
            yield run
        except BaseException:
            with contextlib.suppress(ProcessLookupError):
                os.killpg(run.pid, signal.SIGTERM)
            raise


def build() -> None:
    """Proves the crates that the program stands on, side by side, and then links it over what that kept."""
    if shutil.which("rt") is None:
        raise exit_status.End(exit_status.NOT_BUILT, NEEDS_RT.format("prove and build the program"))
    sources, start, at_once = sum_of_sources(), time.monotonic(), jobs()
    why = "its sources have changed since it was built" if PROGRAM.exists() else "it is not built yet"
    say(f"proving and building the program, since {why}; {count(at_once, 'crate')} at a time")
    say(f"from nothing that takes {from_nothing()}, by a table; what was proved before is kept, and the estimate goes by this run")
    say("first the toolchain looks through all sources, which prints nothing")
    said = prove(at_once, start)
    words = ["rt", "run", "--", "run"]
    with started(words, cwd=CRATE, stdin=subprocess.PIPE, stdout=subprocess.PIPE, stderr=subprocess.PIPE) as run:
        out, told = run.communicate(SHORTEST)
    if run.returncode != 0 or out != ITS_REPORT:
        sys.stderr.write(said + (out + told).decode("utf-8", "replace"))
        raise exit_status.End(
            exit_status.NOT_BUILT,
            f"the program could not be built: `{' '.join(words)}` in crates/wgsim ended with {run.returncode}, as above",
        )
    if sum_of_sources() != sources:
        raise exit_status.End(exit_status.NOT_BUILT, "the sources changed while the program was built: run it again")
    STAMP.write_text(stamp_of(PROGRAM, sources), encoding="utf-8")
    say(f"the program is proved and built ({clock(start)}); from now on it answers, until its sources change")


def prove(at_once: int, start: float) -> str:
    """Proves the crates that the program stands on and no others, as `rt all` does in its folder, with a line for each.

    Returns what the toolchain said where a proof was stopped from outside."""
    words, said, progress = ["rt", "all", "check", "--jobs", str(at_once)], [], Progress(start, at_once)
    how = {"stdin": subprocess.DEVNULL, "stdout": subprocess.PIPE, "stderr": subprocess.STDOUT}
    with started(words, cwd=CRATE, text=True, errors="replace", **how) as run:
        assert run.stdout is not None
        for line in run.stdout:
            said.append(line)
            progress.take(line)
    if run.returncode == 0:
        return ""
    failed = [line for line in said if re.match(r"\w+: (failed|not run)", line)]
    if failed and all(re.search(r"failed \(-|not run", line) for line in failed):
        say("a proof was stopped from outside, maybe for want of memory; going on with one crate at a time")
        return "".join(said)
    sys.stderr.write("".join(telling(said)))
    raise exit_status.End(
        exit_status.NOT_BUILT, f"not every crate was proved: `{' '.join(words)}` in crates/wgsim ended with {run.returncode}, as above"
    )


def telling(said: list[str]) -> Iterator[str]:
    """What the toolchain said of the crates that failed, without the lines of what is proved."""
    text = "".join(said)
    failed = set(re.findall(r"^(\w+): failed", text, re.M))
    for block in re.split(r"^(?=== )", text, flags=re.M):
        name = re.match(r"== (\w+)\n", block)
        if not name or name[1] in failed or name[1] == "summary":
            yield from (line for line in block.splitlines(True) if not line.endswith((": proved\n", " checked=0\n")))


class Progress:
    """Prints a line for each crate, from what the toolchain prints when it is done with one, with an estimate of what is left."""

    def __init__(self, start: float, at_once: int) -> None:
        self.start = start
        # Since when proofs run: before, the toolchain looks through all sources, which tells nothing of their pace.
        self.proving: float | None = None
        self.total = len(needed())
        self.done = 0
        self.crate: str | None = None
        self.is_bad = False
        self.estimate = proof_costs.Estimate(needed(), at_once)

    def take(self, line: str) -> None:
        begins = re.match(r"== (\w+)$", line)
        self.proving = self.proving or (time.monotonic() if begins else None)
        if begins or line.startswith("logic=proved"):
            if self.crate:
                # A crate of which an earlier run kept the proofs, here or in another copy, has no line of its own.
                self.tell(self.crate, "proved" if not begins else "not proved" if self.is_bad else "proved before")
            self.crate = begins[1] if begins and begins[1] != "summary" else None
            self.is_bad = False
        elif re.search(r"\berror\b|not proved|refused|stopped", line):
            self.is_bad = True

    def tell(self, crate: str, how: str) -> None:
        self.done += 1
        self.estimate.take(crate, how == "proved")
        now = time.monotonic()
        left = proof_costs.told(self.estimate.seconds(now - (self.proving or now))) if self.estimate.left else "only the build"
        say(f"{self.done:3} of {self.total}  {crate} {how} ({clock(self.start)}; about {left} left)".replace("about only", "only"))
