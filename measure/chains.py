"""What the sums of libraries take by a kit that makes them anew along each way through crates.txt, and the longest chain in words."""

import functools
import hashlib
import time
from typing import Callable, Dict, List

from wgsim import TOP
from wgsim.program import crates

PARTS = ("src", "specs", "proofs")
# How often such a kit sums up a library in a gate: before it is proved, and once more after.
SUMS = 2


def ways(below: Dict[str, List[str]]) -> Dict[str, int]:
    """Of each crate by how many ways through the list it comes to the crates below, itself included: so many libraries one sum reads."""

    @functools.lru_cache(maxsize=None)
    def count(crate: str) -> int:
        return 1 + sum(count(each) for each in below[crate])

    return {crate: count(crate) for crate in below}


def reading_of(crate: str) -> float:
    """The seconds that it takes here to read the files of a crate and to sum them up, once."""
    paths = [path for part in PARTS for path in sorted((TOP / "crates" / crate / part).rglob("*")) if path.is_file()]
    took = []
    for _ in range(3):
        begun, total = time.process_time(), hashlib.sha256()
        for path in paths:
            total.update(repr((str(path), path.read_bytes())).encode())
        took.append(time.process_time() - begun)
    return min(took)


def sums_of(below: Dict[str, List[str]], reading: Dict[str, float]) -> Dict[str, float]:
    """The seconds that one sum of each crate takes, where each crate below it is read once for each way that leads there."""

    @functools.lru_cache(maxsize=None)
    def one(crate: str) -> float:
        return reading[crate] + sum(one(each) for each in below[crate])

    return {crate: one(crate) for crate in below}


def is_program(crate: str) -> bool:
    """Whether a crate is a program, of which no sum is made."""
    return (TOP / "crates" / crate / "src/main.rt").is_file()


def told(took: float, names: List[str]) -> str:
    """A chain in a sentence."""
    return f"{took:,.0f} seconds ({took / 60:.0f} minutes): {', '.join(f'`{name}`' for name in names)}"


def as_13b(seconds: Callable[[str], float], whole: float) -> str:
    """What a gate takes by a kit that keeps nothing and sums up each library along each way. `seconds` has what the proof of a crate takes,
    and `whole` what all of the gate does."""
    below = crates.listed()
    sums, counted = sums_of(below, {crate: reading_of(crate) for crate in below}), ways(below)
    of_libraries = {crate: SUMS * took for crate, took in sums.items() if not is_program(crate)}
    took, names = crates.longest(lambda crate: seconds(crate) + of_libraries.get(crate, 0), below)
    dearest = sorted(of_libraries, key=lambda crate: -of_libraries[crate])[:8]
    lines = ["| Crate | Ways | Sums, in seconds |", "|---|--:|--:|"]
    lines += [f"| `{crate}` | {counted[crate]:,} | {of_libraries[crate]:,.1f} |" for crate in dearest]
    lines += [f"| All libraries | {sum(counted[crate] for crate in of_libraries):,} | {sum(of_libraries.values()):,.1f} |", ""]
    minutes, of_sums = (whole + sum(of_libraries.values())) / 60, sum(of_libraries.values()) / 60
    lines += [f"By a kit that keeps nothing: {minutes:,.0f} processor minutes, of which {of_sums:,.1f} are sums, made one at a time."]
    lines += [f"The longest chain, with the sums of its crates, takes {told(took, names)}."]
    return "\n".join(lines) + "\n"
