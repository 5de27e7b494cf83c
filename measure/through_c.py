"""What calls cost through C: `measure/loop.c`, linked with the archive of the C interface, drives a device by the same calls over and over.

Instructions are counted by callgrind, as the difference of two counts divided by what lies between them, so that what a start takes falls
out. So that the figures are the same on machines with other processors, the C library is told to copy memory by what each of them has.
"""

import os
import pathlib
import re
import shutil
import subprocess
import sys
from typing import Dict, List, NamedTuple, Optional, Sequence, Tuple

from wgsim import TOP
from wgsim.program import archive

DOCUMENT = TOP / "docs/costs.md"
SOURCE, INCLUDE = TOP / "measure/loop.c", TOP / "include"
WORDS = ["gcc", "-std=c11", "-O2", "-Wall", "-Wextra", "-pedantic", "-Werror", "-I", str(INCLUDE), str(SOURCE)]
# What one of each kind is of which the instructions are counted.
COUNTED = {
    "rounds": "a round: a buffer made, written, copied from, submitted, completed and let go with its encoder and command buffer",
    "behind": "the same, completed three rounds later",
    "dispatches": "a setBindGroup and a dispatch, in one pass",
    "copies": "a copy, in one encoder",
    "writes": "a writeBuffer",
    "undrained": "a writeBuffer of which nothing is drained",
    "singly": "the same, drained at the end item by item, with uses and accesses",
    "arrays": "the same, drained at the end by arrays of 1,024",
    "encoders": "an encoder with a copy, and its finish",
    "groups": "a createBindGroup, and its drop",
    "states": "a setViewport and a setScissorRect, in one pass",
}
# The kinds of which it is measured what a device keeps, after so many rounds; and after so many where that has a bound.
KEEPING = ["rounds", "kept", "behind"]
ROUNDS = [10_000, 100_000, 1_000_000]
BOUNDED = 200_000
# Two counts by their word, of which the difference is taken, with the column that has what comes of it.
COUNTS = {"large": (1_000, 3_000), "small": (200, 600)}
COLUMNS = {"large": "Instructions", "small": "By small counts"}
# By how many parts in 100 a figure may lie above the one of the document.
MORE = 5
# The lines of the document between which what is counted stands.
NAME = "through-c"
# So that each processor takes the same way through the C library: that of the least of them, and none that copies bytes by one instruction.
TUNED = "glibc.cpu.hwcaps=-AVX512F,-AVX512VL,-AVX512BW,-AVX2,-AVX,-ERMS,-FSRM,-AVX2_Usable,-AVX_Fast_Unaligned_Load"
ENVIRONMENT = {**os.environ, "GLIBC_TUNABLES": TUNED}
# The names of functions that are listed: those of the archive, and of the C library those that it takes.
LISTED = re.compile(r"wethlorn_|.*::|.*(?:alloc|free|mem(?:cpy|move|set|cmp))")
# A shell that waits for the command: what is resident in the one that becomes it counts for it too.
APART = ["sh", "-c", '"$@"; exit $?', "sh"]


class Said(NamedTuple):
    """What the driver prints: the calls, the items, and the most KB that were resident."""

    calls: int
    items: int
    resident: int


class Cost(NamedTuple):
    """What one of a kind takes: its calls, its instructions, and those of the dearest functions with all that they call."""

    calls: float
    instructions: float
    functions: List[Tuple[float, str]]


class Loop:
    """The driver, linked with an archive."""

    def __init__(self, linked: Sequence[pathlib.Path], folder: str) -> None:
        self.program, self.folder = f"{folder}/loop", folder
        ran = subprocess.run([*WORDS, *map(str, linked), "-o", self.program], stdout=subprocess.PIPE, stderr=subprocess.STDOUT, text=True)
        if ran.returncode:
            sys.exit(f"measure/loop.c was not built:\n{ran.stdout}")

    def said(self, kind: str, count: int, before: Sequence[str] = APART) -> Said:
        """Runs the driver, and reads what it prints."""
        words = [*before, self.program, kind, str(count)]
        ran = subprocess.run(words, stdin=subprocess.DEVNULL, capture_output=True, text=True, env=ENVIRONMENT)
        told = re.fullmatch(r"\w+ \d+ calls (\d+) items (\d+) resident (\d+)\n", ran.stdout)
        if ran.returncode or not told:
            sys.exit(f"{' '.join(words)} ended with {ran.returncode}:\n{ran.stdout}{ran.stderr}")
        return Said(*map(int, told.groups()))

    def counted(self, kind: str, count: int) -> Tuple[int, int, str]:
        """The calls, the instructions, and the file that has what each function took."""
        file = f"{self.folder}/{kind}-{count}"
        said = self.said(kind, count, ["valgrind", "--tool=callgrind", f"--callgrind-out-file={file}"])
        found = re.search(r"^(?:summary|totals): (\d+)", pathlib.Path(file).read_text(encoding="utf-8"), re.MULTILINE)
        return said.calls, int(found.group(1)) if found else 0, file

    def cost(self, kind: str, counts: Tuple[int, int], functions: int = 0) -> Cost:
        """What one of a kind takes, by two counts."""
        less, more = (self.counted(kind, count) for count in counts)
        between = counts[1] - counts[0]
        dearest: List[Tuple[float, str]] = []
        if functions:
            before, after = each_function(less[2]), each_function(more[2])
            each = ((took - before.get(name, 0), name) for name, took in after.items() if LISTED.match(name))
            dearest = sorted(((took / between, name) for took, name in each), reverse=True)
        return Cost((more[0] - less[0]) / between, (more[1] - less[1]) / between, dearest[:functions])


def each_function(file: str) -> Dict[str, int]:
    """What each function took with all that it calls, by callgrind's own listing."""
    words = ["callgrind_annotate", "--inclusive=yes", "--threshold=100", "--auto=no", file]
    listing = subprocess.run(words, capture_output=True, text=True, check=True).stdout
    found: Dict[str, int] = {}
    for took, name in re.findall(r"^\s*([\d,]+) \([^)]*\)\s+[^:]*:(\S.*?)(?: \[[^\]]*\])?$", listing, re.MULTILINE):
        found[name] = max(found.get(name, 0), int(took.replace(",", "")))
    return found


def linked(named: Optional[str], libc: Optional[str]) -> List[pathlib.Path]:
    """The archive and the heap that the driver is linked with, or an end that says why there is none."""
    found, why = (pathlib.Path(named).resolve(), None) if named else archive.found()
    if why:
        sys.exit(f"nothing could be measured: {why}")
    return [found, pathlib.Path(libc).resolve() if libc else archive.libc()]


def has(name: str, what: str) -> bool:
    """Whether a program is installed; if not, what is not done for that is said."""
    if shutil.which(name) is None:
        print(f"notice: {name} is not installed, so {what} (Debian: apt-get install {name})")
        return False
    return True


def kinds(only: str) -> Dict[str, str]:
    return {kind: what for kind, what in COUNTED.items() if only in kind}


def costs_table(loop: Loop, words: Sequence[str], only: str = "", functions: int = 0) -> str:
    """The table of what one of each kind takes, by so many pairs of counts; and below a row its dearest functions."""
    head = ["Kind", "What one is", "Calls", *(COLUMNS[word] for word in words), "A call"]
    lines = [f"| {' | '.join(head)} |", "|---|---|" + "--:|" * (len(head) - 2)]
    for kind, what in kinds(only).items():
        costs = [loop.cost(kind, COUNTS[word], functions if word == words[0] else 0) for word in words]
        first, each = costs[0], [f"{cost.instructions:,.0f}" for cost in costs]
        lines.append(f"| `{kind}` | {what} | {first.calls:.0f} | {' | '.join(each)} | {first.instructions / first.calls:,.0f} |")
        lines += [f"{took:12,.0f}  {name}" for took, name in first.functions]
    return "\n".join(lines)


def memory_table(loop: Loop, only: str = "", rounds: Sequence[int] = ROUNDS) -> str:
    """The table of what is resident after so many rounds, or nothing where none of its kinds is asked for."""
    head = ["Kind", *(f"After {count:,} rounds, KB" for count in rounds), "Bytes a round, beyond the first of these"]
    lines = [f"| {' | '.join(head)} |", "|---|" + "--:|" * (len(head) - 1)]
    for kind in (kind for kind in KEEPING if only in kind):
        found = [loop.said(kind, count).resident for count in rounds]
        more = (found[-1] - found[0]) * 1024 / (rounds[-1] - rounds[0])
        lines.append(f"| `{kind}` | {' | '.join(f'{each:,}' for each in found)} | {more:,.1f} |")
    return "\n".join(lines) if len(lines) > 2 else ""


def put(text: str) -> None:
    """Writes the tables into the document, between the two lines that have their name."""
    begin, end = f"<!-- {NAME}: begin -->", f"<!-- {NAME}: end -->"
    whole = DOCUMENT.read_text(encoding="utf-8")
    before, found, rest = whole.partition(begin)
    if not found or end not in rest:
        sys.exit(f"{DOCUMENT} has no lines {begin} and {end}")
    DOCUMENT.write_text(f"{before}{begin}\n\n{text}\n\n{end}{rest.partition(end)[2]}", encoding="utf-8")


def tables(document: str) -> List[List[Dict[str, str]]]:
    """The tables of a text: each row by the names of its columns."""
    found = []
    for block in re.findall(r"(?:^\|.*\|$\n?)+", document, re.MULTILINE):
        head, _, *rows = ([cell.strip() for cell in line.strip("|").split("|")] for line in block.splitlines())
        found.append([dict(zip(head, row)) for row in rows])
    return found


def figures(column: str) -> Dict[str, int]:
    """The figures of a column by kind, as the section of the document has them."""
    section = DOCUMENT.read_text(encoding="utf-8").partition("\n## Through C\n")[2].partition("\n## ")[0]
    rows = (row for table in tables(section) for row in table if column in row)
    return {row["Kind"].strip("`"): int(row[column].replace(",", "")) for row in rows}


BOUND = f"Bytes at most after {BOUNDED:,} rounds"


def dearer(loop: Loop, word: str) -> List[str]:
    """What is dearer than the document has it, a line for each."""
    findings, wanted = [], figures(COLUMNS[word])
    for kind in COUNTED:
        found, known = loop.cost(kind, COUNTS[word]).instructions, wanted.get(kind)
        print(f"{kind}: {found:,.0f} instructions each, and {known or 0:,} in docs/costs.md", flush=True)
        if known is None:
            findings.append(f"{kind}: docs/costs.md has no figure, which `measure/bench --through-c --write` writes")
        elif found * 100 > known * (100 + MORE):
            findings.append(f"{kind}: {found:,.0f} instructions are more than {MORE} in 100 above the {known:,} of docs/costs.md")
    return findings


def larger(loop: Loop) -> List[str]:
    """Where more is resident than the document allows, a line for each."""
    findings, bounds = [], figures(BOUND)
    for kind in KEEPING:
        found, bound = loop.said(kind, BOUNDED).resident * 1024, bounds.get(kind, 0)
        print(f"{kind}: {found:,} bytes resident after {BOUNDED:,} rounds, and at most {bound:,} by docs/costs.md", flush=True)
        if found > bound:
            findings.append(f"{kind}: {found:,} bytes are resident after {BOUNDED:,} rounds, and docs/costs.md allows {bound:,}")
    return findings


def check(loop: Loop, word: str) -> bool:
    """Compares what is counted with the document, and says what is above it."""
    findings = dearer(loop, word) if has("valgrind", "no instructions are counted") else []
    findings += larger(loop)
    for finding in findings:
        print(finding)
    print(f"what calls cost through C: {len(findings)} findings")
    return not findings
