"""Measures what the gate costs, crate by crate: runs `rt ci --anew` here, or `rt ci` where the toolchain keeps nothing of a gate and has no
such word, looks at its processes in /proc each half second, and writes a table into docs/gate.md, between the lines that say so.

    measure/gate-cost [--print] [-- COMMAND ..]    of the gate, or of a command in place of it
    measure/gate-cost --first-run [--print]        of the first run of the program, `./wgsim prove`
    measure/gate-cost --from FILE .. [--print]     of what an earlier run left, also of one that was cut off; or of what several runs
                                                   left, each of some crates: of a crate that several proved the last counts
    measure/gate-cost --as 13b [--from FILE]       reckons what it would take by a kit that keeps nothing, and sums up each library along
                                                   each way through crates.txt; runs nothing, and changes no document

The first run is one from nothing only where `rt` has kept nothing of these crates on the machine; the gate always is.
A process that proves a crate is known by its words and its folder. It has its own time and that of its children, of those that have
ended too; so each second is counted once, but for the last half second of each at most, which stands with that of `rt` itself.
Ends as the command ends.
"""

import argparse
import datetime
import json
import os
import pathlib
import re
import resource
import signal
import subprocess
import sys
import textwrap
import time

import chains
from wgsim import TOP
from wgsim.program import crates, proof_costs

DOCUMENT = TOP / "docs/gate.md"
# Seconds between two looks, and between two times that what is running is written into the file of samples.
EACH, WRITTEN = 0.5, 10
TICK, PAGE = 1 / os.sysconf("SC_CLK_TCK"), os.sysconf("SC_PAGE_SIZE")
# Bytes from which on a process counts as one of those that share a proof.
LARGE = 50_000_000
PROOF, TESTS, EDITS, BESIDE = KINDS = ("proof", "tests", "edits", "beside")
# The gate from nothing, by kits that keep what a gate has proved and by those that do not, and the status of words that `rt` does not know.
ANEW, GATE, UNKNOWN = ["rt", "ci", "--anew"], ["rt", "ci"], 2


def arguments():
    words, command = sys.argv[1:], []
    if "--" in words:
        at = words.index("--")
        words, command = words[:at], words[at + 1 :]
    parser = argparse.ArgumentParser(prog="measure/gate-cost", description=__doc__, formatter_class=argparse.RawDescriptionHelpFormatter)
    parser.add_argument("--print", action="store_true", help="writes the table to standard output, and changes no document")
    parser.add_argument("--first-run", action="store_true", help="of `./wgsim prove`")
    parser.add_argument("--from", dest="earlier", type=pathlib.Path, nargs="+", metavar="FILE", help="runs nothing: of these samples")
    parser.add_argument("--as", dest="kit", choices=["13b"], help="reckons what the gate would take by that kit")
    parser.add_argument("--samples", type=pathlib.Path, metavar="FILE", help="where samples go; else a file in tools/out/")
    asked = parser.parse_args(words)
    asked.name = "first-run-cost" if asked.first_run else "gate-cost"
    asked.command = command or (["./wgsim", "prove"] if asked.first_run else ANEW)
    asked.samples = asked.samples or TOP / f"tools/out/{asked.name}.jsonl"
    return asked


def reading_of(pid):
    """What /proc says of a process: its parent, its ticks, those of the children that it has waited for, and its memory in bytes."""
    try:
        with open(f"/proc/{pid}/stat", "rb") as file:
            fields = file.read().rpartition(b")")[2].split()
    except OSError:
        return None
    return int(fields[1]), int(fields[11]) + int(fields[12]), int(fields[13]) + int(fields[14]), int(fields[21]) * PAGE


def share_of(pid):
    """The memory of a process in bytes, where what it shares with others is shared out among them. To find that takes long."""
    try:
        with open(f"/proc/{pid}/smaps_rollup", "rb") as file:
            found = re.search(rb"^Pss:\s+(\d+) kB$", file.read(), re.M)
        return int(found[1]) * 1024 if found else 0
    except OSError:
        return 0


def words_of(pid):
    """The words that a process was started with, and the folder that it works in."""
    try:
        with open(f"/proc/{pid}/cmdline", "rb") as file:
            words = file.read().decode("utf-8", "replace").split("\0")
        return words, os.readlink(f"/proc/{pid}/cwd")
    except OSError:
        return [], ""


def work_of(words, folder):
    """Which crate a process works on, and at what; None for one like `rt`, whose children work."""
    tools = {os.path.basename(word) for word in words[:8]}
    if "--crate-name" in words[:-1] and "rattle" in tools:
        crate = words[words.index("--crate-name") + 1]
        # (an edit is tried on a copy of the crate; a program is compiled once it is proved, and --only reads without proving)
        if os.path.basename(folder).startswith("rt-edit-"):
            return crate, EDITS
        if "--crate-checked" in words or "--only" in words:
            return crate, BESIDE
        return crate, TESTS if "--test" in words else PROOF
    if "fmt" in words[:8] and "rattle" in tools:
        return named(r".*/crates/(\w+)/", words[-2] if len(words) > 1 else "")
    if "rattle-link" in tools or words[0:1] and words[0].startswith("out/"):
        return named(r".*/crates/(\w+)", folder)
    return next(filter(None, (named(r".*/rt-run-[^/]*/bin/(\w+?)(?:_tests)?(?:\.by-rattle)?$", word) for word in words)), None)


def named(pattern, text):
    """What a crate has beside proofs, if the text names one."""
    found = re.match(pattern, text)
    return (found[1], BESIDE) if found else None


class Job:
    """A process that works on a crate, with all that it started."""

    def __init__(self, number, work):
        self.number, (self.crate, self.kind) = number, work
        self.ticks = self.most = self.shared = 0
        self.large = []
        self.is_new = True

    def note(self, ticks, sizes):
        """Notes a look, with the memory of each of its processes, and returns what they take at once. Several large ones are one proof
        that was begun by one and is shared by all: they take what was found when that was last looked at, or at least the largest."""
        self.is_new = self.is_new or ticks > self.ticks
        self.ticks = max(self.ticks, ticks)
        self.large = [pid for pid, size in sizes.items() if size > LARGE]
        now = sum(sizes.values()) if len(self.large) < 2 else max(self.shared, *sizes.values())
        self.most = max(self.most, now)
        return now

    def weigh(self):
        """Finds what the processes take where they share a proof."""
        if len(self.large) > 1:
            self.shared = sum(map(share_of, self.large))

    def record(self):
        return {"job": self.number, "crate": self.crate, "kind": self.kind, "seconds": round(self.ticks * TICK, 2), "memory": self.most}


class Watch:
    """The processes that one process has started, and what they took."""

    def __init__(self, root):
        self.root = root
        self.below, self.strangers = {root: []}, set()
        self.jobs, self.at = [], {}
        self.ticks = self.most = 0

    def look(self):
        """Takes one sample."""
        present = {int(name) for name in os.listdir("/proc") if name.isdigit()}
        self.strangers &= present
        gone = self.below.keys() - present
        for pid in gone:
            del self.below[pid]
            self.at.pop(pid, None)
        if gone:
            for pid, children in self.below.items():
                self.below[pid] = [child for child in children if child not in gone]
        self.meet(present - self.strangers - self.below.keys())
        ticks, sizes = self.sums(self.root, False)
        self.ticks, self.most = max(self.ticks, ticks), max(self.most, sum(sizes.values()))

    def meet(self, pids):
        """Finds which of the processes that are new are ours: those that have one of ours above them."""
        readings = {pid: reading_of(pid) for pid in pids}
        parents = {pid: reading[0] for pid, reading in readings.items() if reading}
        for pid in parents:
            chain = [pid]
            while chain[-1] in parents and chain[-1] not in self.below and chain[-1] not in self.strangers:
                chain.append(parents[chain[-1]])
            last = chain.pop()
            if last in self.below:
                for above, one in zip([last, *reversed(chain)], reversed(chain)):
                    self.below[above].append(one)
                    self.below[one] = []
            else:
                self.strangers.update(chain)

    def sums(self, pid, is_inside):
        """The ticks of a process with all below it, and the memory of each, or of each job. A process is read before its children:
        one that ends in between is counted by neither this time, and never by both."""
        reading = reading_of(pid)
        if not reading:
            return 0, {}
        job = None if is_inside else self.job_of(pid)
        ticks, sizes = reading[1] + reading[2], {pid: reading[3]}
        for child in self.below.get(pid, ()):
            more, below = self.sums(child, is_inside or job is not None)
            ticks += more
            sizes.update(below)
        return ticks, {pid: job.note(ticks, sizes)} if job else sizes

    def job_of(self, pid):
        """The job that begins with a process. Each is asked again until it has one, since a process may yet become another program."""
        if pid not in self.at:
            work = work_of(*words_of(pid))
            if not work:
                return None
            self.at[pid] = Job(len(self.jobs), work)
            self.jobs.append(self.at[pid])
        return self.at[pid]


def first_line(*words):
    """The first line that a command writes, or nothing."""
    try:
        ran = subprocess.run(words, cwd=TOP, stdout=subprocess.PIPE, stderr=subprocess.DEVNULL, universal_newlines=True)
        return (ran.stdout.splitlines() or [""])[0]
    except OSError:
        return ""


def run_of(command):
    """The first record of a file of samples: what is run, where, and on what."""
    changed = first_line("git", "status", "--porcelain", "--untracked-files=no")
    commit = first_line("git", "rev-parse", "--short", "HEAD") + (" with changes" if changed else "")
    where = {"commit": commit, "kit": first_line("rt", "version"), "processors": len(os.sched_getaffinity(0))}
    return {"command": command, "day": datetime.date.today().isoformat(), **where}


def children_seconds():
    used = resource.getrusage(resource.RUSAGE_CHILDREN)
    return used.ru_utime + used.ru_stime


def sampled(command, file, out):
    """Runs a command, writes samples of what it starts, and returns its status."""

    def write(record):
        file.write(json.dumps(record) + "\n")

    def write_all(more):
        for job in watch.at.values():
            job.weigh()
        for job in watch.jobs:
            if job.is_new:
                write(job.record())
                job.is_new = False
        write({"clock": round(time.monotonic() - began, 1), "seconds": round(watch.ticks * TICK, 2), "memory": watch.most, **more})
        file.flush()

    write(run_of(command))
    before, began, own = children_seconds(), time.monotonic(), time.process_time()
    run = subprocess.Popen(command, cwd=TOP, stdout=out)
    watch, looked, written = Watch(run.pid), began, began
    # (what ends this ends the command, and the table is of what there was until then; the terminal's own reaches the command by itself)
    signal.signal(signal.SIGINT, lambda *_: None)
    for number in (signal.SIGTERM, signal.SIGHUP):
        signal.signal(number, lambda *_: run.terminate())
    while run.poll() is None:
        watch.look()
        if time.monotonic() - written > WRITTEN:
            written = time.monotonic()
            write_all({})
        looked = max(looked + EACH, time.monotonic())
        time.sleep(max(looked - time.monotonic(), 0))
    write_all({"seconds": round(children_seconds() - before, 2), "status": run.returncode})
    share = 100 * (time.process_time() - own) / (time.monotonic() - began)
    print(f"gate-cost: looking took {share:.2f} parts in 100 of a processor", file=sys.stderr)
    return run.returncode


class Costs:
    """What files of samples have. The last line of a job counts, and the last of all; a line that was cut off counts for nothing."""

    def __init__(self, files):
        self.runs, self.jobs, self.alls = [], {}, []
        for lines in files:
            self.read(lines)
        self.run = self.runs[-1] if self.runs else {}

    def read(self, lines):
        """Takes in the samples of one run."""
        at, whole = len(self.alls), {"clock": 0, "seconds": 0, "memory": 0}
        for line in lines:
            try:
                record = json.loads(line)
            except ValueError:
                continue
            if "command" in record:
                self.runs.append(record)
            elif "job" in record:
                self.jobs[at, record["job"]] = record
            else:
                whole = record
        self.alls.append(whole)

    @property
    def all(self):
        """What the runs took together, and what came of the last."""
        added = {word: sum(whole[word] for whole in self.alls) for word in ("clock", "seconds")}
        return {**self.alls[-1], **added, "memory": max(whole["memory"] for whole in self.alls)}

    def seconds(self, crate, kind):
        """The processor seconds of a crate's work of a kind, in the last run that had some, or None if none had."""
        found = {}
        for (at, _), job in self.jobs.items():
            if job["kind"] == kind and job["crate"] == crate:
                found[at] = found.get(at, 0) + job["seconds"]
        return found[max(found)] if found else None

    def rows(self):
        """The crates, the dearest first: the seconds of each kind, all together, and the most memory at once of one of its jobs."""
        found = []
        for crate in {job["crate"] for job in self.jobs.values()}:
            each = [self.seconds(crate, kind) for kind in KINDS]
            memory = max(job["memory"] for job in self.jobs.values() if job["crate"] == crate)
            found.append((f"`{crate}`", *each, sum(filter(None, each)), memory))
        return sorted(found, key=lambda row: (-row[-2], row[0]))


def shown(cells):
    """A row of the table."""
    crate, *seconds, memory = cells
    told = ["" if it is None else f"{it:,.0f}" for it in seconds]
    return f"| {' | '.join([crate, *told, '' if memory is None else f'{memory / 1e9:.1f}'])} |"


def minutes(seconds):
    return f"{seconds / 60:,.0f}" if seconds > 600 else f"{seconds / 60:.1f}"


COLUMNS = (
    "Processor seconds, user and system, the dearest crate first. `Tests` is the crate proved once more with its tests, `Edits` the "
    "wrong bodies that are tried, `Beside` the layout, compiling, linking and runs; `Memory` is in GB, the most that one of these took."
)


def head(costs):
    """The sentences above the table."""
    run, every = costs.run, costs.all
    if len(costs.runs) > 1:
        return f"{of_several(costs)}\n\n{COLUMNS}"
    status = every.get("status")
    ended = "It was cut off: this is what it took until then." if status is None else f"It ended with status {status}."
    where = f"on {run['day']} at commit {run['commit'] or 'unknown'}, by {run['kit'] or 'an unknown kit'}"
    took = f"{minutes(every['seconds'])} processor minutes, and {minutes(every['clock'])} minutes of the clock"
    on = f"on {run['processors']} processors, with at most {every['memory'] / 1e9:.1f} GB of memory at once"
    first = f"`{' '.join(run['command'])}` {where}: {took}, {on}. {ended}"
    return f"{first}\n\n{COLUMNS}"


def of_several(costs):
    """The sentence above the table of several runs."""
    run = costs.run
    crates_seconds = sum(row[-2] for row in costs.rows())
    where = f"the last on {run['day']} at commit {run['commit'] or 'unknown'}, by {run['kit'] or 'an unknown kit'}"
    took = f"what the table has is {minutes(crates_seconds)} processor minutes"
    return f"{len(costs.runs)} runs, each of some crates, {where}, beside other work on {run['processors']} processors: {took}."


def table(costs):
    """What is written into the document."""
    rows = costs.rows()
    sums = [sum(row[at] or 0 for row in rows) for at in range(1, len(KINDS) + 2)]
    lines = [head(costs), "", "| Crate | Proof | Tests | Edits | Beside | All | Memory |", "|---|--:|--:|--:|--:|--:|--:|"]
    lines += map(shown, rows)
    lines.append(shown(("`rt` itself, and the last half seconds", *[None] * len(KINDS), max(costs.all["seconds"] - sums[-1], 0), None)))
    lines.append(shown(("All", *sums[:-1], max(costs.all["seconds"], sums[-1]), costs.all["memory"])))
    return "\n".join([*lines, "", chain(costs)]) + "\n"


def seconds_of(costs):
    """What the proof of a crate takes by a file of samples, and what a crate that is proved with tests or linked takes beside that."""
    above = {name for below in crates.listed().values() for name in below}

    def seconds(crate):
        kinds = [PROOF] if crate in above else [PROOF, TESTS, BESIDE]
        return sum(costs.seconds(crate, kind) or 0 for kind in kinds)

    return seconds


def chain(costs):
    """The longest chain of crates, which no number of processors makes shorter, in a sentence."""
    found = chains.told(*crates.longest(seconds_of(costs), crates.listed()))
    return textwrap.fill(f"The longest chain of crates that stand on one another takes {found}.", 140, break_on_hyphens=False)


def reckoned(asked):
    """What the gate would take by another kit: by samples, where there are some, or by the table by which `./wgsim prove` estimates."""
    paths = asked.earlier or [asked.samples]
    if all(path.exists() for path in paths):
        costs = costs_in(paths)
        return f"By {', '.join(map(str, paths))}:\n\n" + chains.as_13b(seconds_of(costs), costs.all["seconds"])
    whole = sum(map(proof_costs.seconds_of, crates.listed()))
    return "By tools/wgsim/program/proof_costs.json, so without edits:\n\n" + chains.as_13b(proof_costs.seconds_of, whole)


def put(document, name, text):
    """Writes a text into a document between the two lines that have its name, or at the end where they are not there."""
    begin, end = f"<!-- {name}: begin -->", f"<!-- {name}: end -->"
    whole = document.read_text(encoding="utf-8")
    if begin not in whole or end not in whole.partition(begin)[2]:
        whole = f"{whole.rstrip()}\n\n{begin}\n{end}\n"
    before, _, rest = whole.partition(begin)
    document.write_text(f"{before}{begin}\n\n{text}\n{end}{rest.partition(end)[2]}", encoding="utf-8")


def costs_in(paths):
    return Costs([path.read_text(encoding="utf-8").splitlines() for path in paths])


def measured(asked, command):
    """Runs a command, writes the file of samples, and returns its status."""
    asked.samples.parent.mkdir(parents=True, exist_ok=True)
    with asked.samples.open("w", encoding="utf-8") as file:
        # (the table alone goes to standard output)
        return sampled(command, file, sys.stderr if asked.print else None)


def main():
    asked = arguments()
    if asked.kit:
        print(reckoned(asked), end="")
        return 0
    status = 0
    if not asked.earlier:
        status = measured(asked, asked.command)
        if asked.command == ANEW and status == UNKNOWN and not costs_in([asked.samples]).jobs:
            print("gate-cost: this toolchain has no such word, and each of its gates is from nothing", file=sys.stderr)
            status = measured(asked, GATE)
    costs = costs_in(asked.earlier or [asked.samples])
    if not costs.run:
        sys.exit(f"{asked.earlier or [asked.samples]} has no samples")
    text = table(costs)
    if asked.print:
        print(text, end="")
    else:
        put(DOCUMENT, asked.name, text)
    return status if status >= 0 else 128 - status


if __name__ == "__main__":
    sys.exit(main())
