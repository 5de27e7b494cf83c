#!/usr/bin/env python3
"""Measures what the proof of each function of a crate costs, from nothing: removes what `rt check` kept of the crate, runs it at one job,
and at each line that says that a function's proof has ended notes how many processor seconds went by since the line before.

    measure/function-cost CRATE [--test] [--most COUNT]

The crates below are taken as they stand in their out/, and are proved first where they are not there. The prover goes depth first, so
that what a function needs and no function before it did (its code, the contracts of what it calls, what it is the first to load of std)
counts to whichever function ends next: a line can be wrong by ten seconds, and only sums over equal sets of functions can be compared.
Processor seconds grow with the load. Control and C ends it, with a table of what has ended until then. Changes no document.
"""

import argparse
import os
import re
import shutil
import signal
import subprocess
import sys

from gate_cost import TICK, reading_of
from wgsim import TOP

ENDED = re.compile(r"checked (\S+), \d+ of \d+$")


def arguments():
    layout = argparse.RawDescriptionHelpFormatter
    parser = argparse.ArgumentParser(prog="measure/function-cost", description=__doc__, formatter_class=layout)
    parser.add_argument("crate", metavar="CRATE", help="its name, as in crates.txt")
    parser.add_argument("--test", action="store_true", help="with its #[test] functions")
    parser.add_argument("--most", type=int, default=40, metavar="COUNT", help="how many of the dearest are written; 40, if left out")
    return parser.parse_args()


def seconds_of(root):
    """The processor seconds of a process and of all that it started, of those too that have ended and were waited for."""
    readings = {int(pid): reading_of(pid) for pid in os.listdir("/proc") if pid.isdigit()}
    readings = {pid: reading for pid, reading in readings.items() if reading}
    tree, found = {root}, True
    while found:
        found = {pid for pid, reading in readings.items() if reading[0] in tree} - tree
        tree |= found
    return TICK * sum(sum(readings[pid][1:3]) for pid in tree if pid in readings)


def measured(folder, words):
    """Each function with the seconds at which its proof had ended, the seconds of all at the last line, and what else was said."""
    ended, said, last = [], [], 0.0
    with subprocess.Popen(words, cwd=folder, stdout=subprocess.PIPE, text=True, start_new_session=True) as running:
        try:
            for line in running.stdout:
                last, found = seconds_of(running.pid), ENDED.match(line.strip())
                if found:
                    ended.append((found[1], last))
                else:
                    said.append(line.rstrip())
        except KeyboardInterrupt:
            os.killpg(running.pid, signal.SIGTERM)
    return ended, last, said


def stop(number, frame):
    raise KeyboardInterrupt


def main():
    asked = arguments()
    # (what a shell starts behind itself hears no control and C unless it asks to)
    for number in (signal.SIGINT, signal.SIGTERM):
        signal.signal(number, stop)
    folder = TOP / "crates" / asked.crate
    shutil.rmtree(folder / "out/incremental", ignore_errors=True)
    words = ["rt", "check", "--jobs", "1", "--progress", *(["--test"] if asked.test else [])]
    ended, last, said = measured(folder, words)
    if not ended:
        print(*said, sep="\n")
        return 1
    costs = [(end - begin, name) for (_, begin), (name, end) in zip(ended, ended[1:])]
    first, begun = ended[0]
    print(f"{begun:8.1f}  until the proof of {first} had ended")
    for cost, name in sorted(costs, reverse=True)[: asked.most]:
        print(f"{cost:8.1f}  {name}")
    print(f"{last - ended[-1][1]:8.1f}  after the last of {len(ended)} functions\n{last:8.1f}  together\n{said[-1] if said else ''}")
    return 0


if __name__ == "__main__":
    sys.exit(main())
