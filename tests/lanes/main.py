"""Runs a program several times on scripts of many lanes that race, and verifies each report by the second implementation in model/.

Of the script `mixed` a first phase of one lane makes buffers. In the second all lanes at once write them, record clears and copies of them,
submit these, copy them to frames of a canvas each, map, unmap, and now and then destroy or drop them, and open and close error scopes. A
last phase of one lane completes the operations and destroys what is left. In `dropping` sixteen lanes destroy and drop the same buffers,
and in `submitting` sixteen submit what clears them while another lane destroys them (storms.py), both ten times as often; what has to be so
of each buffer in every order is read off each report as well.

Each run may bring another report; the model plays the calls in the order of its callers, and every line has to be the
same. It is told how often the turn went from one caller to another, which is little where the lanes did not race.

Ends with 1 if a report was none of the script.
"""

import argparse
import json
import os
import pathlib
import random
import re
import subprocess
import sys
import tempfile
import time

import storms

from model import answers
from shared import read_off

TOP = pathlib.Path(__file__).resolve().parents[2]


TIMEOUT = 600
SIZE = 64
SHARED, READ, WRITE = 12, 4, 4


def arguments():
    parser = argparse.ArgumentParser(prog="tests/lanes/run", description=__doc__.split("\n", maxsplit=1)[0])
    parser.add_argument("--program", default=TOP / "crates/wgsim/out/wgsim", help="runs as PROGRAM run < SCRIPT")
    parser.add_argument(
        "--times", type=int, default=5, help="how many runs of the mixed script; there are ten times as many of each other one"
    )
    parser.add_argument("--only", choices=sorted(SCRIPTS), help="runs that script alone")
    parser.add_argument("--lanes", type=int, default=64, help="how many lanes of the mixed script")
    parser.add_argument("--calls", type=int, default=100, help="how many calls of each lane of it")
    parser.add_argument("--seed", type=int, default=1, help="the seed of the scripts")
    parser.add_argument("--alone", action="store_true", help="the model plays the scripts alone, in random turns")
    parser.add_argument("--folder", help="where reports that are wrong are written, with their scripts; else a new folder")
    return parser.parse_args()


class Lane:
    """A lane that is being made, with the command buffers that it has not submitted."""

    def __init__(self, chance, number):
        self.chance = chance
        self.number = number
        self.calls = []
        self.names = 0
        self.ready = []
        self.own = []
        self.canvas = None

    def name(self, letter):
        self.names += 1
        return f"{letter}{self.number}_{self.names}"

    def add(self, do, **keys):
        self.calls.append({"do": do} | keys)

    def buffer(self):
        """A buffer that is shared, or at times one of the lane's own."""
        return self.chance.choice(self.own) if self.own and self.chance.random() < 0.2 else f"b{self.chance.randrange(SHARED)}"

    def range(self):
        offset = 4 * self.chance.randrange(SIZE // 4)
        return {"offset": offset, "size": 4 * self.chance.randint(0, (SIZE - offset) // 4)}

    def write(self):
        self.add(
            "writeBuffer", buffer=self.chance.choice([self.buffer(), self.buffer(), f"r{self.chance.randrange(READ)}"]), **self.range()
        )

    def record(self):
        """An encoder with clears and copies, which is finished, and submitted as a rule."""
        chance, encoder, made = self.chance, self.name("e"), self.name("c")
        self.add("createEncoder", **{"as": encoder})
        for _ in range(chance.choice([1, 1, 2, 3])):
            if chance.random() < 0.5:
                self.add("clearBuffer", on=encoder, buffer=self.buffer(), **self.range())
            else:
                source, target, size = self.buffer(), chance.choice([self.buffer(), f"r{chance.randrange(READ)}"]), 4 * chance.randint(0, 4)
                spots = {"sourceOffset": 4 * chance.randrange(12), "targetOffset": 4 * chance.randrange(12)}
                self.add("copyBufferToBuffer", on=encoder, source=source, target=target, size=size, **spots)
        if chance.random() < 0.1:
            self.add(chance.choice(["pushDebugGroup", "popDebugGroup"]), on=encoder)
        self.add("finish", on=encoder, **{"as": made})
        if chance.random() < 0.08:
            self.add("clearBuffer", on=encoder, buffer=self.buffer())
        self.ready.append(made)
        if chance.random() < 0.8:
            self.submit()

    def submit(self):
        """What is ready, at times together with what an earlier phase has finished and all lanes may submit."""
        buffers, self.ready = self.ready[-2:], self.ready[:-2]
        if self.chance.random() < 0.1:
            buffers.append(f"shared{self.chance.randrange(4)}")
        self.add("submit", buffers=buffers)

    def map(self):
        name = self.chance.choice([f"r{self.chance.randrange(READ)}", f"w{self.chance.randrange(WRITE)}"])
        self.add(
            "mapAsync",
            buffer=name,
            mode=1 if name[0] == "r" else 2,
            offset=8 * self.chance.randrange(4),
            size=4 * self.chance.randint(0, 8),
        )
        if self.chance.random() < 0.8:
            self.add("unmap", buffer=name)

    def make(self):
        name = self.name("o")
        self.add("createBuffer", size=SIZE, usage=self.chance.choice([12, 12, 12, 0]), **{"as": name})
        self.own.append(name)

    def give_up(self):
        """A destroy or a drop, of the lane's own as a rule, seldom of what others use."""
        if self.own and self.chance.random() < 0.9:
            self.add(self.chance.choice(["destroy", "drop"]), object=self.own.pop())
        elif self.chance.random() < 0.25:
            self.add(self.chance.choice(["destroy", "destroy", "drop"]), object=self.buffer())

    def frame(self):
        """A frame of the lane's canvas, to which a buffer is copied; at times it is presented before the submit, or not at all."""
        chance, encoder, made, texture = self.chance, self.name("e"), self.name("c"), self.name("t")
        if self.canvas is None:
            self.canvas = self.name("k")
            self.add("createCanvas", width=4, height=1, **{"as": self.canvas})
            self.add("configureCanvas", canvas=self.canvas, format="rgba8unorm", usage=2)
        self.add("currentTexture", canvas=self.canvas, **{"as": texture})
        self.add("createEncoder", **{"as": encoder})
        self.add("copyBufferToTexture", on=encoder, buffer=self.buffer(), texture=texture, size=[chance.choice([4, 4, 2]), 1, 1])
        self.add("finish", on=encoder, **{"as": made})
        ends = chance.choice([["submit", "present"]] * 5 + [["present", "submit"], ["submit"], ["present"]])
        for word in ends:
            self.add(word, **({"buffers": [made]} if word == "submit" else {"canvas": self.canvas}))

    def scope(self):
        if self.chance.random() < 0.5:
            self.add("pushErrorScope", filter=self.chance.choice(["validation", "validation", "out-of-memory"]))
        else:
            self.add("popErrorScope")

    def wait(self):
        self.add(*self.chance.choice([["workDone"], ["workDone"]]))
        if self.chance.random() < 0.5:
            self.add("complete", op=self.chance.randint(1, 1 + 8 * len(self.calls)))

    def fill(self, count):
        acts = [self.write, self.record, self.submit, self.frame, self.map, self.make, self.give_up, self.scope, self.wait]
        while len(self.calls) < count:
            self.chance.choices(acts, [8, 6, 1, 2, 3, 2, 2, 4, 2])[0]()
        return self.calls[:count]


def first_phase():
    made = [{"do": "createBuffer", "size": SIZE, "usage": 12, "as": f"b{number}"} for number in range(SHARED)]
    made += [{"do": "createBuffer", "size": SIZE, "usage": 9, "as": f"r{number}"} for number in range(READ)]
    made += [{"do": "createBuffer", "size": SIZE, "usage": 6, "as": f"w{number}"} for number in range(WRITE)]
    for number in range(4):
        made.append({"do": "createEncoder", "as": f"encoder{number}"})
        made.append(
            {
                "do": "copyBufferToBuffer",
                "on": f"encoder{number}",
                "source": f"w{number % WRITE}",
                "sourceOffset": 0,
                "target": f"b{number}",
                "targetOffset": 4,
                "size": 8,
            }
        )
        made.append({"do": "finish", "on": f"encoder{number}", "as": f"shared{number}"})
    return made


def last_phase(calls):
    ends = [{"do": "workDone"}] + [{"do": "complete", "op": op} for op in range(50, calls, 50)]
    ends += [{"do": "destroy", "object": f"b{number}"} for number in range(SHARED)] + [
        {"do": "drop", "object": f"r{number}"} for number in range(READ)
    ]
    return ends + [{"do": "lose"}, {"do": "complete", "op": calls}]


def mixed(words, _):
    made = [Lane(random.Random(f"{words.seed} {number}"), number).fill(words.calls) for number in range(words.lanes)]
    return [[first_phase()], made, [last_phase(words.lanes * words.calls // 2)]]


# The phases of the script of a run, what is wrong with a report of it that is read by itself, or None, and how often it is run for each
# time that is asked for.
SCRIPTS = {
    "mixed": (mixed, read_off.wrong_in, 1),
    "dropping": (lambda words, run: storms.dropping(f"{words.seed} {run}"), storms.wrong_drops, 10),
    "submitting": (lambda words, run: storms.submitting(f"{words.seed} {run}"), storms.wrong_submits, 10),
}


def turns_of(text):
    """The number of entries of the history, and how often the turn went from one caller to another."""
    callers = re.findall(rb"^\d+ (\d+) ", text.split(b"\ntrace\n")[0], re.M)
    return len(callers), sum(one != other for one, other in zip(callers, callers[1:]))


def ran(program, data, seed):
    if program is None:
        status, text = answers.answer(data, random.Random(seed).choice)
        return status, text.encode()
    try:
        run = subprocess.run([program, "run"], input=data, capture_output=True, timeout=TIMEOUT, check=False)
        return run.returncode, run.stdout
    except subprocess.TimeoutExpired:
        return None, b""


def run_once(program, words, name, number, folder):
    """Runs a script once, tells of it, and writes what is wrong to the folder: the report, and whether it is wrong."""
    phases, wrong_in, _ = SCRIPTS[name]
    data = json.dumps({"budget": 2**53 - 1, "phases": phases(words, number)}, separators=(",", ":")).encode()
    begun = time.monotonic()
    status, text = ran(program, data, number)
    middle = time.monotonic()
    wrong, wanted = answers.differences(data, status, text)
    wrong = wrong_in(text.decode()) if wrong is None else wrong
    entries, turns = turns_of(text)
    took = f"{middle - begun:.1f} s, verified in {time.monotonic() - middle:.1f} s"
    print(
        f"{name} {number}: {entries} entries, the turn went on {turns} times, {text.count(b'%sstep ' % chr(10).encode())} steps; {took}",
        flush=True,
    )
    if wrong is not None:
        base = folder / f"{name}-{number}"
        base.with_suffix(".json").write_bytes(data)
        base.with_suffix(".program").write_bytes(text)
        if wanted is not None:
            base.with_suffix(".model").write_text(wanted[1], encoding="utf-8")
        print(f"{name} {number} is wrong: {wrong}; see {base}.program and .json", flush=True)
    return text, wrong is not None


def main():
    words = arguments()
    program = None if words.alone else os.path.abspath(words.program)
    if program is not None and not os.access(program, os.X_OK):
        sys.exit(f"{program} is not there: `./wgsim prove` builds it")
    folder = pathlib.Path(words.folder or tempfile.mkdtemp(prefix="racing-lanes-"))
    differences = 0
    for name in [words.only] if words.only else SCRIPTS:
        times = words.times * SCRIPTS[name][2]
        found = [run_once(program, words, name, number, folder) for number in range(times)]
        differences += sum(is_wrong for _, is_wrong in found)
        print(
            f"{name}: {times} runs, {len({text for text, _ in found})} different reports,"
            f" {sum(is_wrong for _, is_wrong in found)} differences"
        )
    if not words.folder and not differences:
        folder.rmdir()
    sys.exit(1 if differences else 0)


if __name__ == "__main__":
    main()
