"""Scripts in which sixteen lanes storm some buffers one after another, and what is read off a report of one, whatever order it is of.

Entries do not name their objects. But each lane takes the buffers in turn, so that of the entries of one word of a lane the n-th is about
the n-th buffer, whose object has the number n. """

import random
import re

LANES, ROUNDS = 16, 8
ENTRY = re.compile(r"(\d+) (\d+) (\w+) (.*)")


def buffers():
    """The first phase, of one lane, which makes the buffers."""
    return [[{"do": "createBuffer", "size": 64, "usage": 8, "as": f"b{number}"} for number in range(ROUNDS)]]


def dropping(_):
    """Each lane destroys each buffer, and then drops it."""
    lane = [{"do": word, "object": f"b{number}"} for number in range(ROUNDS) for word in ("destroy", "drop")]
    return [buffers(), [lane] * LANES]


def submitting(seed):
    """Each lane clears each buffer by a command buffer of its own, and submits that, beside a last lane which destroys each buffer, after
    about as many entries as the others need for one. In the end all is complete, however many operations there were."""
    chance = random.Random(seed)
    lanes = []
    for lane in range(LANES):
        calls = []
        for number in range(ROUNDS):
            encoder, made = f"e{lane}_{number}", f"c{lane}_{number}"
            calls += [{"do": "createEncoder", "as": encoder}, {"do": "clearBuffer", "on": encoder, "buffer": f"b{number}"}]
            calls += [{"do": "finish", "on": encoder, "as": made}, {"do": "submit", "buffers": [made]}]
        lanes.append(calls)
    last = []
    for number in range(ROUNDS):
        last += [{"do": "workDone"}] * chance.choice([1, 2, 2, 3]) + [{"do": "destroy", "object": f"b{number}"}]
    return [buffers(), [*lanes, last], [[{"do": "complete", "op": op} for op in range(LANES * ROUNDS, 0, -1)]]]


def entries_of(text, word):
    """The entries of a word in each caller's turn: of the n-th of each caller the numbers and the rest of their lines, without their
    promises."""
    found = [ENTRY.fullmatch(line).groups() for line in text[:text.index("\ntrace\n")].split("\n")[1:]]
    of_callers = {}
    for number, caller, each, rest in found:
        if each == word:
            of_callers.setdefault(caller, []).append((int(number), rest.partition(" settle ")[0]))
    return list(zip(*of_callers.values()))


GONE, DESTROYED = "plain fault validation 11 uncaptured", "plain fault validation 192 uncaptured"


def wrong_drops(text):
    """Of each buffer one drop is good, every destroy before it is too, and what comes after it has rule 11; and it is given back once."""
    for number, (drops, destroys) in enumerate(zip(entries_of(text, "drop"), entries_of(text, "destroy"))):
        good = [entry for entry, said in drops if said == "plain"]
        if len(good) != 1 or any(said != ("plain" if entry <= good[0] else GONE) for entry, said in [*drops, *destroys]):
            return f"buffer {number}: its drops and destroys answer {sorted([*drops, *destroys])}"
    return wrong_releases(text)


def wrong_submits(text):
    """Of each buffer each submit before the destroy is an operation, and each one after it has rule 192; and it is given back once."""
    for number, (submits, ((destroyed, said),)) in enumerate(zip(entries_of(text, "submit"), entries_of(text, "destroy"))):
        if said != "plain" or any(not answer.startswith("op ") if entry < destroyed else answer != DESTROYED for entry, answer in submits):
            return f"buffer {number}: it is destroyed by entry {destroyed}, and its submits answer {sorted(submits)}"
    return wrong_releases(text)


def wrong_releases(text):
    """Each buffer is given back once."""
    found = sorted(line for line in text.split("\n") if line.startswith("free "))
    return None if found == [f"free b {number}" for number in range(ROUNDS)] else f"what is given back is {found}"
