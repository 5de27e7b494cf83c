"""What is read off a report itself, without the second reading: what a lost device may answer and do, and that what has a fault does
nothing.

Each step belongs to one entry: that of an operation to the one that queued it, and that of the host to the one that it names. Barriers and
clears stand before a step, and so belong to its entry too. """

import re

ENTRY = re.compile(
    r"\d+ \d+ (?P<word>\w+) (?P<answer>made \d+ (?:in)?valid|op \d+|promise|plain|bad)(?P<fault> fault \S+ \d+ (?:uncaptured|scope"
    r" \d+))?(?: settle .*)?"
)


def wrong_in(text):
    """What is wrong with a report, in a line, or None."""
    lines = text.split("\n")
    history, trace = lines[1:lines.index("trace")], lines[lines.index("trace") + 1:]
    entries = [ENTRY.fullmatch(line) for line in history]
    if None in entries:
        return f"entry {entries.index(None)} has no form of an entry"
    loss = next((number for number, entry in enumerate(entries) if entry["word"] == "lose"), len(entries))
    for number, entry in enumerate(entries):
        if entry["fault"] is not None and entry["answer"].startswith("op "):
            return f"entry {number} has a fault and an operation"
        if number > loss and (entry["fault"] is not None or not is_of_a_lost_device(entry["answer"])):
            return f"entry {number} stands behind the loss, and is {history[number]!r}"
    return wrong_steps([line for line in trace if line.startswith("step ")], entries, loss)


def is_of_a_lost_device(answer):
    return answer in ("promise", "plain", "bad") or answer.endswith(" invalid")


def wrong_steps(steps, entries, loss):
    """What is wrong with the steps of a trace: each is of an entry without a fault, in the order of these, and behind the loss there are
    host writes of unmaps alone, with their clears."""
    queued = {entry["answer"]: number for number, entry in enumerate(entries)}
    last = 0
    for step in steps:
        _, _, sort, at, name = step.split(" ")
        number = queued.get(f"op {at}") if sort == "op" else int(at)
        if number is None or not last <= number < len(entries):
            return f"{step!r} is of no entry, or of one before that of the step before it"
        if entries[number]["fault"] is not None:
            return f"{step!r} is of entry {number}, which has a fault"
        if number > loss and (entries[number]["word"] != "unmap" or name not in ("hostWrite", "clear")):
            return f"{step!r} stands behind the loss, in entry {loss}"
        last = number
    return None
