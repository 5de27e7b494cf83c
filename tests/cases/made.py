"""What made scripts and their reports are put together of."""

EMPTY = b"history\ntrace\nend\n"
TEXT_LIMIT = 4_194_304
GREATEST_WHOLE = 2**53 - 1


def lane(calls):
    return f'{{"budget":{GREATEST_WHOLE},"phases":[[[{",".join(calls)}]]]}}'.encode()


def report(entries, trace=()):
    """A report of some entries, and of a trace if there is one. Each entry has the rest of its line after number and lane."""
    lines = ["history", *[f"{number} 0 {entry}" for number, entry in enumerate(entries)], "trace", *trace, "end"]
    return "".join(line + "\n" for line in lines).encode()


def phased(phases):
    return f'{{"budget":{GREATEST_WHOLE},"phases":[{",".join(phases)}]}}'.encode()


def listed(items):
    return "[" + ",".join(items) + "]"


def on_pass(name, *calls):
    """Calls on a pass, each the rest of its text."""
    return [f'{{"do":"{call.split(",")[0]}","on":"{name}"{"," if "," in call else ""}{call.partition(",")[2]}}}' for call in calls]
