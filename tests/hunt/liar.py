"""An engine that lies in one of five ways: it answers a script by the second reading, and changes that.

usage: tests/hunt/liar.py LIE < SCRIPT

LIE is `copy`, which takes a copy that is refused; `scope`, which names another scope; `twice`, which settles a promise twice; `draw`, which
refuses a draw that is good; `crash`, which ends where a query set is resolved; or `none`.
"""

import json
import os
import re
import sys

from model import answers


def copy(lines, calls):
    """A finish is taken that is refused for a copy from a buffer to a buffer."""
    return [re.sub(r"invalid fault validation 25[02] .*", "valid", line) for line in lines]


def scope(lines, calls):
    """What the second scope from outside catches of a createBuffer is caught by the outermost."""
    return [re.sub(r"(createBuffer .*) scope 1$", r"\1 scope 0", line) for line in lines]


def twice(lines, calls):
    """A workDone is settled twice."""
    return [re.sub(r"( settle \d+ done)", r"\1\1", line) for line in lines]


def draw(lines, calls):
    """A finish that is taken is refused where its script draws."""
    if not any(call["do"] == "draw" for call in calls):
        return lines
    return [re.sub(r"^(\d+ 0 finish made \d+) valid$", r"\1 invalid fault validation 350 uncaptured", line) for line in lines]


def crash(lines, calls):
    """The engine ends."""
    if any(call["do"] == "resolveQuerySet" for call in calls):
        os.abort()
    return lines


def none(lines, calls):
    return lines


def main():
    data = sys.stdin.buffer.read()
    status, text = answers.answer(data)
    if status == answers.DONE:
        history, trace = text.split("\ntrace\n")
        calls = [call for lanes in json.loads(data)["phases"] for lane in lanes for call in lane]
        lies = {each.__name__: each for each in (copy, scope, twice, draw, crash, none)}
        text = "\n".join(lies[sys.argv[1]](history.split("\n"), calls)) + "\ntrace\n" + trace
    sys.stdout.write(text)
    sys.exit(status)


if __name__ == "__main__":
    main()
