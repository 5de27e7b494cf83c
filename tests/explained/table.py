"""Reads the tables of this folder: scripts, each with what `explain` has to say of it.

README.md has their form.
"""

import json
import pathlib
import re

HERE = pathlib.Path(__file__).resolve().parent
TOP = HERE.parent.parent
BARE = re.compile(r'"[^"]*"|[A-Za-z_][\w.-]*|\d[\w.-]*[A-Za-z][\w-]*|[^"A-Za-z_\d]+|\d+')
# The rules that no script can leave unmet: each object of a script is of its one device, and an encoder that is finished is valid, since on
# a lost device no call has a fault.
NEVER_UNMET = {10: "any", 12: "finish"}


class Case:
    """A script with the fault that it is to have: the rule, the call or command that breaks it, the text, and the lines that are to be
    said."""

    def __init__(self, file, line, head, text, said):
        self.where = f"tests/explained/{file}:{line}"
        found = re.fullmatch(r"(script )?(\d+)(?: (\w+))?: (.+)", head)
        if not found:
            raise ValueError(f"{self.where}: {head!r} is no head of a case")
        self.is_refused = found[1] is not None
        self.rule = int(found[2])
        self.call = found[3]
        self.what = found[4]
        self.text = text
        self.said = said


def value(text):
    """A value of a call as the tables have it: JSON whose words may stand without quotes."""
    pieces = BARE.findall(text)
    if "".join(pieces) != text:
        raise ValueError(f"{text!r} is no value")
    return "".join(
        f'"{piece}"' if re.match(r"[A-Za-z_]|\d[\w.-]*[A-Za-z]", piece) and piece not in ("true", "false", "null") else piece
        for piece in pieces
    )


def call(line):
    """The JSON of a call that is written in short, or the line itself where it is JSON."""
    if not re.match(r"[a-zA-Z]\w*( |$)", line):
        return line
    word, *keys = line.split()
    pairs = [key.partition("=") for key in keys]
    return f'{{"do":"{word}"' + "".join(f',"{name}":{value(held)}' for name, _, held in pairs) + "}"


def script(top, before, lines, after):
    """A script of one lane, with a call in each line from the second on."""
    calls = [call(line) for line in [*before, *lines, *after]]
    return f'{{{top},"phases":[[[\n' + ",\n".join(calls) + "]]]}"


def top_of(lines):
    """The keys beside the phases of a script: its budget, and the limits that it asks for."""
    budget = next((int(line.split()[1]) for line in lines if line.startswith("budget ")), 1000000)
    asked = [pair.split("=") for line in lines if line.startswith("limits ") for pair in line.split()[1].split(",")]
    pairs = ",".join(f'"{name}":{number}' for name, number in asked)
    return f'"budget":{budget}' + (f',"limits":{{{pairs}}}' if asked else "")


def blocks(text):
    """The blocks of a table, parted by empty lines, each with the number of its first line; lines that begin with # are left out."""
    found, start = [], None
    for number, line in enumerate(text.split("\n") + [""], 1):
        if line.startswith("#"):
            continue
        if not line.strip():
            start = None
        elif start is None:
            start = number
            found.append((number, [line]))
        else:
            found[-1][1].append(line)
    return found


def repeated(line):
    """A line of a script that is refused; `repeat N: TEXT` is a text so often in one line."""
    found = re.fullmatch(r"repeat (\d+): (.*)", line)
    return found[2] * int(found[1]) if found else line


def cases_of(path):
    """The cases of a table."""
    before, after = [], []
    for number, (head, *lines) in blocks(path.read_text(encoding="utf-8")):
        if head == "given":
            before, after = lines, []
        elif head == "then":
            after = lines
        else:
            said = [line[2:] for line in lines if line.startswith("> ")]
            own = [line for line in lines if not line.startswith(("> ", "budget ", "limits "))]
            text = "\n".join(map(repeated, own)) if head.startswith("script ") else script(top_of(lines), before, own, after)
            yield Case(path.name, number, head, text, said)


def cases():
    """All cases of the folder."""
    return [case for path in sorted(HERE.glob("*.txt")) for case in cases_of(path)]


def can_be_unmet(number, word):
    return NEVER_UNMET.get(number) not in ("any", word)


def findings(known):
    """The rules of docs/rules.json that a script can leave unmet and that have no cause among the known numbers, or no case for one of
    their calls."""
    table = json.loads((TOP / "docs/rules.json").read_text(encoding="utf-8"))
    rows = [(one["call"], row) for part in table["parts"] if "calls" in part for one in part["calls"] for row in one["rules"]]
    pairs = sorted({(number, word) for word, row in rows for number in row["rules"] if can_be_unmet(number, word)})
    have = {(case.rule, case.call) for case in cases() if not case.is_refused}
    found = [f"tools/wgsim/causes: rule {number} has no cause" for number in sorted({number for number, _ in pairs} - set(known))]
    for number, word in pairs:
        if (number, word) not in have and not (word == "*" and any(rule == number for rule, _ in have)):
            found.append(f"tests/explained: rule {number} of {word} has no case")
    refused = {case.rule for case in cases() if case.is_refused}
    return found + [
        f"tests/explained: script rule {number} has no case" for number in sorted({row["rule"] for row in table["scripts"]} - refused)
    ]
