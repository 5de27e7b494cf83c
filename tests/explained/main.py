"""Plays each script of the tables of this folder, and looks whether `explain` says what stands with it, in words and as JSON.

usage: tests/explained/run [--program PATH]

That program is asked; without it that of WGSIM_PROGRAM, or the one that the tool takes. Prints a line for each finding, and fails if there
is one. """

import argparse
import json
import os
import pathlib
import re
import sys

import table

from wgsim import causes
from wgsim.matching import explained, fault_objects, given
from wgsim.program import program as programs
from wgsim.reading import places

HERE = pathlib.Path(__file__).resolve().parent
TOP = HERE.parent.parent


findings = table.findings(causes.RULES)


def pieces_of(told):
    """What is told of each fault in words: the lines of a FAULT, or the line of one that follows."""
    found = re.findall(r"^(?:FAULT at entry|follows from entry) .*\n(?:    .*\n)*", told, re.M)
    return [[line.strip() for line in piece.splitlines()] for piece in found]


def test_refused(case, told, listed):
    """Each line is said of a script that is refused, and the rule is the one of the case."""
    lines = [re.sub(r"^(found|expected): +", r"\1: ", line.strip()) for line in told.splitlines()]
    missing = [line for line in case.said if line not in lines]
    found = listed[0] if listed else {}
    if missing or found.get("kind") != "refusal" or found["rule"] != case.rule:
        findings.append(f"{case.where}: {case.what}: not said is {missing or 'the rule'}:\n{told}")
    elif f"found: {found['condition']}" not in lines and found["condition"] is not None:
        findings.append(f"{case.where}: {case.what}: as JSON it is {found}")


def test_fault(case, told, listed):
    """The last fault of a script has the rule and the lines of its case, in words and as JSON."""
    pieces, wrong = pieces_of(told), [each for each in listed if each["kind"] == "fault"]
    if not pieces or len(pieces) != len(wrong):
        findings.append(f"{case.where}: {case.what}: {len(pieces)} faults in words, and {len(wrong)} as JSON:\n{told}")
        return
    last = wrong[-1]
    word = last["commandDo"] or ("late" if last["rule"] == 14 else last["do"])
    if (last["rule"], word) != (case.rule, case.call):
        findings.append(f"{case.where}: {case.what}: the last fault is of rule {last['rule']} of {word}:\n{told}")
        return
    missing = [line for line in case.said if line not in pieces[-1]]
    sentence = f"{last['condition']}." + (f" {last['remedy']}" if last["remedy"] else "")
    if missing or not case.said:
        findings.append(f"{case.where}: {case.what}: not said is {missing}, and said is\n    " + "\n    ".join(pieces[-1]))
    elif sentence not in pieces[-1] and not any(last["condition"] in line and last["follows_from"] is not None for line in pieces[-1]):
        findings.append(f"{case.where}: {case.what}: as JSON it is {sentence}")
    if not last["values"]:
        findings.append(f"{case.where}: {case.what}: there are no values")
    if last["remedy"] is None and last["follows_from"] is None:
        findings.append(f"{case.where}: {case.what}: it is not said what to do: {last['condition']}")


def test(case, program):
    data = case.text.encode("utf-8", "surrogateescape")
    text = places.Text(data, "S")
    told, status = explained.explain(text, data, program)
    listed = json.loads(fault_objects.explained(text, data, program)[0])
    (test_refused if case.is_refused else test_fault)(case, told, listed)
    if (status == 3) != case.is_refused:
        findings.append(f"{case.where}: {case.what}: the status is {status}:\n{told}")
        return
    of_given = given.Given(program.ask(data)[1], "R", text)
    again, _ = explained.explain(text, data, of_given)
    if pieces_of(again)[-1:] and not all(line in pieces_of(again)[-1] for line in case.said):
        findings.append(f"{case.where}: {case.what}: of the report alone it is told\n{again}")


# Scripts of bytes that no editor shows, each with lines that are to be said.
OF_BYTES = [
    (b'\xef\xbb\xbf{"budget":1,"phases":[]}', ["S:1:1", "found: a byte order mark, the bytes EF BB BF, before the text"]),
    (b"\xff\xfe{\x00", ["S:1:1", "found: the byte 0xff, which begins a byte order mark of UTF-16", "expected: a text in UTF-8"]),
    (b'{"budget":1,\xff', ["S:1:13", "found: the byte 0xff"]),
    (
        b'{"budget":1,"\x1b[2J":0,"phases":[]}',
        ["S:1:14", "found: the control character \\x1b in a string", '{"budget":1,"\\x1b[2J":0,"phases":[]}'],
    ),
    (
        '{"budget":1,"phases":[],"\u202e\u009b":0}'.encode(),
        ["S:1:25", 'found: the key "\\u202e\\x9b"', '{"budget":1,"phases":[],"\\u202e\\x9b":0}'],
    ),
]


def test_bytes(data, said, program):
    """The lines are said of a script of strange bytes, and none of these goes to the terminal as it is."""
    told, status = explained.explain(places.Text(data, "S"), data, program)
    lines = [re.sub(r"^(found|expected): +", r"\1: ", line.strip()) for line in told.splitlines()]
    missing = [line for line in said if line not in lines]
    if missing or status != 3 or any(ord(letter) in (*range(32), *range(127, 160), 0x202E) for letter in told.replace("\n", "")):
        findings.append(f"of {data!r}: not said is {missing}, or bytes are not escaped:\n{told!r}")


def main():
    parser = argparse.ArgumentParser(prog="tests/explained/run", description=__doc__.split("\n\n", maxsplit=1)[0])
    parser.add_argument("--program", metavar="PATH", help="the program to ask")
    words = parser.parse_args()
    if words.program:
        os.environ[programs.NAMED] = str(pathlib.Path(words.program).resolve())
    asked = programs.Program(False)
    for each in table.cases():
        test(each, asked)
    for each in OF_BYTES:
        test_bytes(*each, asked)
    for finding in findings:
        print(finding)
    print(f"tests of what is explained: {len(table.cases())} scripts, {len(findings)} findings")
    return 1 if findings else 0


sys.exit(main())
