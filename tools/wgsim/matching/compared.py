"""Sets what a browser answered beside what the program says of the same calls: where they agree, where they differ, and what is outside.

The verdict of a call is one of
    agrees    both take it, or both refuse it, with an error of the same kind that reaches the same error scope; and its promise is settled
        alike
    differs   one of them refuses it alone, or they tell another kind, another scope or another settlement
    known     they differ as docs/coverage.md says that they do
    outside   the browser alone refuses it, and it used what a script cannot say: that may be the reason, or not
    follows   they differ, and it names what came of an earlier call on which they did
"""

from __future__ import annotations

import json
import pathlib
import re
from typing import TYPE_CHECKING, Any, Iterable

from wgsim.matching.beside import Beside, DoNotMatch
from wgsim.reading import report as reports
from wgsim.reading import rules
from wgsim.reading import script as scripts
from wgsim.reading.browser_answers import Answers, Pages
from wgsim.reading.places import NotJson, Text
from wgsim.reading.report import count
from wgsim.recorder import whole_text

if TYPE_CHECKING:
    from wgsim.reading.browser_answers import Answer, Note, Passed as PassedCall
    from wgsim.reading.report import Entry, Fault
    from wgsim.reading.script import Call

AGREES, DIFFERS, KNOWN, OUTSIDE, FOLLOWS = "agrees", "differs", "differs as known", "outside", "follows"
TABLE = json.loads((whole_text.FOLDER / "known.json").read_text(encoding="utf-8"))
QUEUING = {"submit", "writeBuffer", "writeTexture"}
# The rules that the standard tells by an exception.
THROWS = {number for rule in rules.RULES if rule.is_thrown for number in rule.numbers}
LONGEST = 20
# Words by which a browser tells that an error only follows from another: Chromium's, and Firefox's.
PREVIOUS = re.compile(r"is invalid due to a previous error|with '[^']*' label is invalid")
TOO_SMALL = re.compile(next(row["says"] for row in TABLE["known"] if "createBindGroup" in row.get("calls", [])))


class Verdict:
    """What is told of one call. `is_alone` says that the browser alone refuses it, with an error of a kind and the message."""

    def __init__(self, number: int, call: Call | None, at: str | None, how: str, core: str, browser: str, why: str | None = None) -> None:
        self.number, self.call, self.at, self.how, self.core, self.browser, self.why = number, call, at, how, core, browser, why
        self.word = call.word if call is not None else ""
        self.is_alone = False
        self.kind = ""
        self.message = ""

    def of_browser(self, answer: Answer) -> None:
        """Takes the error that the browser alone told."""
        self.is_alone = True
        self.kind = "thrown" if "throws" in answer else f"{answer['error']}, {answer['caught']}"
        self.message = answer["throws"] if "throws" in answer else answer["message"]

    def is_too_small(self) -> bool:
        """Whether the browser alone tells that a buffer is smaller than what the shader reads: a write past its end follows from that."""
        return self.is_alone and TOO_SMALL.search(self.message) is not None

    def place(self) -> str:
        return f"at call {self.number}"

    def text(self, times: int = 1) -> str:
        """It in words, with how often it comes; without its number where that is 0."""
        often = f", the first of {times} times" if times > 1 else ""
        where = (self.place() + (f", {self.at}" if self.at else "") if times else "") + often
        why = f" ({self.why})" if self.why else ""
        return f"{self.how} {where}: {self.word}: core {self.core}; browser {self.browser}{why}"

    def json(self) -> dict[str, Any]:
        return {
            "call": self.number,
            "do": self.word,
            "at": self.at,
            "verdict": self.how,
            "core": self.core,
            "browser": self.browser,
            "why": self.why,
        }


class Passed(Verdict):
    """What is told of a call that the script does not have, and that the browser refused."""

    def __init__(self, passed: PassedCall) -> None:
        why = f"no script has it: {listed([passed['outside']])}" + (f", {passed['detail']}" if passed.get("detail") else "")
        how = FOLLOWS if PREVIOUS.search(passed.get("message", "")) else OUTSIDE
        super().__init__(passed["before"], None, passed.get("at"), how, "has it not", browser_of(passed), why)
        self.word = passed["do"]
        self.of_browser(passed)

    def place(self) -> str:
        return f"before call {self.number}"


class Compared:
    """A recording beside the program's report of its script."""

    def __init__(self, path: pathlib.Path, data: bytes, said: str) -> None:
        self.answers, self.pages = Answers(path), Pages(str(path))
        self.verdicts: list[Verdict] = []
        self.refused = said.strip() if said.startswith("bad script") else None
        self.tainted: set[str | None] = set()
        self.is_count_off, self.is_scope_off = False, False
        if self.refused:
            return
        try:
            self.beside = Beside(reports.Report(said), scripts.read(Text(data, path.name)))
        except (NotJson, DoNotMatch, reports.NotReport) as error:
            self.refused = f"the report is not of the script: {error}"
            return
        for passed in self.answers.passed:
            if "error" in passed or "throws" in passed:
                self.verdicts.append(Passed(passed))
        self.settled = {promise: how for entry in self.beside.report.entries for promise, how in entry.settled}
        for number, call in enumerate(self.beside.script.calls):
            self.compare(number, call)

    def compare(self, number: int, call: Call) -> None:
        """Notes the verdict of a call where there is something to tell."""
        entry, answer = self.beside.entry_of.get(call), self.answers.of.get(number, {})
        fault = entry.fault if entry is not None else None
        has_failed = "error" in answer or "throws" in answer
        if fault is not None and has_failed:
            how = AGREES if same_error(fault, answer) else DIFFERS
            self.is_scope_off = self.is_scope_off or "throws" in answer and fault[2] != "uncaptured"
            self.note(number, call, how, core_of(fault), browser_of(answer), None if how == AGREES else self.reason(call, fault, answer))
        elif fault is not None or has_failed:
            self.note(number, call, DIFFERS, core_of(fault), browser_of(answer), self.reason(call, fault, answer))
            if has_failed:
                self.verdicts[-1].of_browser(answer)
        elif entry is not None and "settle" in answer:
            self.settle(number, call, entry, answer)

    def settle(self, number: int, call: Call, entry: Entry, answer: Answer) -> None:
        """Compares how a promise was settled."""
        core, browser = self.settled.get(entry.number), answer["settle"]
        told = re.sub(r" \d+$", "", core) if core is not None else None
        if told == browser or self.is_count_off and call.word != "popErrorScope":
            return
        how, why = self.reason(call, None, {}, (told, browser))
        if call.word == "popErrorScope" and self.is_scope_off:
            how, why = FOLLOWS, "an earlier difference was caught by this scope, or was not"
        self.tainted |= self.names(call)
        words = f"settles {core}" if core is not None else "does not settle it"
        self.add(number, call, how, words, f"settles {browser}", why)

    def reason(
        self, call: Call, fault: Fault | None, answer: Answer, settled: tuple[str | None, str] | None = None
    ) -> tuple[str, str | None]:
        """Why two answers differ, in `settled` how they settle a promise, as far as that is known: the verdict and its words."""
        if answer.get("unanswered"):
            return OUTSIDE, "the browser had not answered when the recording ended"
        if self.names(call) & self.tainted:
            return FOLLOWS, "it names what came of an earlier difference"
        for row in TABLE["known"]:
            if is_of(row, call, fault, answer, settled):
                return KNOWN, f"docs/coverage.md, \"{row['row']}\""
        left = [word for word in answer.get("left", []) if excuses(word, call, answer)]
        # What has words that the browser said goes before what may have any.
        left = [word for word in left if whole_text.OUTSIDE.get(word, {}).get("says")] or left
        if fault is None and left:
            return OUTSIDE, f"it used {listed(sorted(left, key=lambda word: word != 'shader'))}"
        message = answer.get("message", "")
        about = [row["said"] for row in TABLE["unlooked"] if call.word in row["calls"] and re.search(row["says"], message)]
        if fault is None and about:
            return OUTSIDE, f"it is about {about[0]}, at which this core does not look"
        lifted = [word for word in self.answers.device if fault is not None and fault[1] in TABLE["lifted"].get(word, [])]
        return (OUTSIDE, f"the device has {', '.join(lifted)}") if lifted else (DIFFERS, None)

    def note(self, number: int, call: Call, how: str, core: str, browser: str, reason: tuple[str, str | None] | None) -> None:
        """Adds a verdict. What comes of a call on which the two differ differs too."""
        how, why = reason if reason is not None else (how, None)
        self.add(number, call, how, core, browser, why)
        if how == AGREES:
            return
        if call.gives:
            self.tainted.add(call.gives)
        elif call.word == "mapAsync":
            self.tainted |= self.names(call)
        if call.is_late:
            self.tainted.add(scripts.string_of(call.value, "on"))
        self.is_count_off = self.is_count_off or call.word in QUEUING
        self.is_scope_off = self.is_scope_off or " scope " in f"{core} {browser}"

    def add(self, number: int, call: Call, how: str, core: str, browser: str, why: str | None) -> None:
        """Adds a verdict, of the call as the page made it."""
        self.verdicts.append(Verdict(number, call, self.pages.at(call), how, core, browser, why))
        self.verdicts[-1].word = self.pages.word(call)

    def names(self, call: Call) -> set[str]:
        """The names that a call uses, and of a finish those that its commands use."""
        commands = [call, *self.beside.script.recorded_in(call)]
        return {name.what for command in commands for _, name in command.names()}

    def how(self) -> str:
        """The verdict of the whole recording."""
        if self.refused:
            return DIFFERS
        found = {verdict.how for verdict in self.verdicts}
        return next((how for how in (DIFFERS, KNOWN, OUTSIDE) if how in found), AGREES)

    def of(self, how: str) -> list[Verdict]:
        return [verdict for verdict in self.verdicts if verdict.how == how]

    def left(self) -> list[str]:
        """What the page asked for and the script does not say, with how often, in words."""
        found = {}
        for word, times in self.answers.left.items():
            row = whole_text.OUTSIDE.get(word, {"said": word})
            if not row.get("harmless"):
                found[row["said"]] = found.get(row["said"], 0) + times
        return [f"{said}, {count(times, 'time')}" for said, times in found.items()] + self.answers.device

    def agreed(self) -> list[str]:
        """The first error on which both agree, and how many more there are."""
        found = self.of(AGREES)
        return [verdict.text() for verdict in found[:1]] + ([f"and at {count(len(found) - 1, 'further call')}"] if len(found) > 1 else [])

    def lines(self) -> list[str]:
        """What is told below the first line: shaders that were refused, and buffers that are too small for one, come first."""
        if self.refused:
            return [self.refused]
        lines = [line for note in self.answers.notes if "shader" in note for line in noted(note)]
        others = [verdict for verdict in self.verdicts if verdict.how not in (AGREES, FOLLOWS)]
        lines += told_once([verdict for verdict in others if verdict.is_too_small()]) + self.agreed()
        told = told_once([verdict for verdict in others if not verdict.is_too_small()])
        lines += told[:LONGEST] + ([f"and {count(len(told) - LONGEST, 'other')}"] if len(told) > LONGEST else [])
        follow = len(self.of(FOLLOWS))
        lines += [f"{count(follow, 'call')} that {'follows' if follow == 1 else 'follow'} from an earlier one"] if follow else []
        lines += [line for note in self.answers.notes if "shader" not in note for line in noted(note)]
        unread = [passed for passed in self.answers.passed if passed["outside"] == "shader text" and passed["do"].startswith("create")]
        lines += [f"at {passed.get('at')}: {passed['do']} is not in the script: {passed['detail']}" for passed in unread]
        return lines + ([f"left out, since no script says it: {'; '.join(self.left())}"] if self.left() else [])

    def json(self) -> dict[str, Any]:
        return {
            "refused": self.refused,
            "calls": len(self.pages.calls),
            "told": [verdict.json() for verdict in self.verdicts],
            "left": self.left(),
            "notes": self.answers.notes,
        }


def same_error(fault: Fault, answer: Answer) -> bool:
    """Whether the browser's error is that of the program: thrown where the standard throws, and else of its kind and in its scope."""
    kind, number, caught = fault
    if "throws" in answer:
        return number in THROWS
    return (kind, caught) == (answer["error"], answer["caught"])


def core_of(fault: Fault | None) -> str:
    if fault is None:
        return "takes it"
    kind, number, caught = fault
    return f"refuses it by rule {number} ({kind}, {caught})"


def browser_of(answer: Answer) -> str:
    if "throws" in answer:
        return f"throws {answer['throws']}"
    if "error" not in answer:
        return "does not answer" if answer.get("unanswered") else "takes it"
    lines = [line.strip(" -") for line in answer["message"].splitlines() if line.strip()]
    return f"refuses it ({answer['error']}, {answer['caught']}): {lines[0] if lines else 'it says nothing'}"


def is_of(row: dict[str, Any], call: Call, fault: Fault | None, answer: Answer, settled: tuple[str | None, str] | None) -> bool:
    """Whether a difference is one that is known: by the rule of the program, the words of the browser, and the call, as far as the row has
    them."""
    holds = [
        fault is None if "rules" not in row else fault is not None and fault[1] in row["rules"],
        settled is None if "settled" not in row else settled == tuple(row["settled"]),
        "says" not in row or re.search(row["says"], answer.get("message", "")) is not None,
        "error" not in row or answer.get("error") == row["error"],
        "settles" not in row or answer.get("settle") == row["settles"],
        "calls" not in row or call.word in row["calls"],
    ]
    return all(holds)


def excuses(word: str, call: Call, answer: Answer) -> bool:
    """Whether something that was left out can be why a browser refuses a call: by the call, and by the words of the browser."""
    row = whole_text.OUTSIDE.get(word, {"calls": [call.word], "says": ""})
    message = answer.get("message") or answer.get("throws", "")
    return not row.get("harmless") and call.word in row["calls"] and re.search(row["says"], message, re.IGNORECASE) is not None


def told_once(verdicts: list[Verdict]) -> list[str]:
    """Verdicts in lines, where those that come again at the same place of the page, with the same words, are told once."""
    groups: dict[Any, list[Any]] = {}
    for verdict in verdicts:
        is_placed = verdict.at is not None
        groups.setdefault((verdict.at, verdict.text(0)) if is_placed else verdict, []).append(verdict)
    return [found[0].text(len(found)) for found in groups.values()]


def listed(words: Iterable[str]) -> str:
    """What was left out, in words."""
    return ", ".join(dict.fromkeys(whole_text.OUTSIDE.get(word, {"said": word})["said"] for word in words))


def noted(note: Note) -> list[str]:
    """A note of the recorder, in lines: the browser's or the page's words are told whole."""
    lines = [line.rstrip() for line in said_of(note).splitlines() if line.strip()]
    return lines[:1] + [f"    {line}" for line in lines[1:]]


def said_of(note: Note) -> str:
    at = f"at {note['at']}: " if "at" in note else ""
    if "shader" in note:
        return f"{at}the browser refuses a shader: {note['message'].strip()}"
    if "thrown" in note:
        return f"{at}{note['do']} threw {note['thrown']}, and is no call of the device"
    if "lost" in note:
        return f"before call {note['before']} the browser says that the device is lost ({note['lost']}): {note['message']}"
    if "stray" in note:
        return f"before call {note['before']} the browser told an error of no call: {note['message'].strip()}"
    return f"{at}the page failed before call {note['before']}: {note.get('page')}"
