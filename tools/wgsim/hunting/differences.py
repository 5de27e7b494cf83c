"""Sets what a browser or an engine answered to a script beside the core's answers, call by call.

What was answered is `told`, as tools/player/player.js gives it: `answers` by the numbers of calls (`error` with its `message`, `throws`,
`settle` with how often it came, `settled`, and `caught`), `stray` errors of no call, `own`, what the script's own error scopes caught,
`lost`, `hung` and `gone`. What names what came of a difference is not compared, since it differs too.
"""

from __future__ import annotations

import collections
import re
from typing import Any, Iterator

from wgsim.matching.compared import THROWS

from . import shape
from .core import Answered

CORE_ALONE, OTHER_ALONE, KIND, SCOPE, SETTLED, TWICE, STRAY, LOST, HUNG, GONE, TRACE = (
    "the core alone refuses it", "the core alone takes it", "another kind of error", "another scope", "a promise settled otherwise",
    "a promise settled twice", "an error of no call", "the device is lost", "nothing comes any more", "the browser ends", "the trace",
)
SHORT = {
    CORE_ALONE: "taken", OTHER_ALONE: "refused", KIND: "kind", SCOPE: "scope", SETTLED: "settled", TWICE: "twice", STRAY: "stray",
    LOST: "lost", HUNG: "hang", GONE: "crash", TRACE: "trace",
}
LONGEST = 110


class Difference:
    """One call on which the two differ; `number` is that of the call, or None where it is of the whole script."""

    def __init__(self, kind: str, number: int | None, word: str, core: str, other: str, rule: int | None = None, message: str = "") -> None:
        self.kind, self.number, self.word, self.core, self.other, self.rule, self.message = kind, number, word, core, other, rule, message
        self.call: dict[str, Any] = {}
        # The calls of the script, and the names of what the core refuses to make.
        self.script: list[dict[str, Any]] = []
        self.refused: set[str] = set()

    def layouts(self) -> list[Any]:
        """The entries of the layouts that a pipeline names, by group; none of another call."""
        made = {each["as"]: each for each in self.script if each["do"] in ("createPipelineLayout", "createBindGroupLayout")}
        return [made.get(name, {}).get("entries", []) for name in made.get(self.call.get("layout"), {}).get("layouts", [])]

    def key(self) -> str:
        """What is the same of differences that are one: the kind, the call, the rule and the message."""
        return f"{self.kind} | {self.word} | {self.rule if self.rule is not None else '-'} | {shortened(self.message)}"

    def name(self) -> str:
        """The beginning of the name under which it is written down."""
        rule = f"-rule-{self.rule}" if self.rule is not None else ""
        return f"{self.word}-{SHORT[self.kind]}{rule}"


def shortened(message: str) -> str:
    """What a message says, without its numbers, names and places."""
    lines = [line.strip(" -") for line in message.splitlines() if line.strip()]
    first = lines[0] if lines else ""
    first = re.sub(r'"[^"]*"', '""', re.sub(r"\((?:unlabeled|[^()]*\d[^()]*)\)", "", first))
    return re.sub(r"\s+", " ", re.sub(r"\d+", "N", first)).strip()[:LONGEST]


class Compared:
    """A script with the core's answers and those of the other, and the differences."""

    def __init__(self, answered: Answered, told: dict[str, Any]) -> None:
        self.answered, self.told = answered, told
        self.found: list[Difference] = []
        self.refused_shaders: list[tuple[int, str]] = []
        self.tainted: set[str] = set()
        self.recorded: dict[str, set[str]] = collections.defaultdict(set)
        if not self.of_the_whole():
            for number, call in enumerate(answered.flat.calls):
                self.compare(number, call)
            self.compare_strays()
            if not self.found and not self.tainted and "own" in told:
                self.compare_scopes()
        self.tell_scripts()

    def tell_scripts(self) -> None:
        """Tells each difference the script in which it is."""
        whole, entries = self.answered.whole, self.answered.entry_of.items()
        refused = {whole[number].get("as", "") for number, entry in entries if entry.fault is not None}
        for difference in self.found:
            difference.script, difference.refused = whole, refused
            difference.call = whole[difference.number] if difference.number is not None else {}

    def of_the_whole(self) -> bool:
        """Notes what makes an end of a play, where there is such."""
        for key, kind in (("gone", GONE), ("hung", HUNG), ("lost", LOST)):
            if key in self.told:
                said = self.told[key] if isinstance(self.told[key], str) else ""
                self.found.append(Difference(kind, None, "script", "answers each call", f"{kind}: {said}", None, said))
                return True
        return False

    def compare(self, number: int, call: dict[str, Any]) -> None:
        """Compares what was answered to a call."""
        answer, entry = self.told["answers"].get(str(number), {}), self.answered.entry_of.get(number)
        names = shape.names_in(call) | self.commands_of(call)
        if "shader" in answer:
            self.refused_shaders.append((number, answer["shader"]))
        if names & self.tainted or "missing" in answer or "shader" in answer:
            self.taint(call)
            return
        fault = entry.fault if entry is not None else None
        differences = list(self.errors(number, call, fault, answer)) or list(self.settlements(number, call, answer))
        self.found += differences
        for _ in differences:
            self.taint(call)

    def commands_of(self, call: dict[str, Any]) -> set[str]:
        """The names that the commands of an encoder use, of the finish that ends it; those of other calls are noted."""
        on = call.get("on")
        if call["do"] in ("finish", "finishBundle"):
            return self.recorded[call["on"]]
        if on is not None:
            known = self.recorded[on]
            known |= shape.names_in(call)
            if "as" in call:
                self.recorded[call["as"]] = known
        return set()

    def taint(self, call: dict[str, Any]) -> None:
        """What comes of a call is not compared any more: what it makes, or what it changes. A canvas gives the same texture again."""
        self.tainted |= {call["as"]} if "as" in call else shape.names_in(call)
        if call["do"] == "currentTexture":
            self.tainted.add(call["canvas"])
        if call["do"] == "configureCanvas":
            self.tainted |= self.of_canvas(call["canvas"])

    def of_canvas(self, canvas: str) -> set[str]:
        """What a canvas gives, and what is made of that: a configure that differs expires another texture, or none."""
        found = {canvas}
        for call in self.answered.flat.calls:
            if shape.names_in(call) & found:
                found |= {call[key] for key in ("as", "on") if key in call}
        return found

    def errors(self, number: int, call: dict[str, Any], fault: Any, answer: dict[str, Any]) -> Iterator[Difference]:
        """Whether both refuse a call, or both take it."""
        has_failed = "error" in answer or "throws" in answer
        if fault is None and not has_failed:
            return
        rule = fault[1] if fault is not None else None
        message = answer.get("message", answer.get("throws", ""))
        core, other = said_of_core(fault), said_of(answer)
        if fault is None:
            yield Difference(OTHER_ALONE, number, call["do"], core, other, None, message)
        elif not has_failed:
            yield Difference(CORE_ALONE, number, call["do"], core, other, rule, answer.get("reason", ""))
        elif not is_same(fault, self.answered.whole[number], answer):
            yield Difference(KIND, number, call["do"], core, other, rule, message)
        elif "caught" in answer and "error" in answer and answer["caught"] != fault[2]:
            yield Difference(SCOPE, number, call["do"], core, other, rule)

    def settlements(self, number: int, call: dict[str, Any], answer: dict[str, Any]) -> Iterator[Difference]:
        """Whether a promise is settled as the core has it, and once."""
        wanted = self.answered.settled.get(number)
        if answer.get("settled", 0) > 1:
            yield Difference(TWICE, number, call["do"], f"settles it once: {wanted}", f"settles it {answer['settled']} times")
        elif wanted is not None and ("settle" in answer or "isLate" in answer):
            found = answer.get("settle", "nothing yet")
            how = re.sub(r" \d+$", "", wanted)
            if how != found and not (found == "mapped" and how == "mapped"):
                yield Difference(SETTLED, number, call["do"], f"settles it: {how}", f"settles it: {found}", None, f"{how} {found}")

    def compare_strays(self) -> None:
        """An error that comes of no call that may make one."""
        for stray in self.told.get("stray") or [] if not self.tainted else []:
            self.found.append(
                Difference(STRAY, None, "command", "makes no such error", f"{stray['kind']}: {stray['message']}", None, stray["message"])
            )

    def compare_scopes(self) -> None:
        """What the script's own scopes caught, where nothing stood around the calls, and what reached none of them."""
        own, caught = self.told["own"], self.caught()
        for number, call in enumerate(self.answered.flat.calls):
            if call["do"] == "popErrorScope":
                self.found += self.scope(number, call, own["answers"].get(str(number), {}), caught.get(number))
        faults = [(entry.fault, self.answered.whole[number]) for number, entry in self.answered.entry_of.items() if entry.fault is not None]
        wanted = collections.Counter(fault[0] for fault, call in faults if is_uncaught(fault, call))
        met = collections.Counter(stray["kind"] for stray in own.get("stray") or [])
        # A device that is destroyed drops the events that are still on their way.
        is_lost = any(call["do"] == "lose" for call in self.answered.flat.calls)
        if wanted != met and not self.found and not is_lost:
            self.found.append(Difference(SCOPE, None, "uncapturederror", told_of(wanted), told_of(met), None, f"{told_of(wanted)}"))

    def caught(self) -> dict[int, str]:
        """What each scope gives that is closed and caught something, by the number of its pop: what is thrown comes to none."""
        open_scopes: list[str | None] = []
        given: dict[int, str] = {}
        for number, call in enumerate(self.answered.whole):
            entry = self.answered.entry_of.get(number)
            if call["do"] == "pushErrorScope":
                open_scopes.append(None)
            elif call["do"] == "popErrorScope" and self.answered.settled.get(number, "").startswith("error"):
                given[number] = open_scopes.pop() or "null"
            elif call["do"] == "popErrorScope" and open_scopes:
                open_scopes.pop()
            elif entry is not None and entry.fault is not None and entry.fault[2].startswith("scope") and not is_thrown(entry.fault, call):
                at = int(entry.fault[2].split()[1])
                open_scopes[at] = open_scopes[at] or f"error {entry.fault[0]}"
        return given

    def scope(self, number: int, call: dict[str, Any], answer: dict[str, Any], caught: str | None) -> Iterator[Difference]:
        """Whether a scope gives what the core has for it."""
        if answer.get("settled", 0) > 1:
            yield from self.settlements(number, call, answer)
            return
        wanted = caught or re.sub(r" \d+$", "", self.answered.settled.get(number, ""))
        found = answer.get("settle", "nothing")
        if wanted and wanted != found:
            yield Difference(SCOPE, number, call["do"], f"gives {wanted}", f"gives {found}", None, f"{wanted} {found}")


def is_uncaught(fault: Any, call: dict[str, Any]) -> bool:
    """Whether an error comes to no scope, and to a handler; what is thrown comes to neither."""
    return fault is not None and fault[2] == "uncaptured" and not is_thrown(fault, call)


def is_thrown(fault: Any, call: dict[str, Any]) -> bool:
    """Whether a page gets a fault as an exception; of a write it is the size that is thrown."""
    return fault[1] in THROWS and (call["do"] != "writeBuffer" or call["size"] % 4 != 0)


def is_same(fault: Any, call: dict[str, Any], answer: dict[str, Any]) -> bool:
    """Whether an error is that of the core: thrown where the standard throws, and else of its kind. An engine, which says what caught an
    error, throws nothing."""
    if is_thrown(fault, call) and "caught" not in answer:
        return "throws" in answer
    return "throws" not in answer and fault[0] == answer["error"]


def said_of_core(fault: Any) -> str:
    return "takes it" if fault is None else f"refuses it by rule {fault[1]} ({fault[0]}, {fault[2]})"


def said_of(answer: dict[str, Any]) -> str:
    """What the other answered, in a line."""
    if "throws" in answer:
        return f"throws {answer['throws']}"
    if "error" not in answer:
        return "takes it"
    lines = [line.strip(" -") for line in answer.get("message", "").splitlines() if line.strip()]
    return f"refuses it ({answer['error']}): {lines[0] if lines else 'it says nothing'}"


def told_of(counts: collections.Counter[str]) -> str:
    """How many errors of which kinds are uncaptured."""
    return ", ".join(f"{count} {kind}" for kind, count in sorted(counts.items())) or "none"
