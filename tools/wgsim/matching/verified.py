"""`wgsim verify`: whether a report is one that its script can have, for the callers that it names; and where it is not, its first line that
is wrong, what is right there, and why.

The callers of the entries say in which order the lanes took their turns. The second reading plays the script in that order, entry by entry
as the report goes on, and each line has to be the one that it has. """

from __future__ import annotations

import functools
import re
from typing import TYPE_CHECKING, Any, Callable, Iterator

from wgsim import exit_status
from wgsim.matching import orders, second
from wgsim.reading import places
from wgsim.reading import report as reports
from wgsim.reading import rules
from wgsim.reading import script as scripts
from wgsim.reading.report import Report, count, summary

if TYPE_CHECKING:
    from model.history import History, Played
    from model.turns import Turns
    from wgsim.reading.script import Script

ENTRY = re.compile(r"\d+ (\d+) \w+ ")
LONGEST = 300


class Wrong(Exception):
    """A line of a report is wrong: its number from 0, what is right there, or None where that hangs on the turn, and why in lines."""

    def __init__(self, number: int, right: str | None, why: list[str]) -> None:
        super().__init__(number)
        self.number = number
        self.right = right
        self.why = why


class Verified:
    """A report that is gone through beside its script."""

    def __init__(self, script: second.Played, data: bytes, text: bytes) -> None:
        self.script = script
        self.data = data
        self.lines = text.decode("utf-8", "backslashreplace").split("\n")
        self.at = 0
        self.known: History | None = None
        self.calls: Script | None = None

    @property
    def history(self) -> History:
        """What was played, of a script that is not refused."""
        assert self.known is not None
        return self.known

    def test(self) -> None:
        """Goes through the report up to its first wrong line, if there is one."""
        if self.script.refusal is not None:
            self.want(self.script.refusal.rstrip("\n"), self.why_refused)
        else:
            self.want("history", lambda _: ["a report begins with the line `history`, since the script is not refused"])
            self.entries()
            for line, item in second.report.trace_lines(second.traces.trace_of(self.history)):
                self.want(line, functools.partial(self.why_trace, line=line, item=item))
            self.want("end", lambda _: ["the trace is through: the last line of a report is `end`"])
        if self.at < len(self.lines) - 1 or self.lines[-1]:
            raise Wrong(self.at, "the end of the report", ["nothing comes after that"])

    def line(self) -> str | None:
        """The line that is looked at; past the last end of a line there is none."""
        return self.lines[self.at] if self.at < len(self.lines) - 1 else None

    def want(self, right: str, why: Callable[[str | None], list[str]]) -> None:
        """The next line has to be this one."""
        theirs = self.line()
        if theirs != right:
            raise Wrong(self.at, right, why(theirs))
        self.at += 1

    def entries(self) -> None:
        """The entries, in the order of the callers that they name."""
        playing = self.script.begin()
        self.known = playing.history
        while playing.open_lanes():
            caller = self.caller(playing)
            playing.take(caller)
            played = self.history.entries()[-1]
            self.want(second.report.entry_line(played), functools.partial(self.why_entry, played=played))
        self.want("trace", lambda _: ["the script is through, and the line `trace` comes after its last entry"])

    def caller(self, playing: Turns) -> int:
        """The caller of the next entry: the one that its line names, which has to have a turn; or the only one that may have it."""
        found = ENTRY.match(self.line() or "")
        caller = int(found[1]) if found and len(found[1]) < 9 else None
        if caller is not None and caller in playing.open_lanes():
            return caller
        if len(playing.open_lanes()) == 1:
            return playing.open_lanes()[0]
        entry = len(self.history.entries())
        if found is None:
            raise Wrong(self.at, None, [f"entry {entry} stands there: {orders.may_come(playing)}"])
        raise Wrong(self.at, None, [f"entry {entry} cannot be of caller {found[1]}: {orders.may_come(playing)}"])

    def why_refused(self, _: Any) -> list[str]:
        """Why a script is refused."""
        number = int(self.script.refusal.split()[2])
        return [f"the script is refused; script rule {number} refuses: {each}" for each in rules.script_rules(number)[:1]]

    def why_entry(self, theirs: str | None, played: Played) -> list[str]:
        """Why an entry is as the second reading has it: its call, and what of the line is not so."""
        ours = reports.Entry(second.report.entry_line(played))
        lines = [f"entry {played.entry} is of the call at {self.where(played)}"]
        try:
            other = reports.Entry(theirs or "")
        except (ValueError, IndexError, AttributeError, KeyError):
            return lines + ["the line is no entry of a report"] + self.of_fault(played)
        if other.number != ours.number:
            lines.append(f"entries are numbered from 0 on, and this is number {ours.number}")
        if other.lane != ours.lane:
            lines.append(f"the turn is of caller {ours.lane}: no other lane of the phase has a further call that makes an entry")
        if other.word != ours.word:
            word = second.canvases.said_by(played.call)["do"]
            lines.append(
                f"the next call of caller {played.caller} is {word}"
                + (", which is late" if ours.word == "late" else f", whose entry is {played.do}" if word != played.do else "")
            )
        if other.fault != ours.fault:
            lines += self.of_fault(played) if played.fault else [self.why_no_fault(played)]
        if other.answer != ours.answer:
            lines.append(self.of_answer(played))
        if other.settled != ours.settled:
            lines += self.of_settled(played)
        return lines

    def of_fault(self, played: Played) -> list[str]:
        """The rule that a call leaves unmet, if it has a fault, and where that goes."""
        if played.fault is None:
            return []
        kind, number = played.fault
        word = "late" if played.do in second.calls.RECORDING else played.do
        lines = []
        for rule in rules.of(number, word)[:1]:
            lines += [f"rule {number} is the first that is unmet; it asks of {rule.label}: {rule.asks}", rules.section(rule)]
        caught = (
            "no open error scope catches it"
            if played.catcher is None
            else f"error scope {played.catcher} is the innermost that catches {kind} errors"
        )
        return [*lines, caught]

    def why_no_fault(self, played: Played) -> str:
        return "the device is lost, so no call makes a fault" if played.on_lost else "no rule is unmet"

    def of_answer(self, played: Played) -> str:
        """What the answer of an entry says."""
        if played.made is not None:
            valid = (
                "valid, since no rule is unmet"
                if played.is_valid
                else "invalid, since " + ("the device is lost" if played.on_lost else f"rule {played.rule} is unmet")
            )
            return f"objects are numbered from 0 on: this one is number {played.made}, and {valid}"
        if played.op is not None:
            return f"it is queued: operations are numbered from 1 on, and this one is number {played.op}"
        if played.answer == "promise":
            return f"{played.do} makes a promise"
        if played.do == "complete":
            before = self.history.completed_before if played.answer == "plain" else self.history.completed()
            return f"{played.answer}, since operations were complete up to {before}, and were queued up to {self.history.issued()}"
        return "nothing is made and nothing queued" + (
            ", since a rule is unmet" if played.fault else ", since the device is lost" if played.on_lost else ""
        )

    def of_settled(self, played: Played) -> list[str]:
        """Which promises an entry settles."""
        if not played.settled:
            return ["it settles no promise"]
        found = [
            f"it settles the promise of entry {promise.entry}, of the call at {self.where(promise)}: {how}"
            for promise, how in played.settled[:5]
        ]
        return found + ([f"and {len(played.settled) - 5} more"] if played.settled[5:] else [])

    def why_free(self, thing: Played, by: Played) -> list[str]:
        """Why something is given back, and when."""
        how = "was destroyed" if self.history.is_destroyed(thing) else "is held by nothing any longer"
        last = self.history.last_use(thing)
        used = f"its last operation, {last}, is complete" if last else "no operation uses it"
        return [f"entry {by.entry}, of the call at {self.where(by)}, gives back what entry {thing.entry} made: it {how}, and {used}"]

    def why_trace(self, theirs: str | None, line: str, item: tuple[Any, ...]) -> list[str]:
        """Why a line of the trace is as the second reading has it."""
        if item[0] == "free":
            return self.why_free(*item[1:])
        step = item[1]
        kind, number = step.at.split(" ")
        by = (
            self.history.entries()[int(number)]
            if kind == "host"
            else next(played for played in self.history.entries() if played.op == int(number))
        )
        what = "the clear of fresh memory" if step.name == "clear" else step.name
        word = line.split(" ")[0]
        lines = [f"the line is of {what}, of entry {by.entry}, of the call at {self.where(by)}"]
        if word == "bar":
            before, after = line.split(" ")[-2:]
            was = "never used before, and is of a texture" if before == "none" else f"last used as {before}"
            lines.append(f"a barrier stands before it: the part was {was}, and is used as {after} now")
        elif (theirs or "").startswith("bar "):
            lines.append(
                "no further barrier stands before it: a first use of a buffer or query set has none, nor has what is used as before and"
                " only read"
            )
        return lines

    def where(self, played: Played) -> str:
        """The place and the text of a call in the script."""
        if self.calls is None:
            self.calls = scripts.read(places.Text(self.data, self.script.name))
        assert self.calls is not None
        phase, lane, number = self.script.place(played)
        call = self.calls.lanes[phase, lane][number]
        return f"{self.calls.where(call)}: {self.calls.said(call)}"


def verify(script: tuple[bytes, str], report: tuple[bytes, str]) -> tuple[str, int]:
    """What there is to say of a report beside a script, each given by its bytes and its name, and the status."""
    verified = Verified(second.Played(*script), script[0], report[0])
    try:
        verified.test()
    except Wrong as wrong:
        return "\n".join(told(verified, wrong, report[1])) + "\n", exit_status.DIFFERENT
    if verified.known is None:
        return f"{report[1]}: the script is refused so\n", exit_status.SAME
    return f"{report[1]}: a report of the script: {summary(Report(report[0].decode()))}\n", exit_status.SAME


def told(verified: Verified, wrong: Wrong, name: str) -> Iterator[str]:
    """A wrong line in words: where it is, what it is, what is right, and why."""
    line = verified.line()
    yield f"{name}:{wrong.number + 1}: no report of the script, and this is its first line that is wrong"
    if line is None:
        line = verified.lines[-1] + " (with no end of the line)" if verified.lines[-1] else "the end of the report"
    yield f"    is:       {cut(line)}"
    if wrong.right is not None:
        yield f"    is to be: {cut(wrong.right)}"
    yield from (f"    {each}" for each in wrong.why)
    if verified.known is not None and verified.known.entries():
        yield f"    ({count(len(verified.history.entries()), 'entry')} of the script played so far, by the callers that the report names)"


def cut(line: str) -> str:
    return line if len(line) <= LONGEST else f"{line[:LONGEST]}.. ({len(line)} letters)"
