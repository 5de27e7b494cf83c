"""Error scopes, promises, mapped buffers and the loss of a device: which entries of a report belong together, and what that says."""

from __future__ import annotations

from typing import TYPE_CHECKING, Any

from wgsim.matching.maps import Maps
from wgsim.reading.report import count

if TYPE_CHECKING:
    from wgsim.matching.beside import Beside
    from wgsim.reading.report import Entry


class Scope:
    """An error scope: its place on the stack, the entry that opened it, the entries of its first error and of its end."""

    def __init__(self, place: int, opened: Entry) -> None:
        self.place = place
        self.opened = opened
        self.first: Entry | None = None
        self.closed: Entry | None = None


class Scopes:
    """What the entries of a report say of error scopes, promises and loss, and how to say it."""

    def __init__(self, beside: Beside) -> None:
        self.beside = beside
        self.lost: Entry | None = None
        self.opened = {}
        self.closed = {}
        self.caught = {}
        self.passed = {}
        self.issued = {}
        self.settler = {}
        self.maps = Maps(beside)
        stack, operation = [], 0
        for entry in beside.report.entries:
            self.take(entry, stack)
            operation = entry.operation() or operation
            self.issued[entry.number] = operation

    def take(self, entry: Entry, stack: list[Scope]) -> None:
        """Notes an entry; `stack` has the scopes that are open before it, and then those after it."""
        if entry.fault:
            words = entry.fault[2].split(" ")
            self.passed[entry.number] = len(stack)
            if words[0] == "scope" and int(words[1]) < len(stack):
                scope = self.caught[entry.number] = stack[int(words[1])]
                scope.first = scope.first or entry
        for promise, _ in entry.settled:
            self.settler[promise] = entry
        if entry.word == "pushErrorScope":
            stack.append(Scope(len(stack), entry))
            self.opened[entry.number] = stack[-1]
        elif entry.word == "popErrorScope" and not self.lost and stack:
            scope = self.closed[entry.number] = stack.pop()
            scope.closed = entry
        elif entry.word == "lose":
            self.lost = self.lost or entry

    def is_lost_before(self, entry: Entry) -> bool:
        return self.lost is not None and self.lost.number < entry.number

    def at(self, entry: Entry) -> str:
        """Where the call of an entry stands: its file, line and column, or else the entry."""
        call = self.beside.call_of.get(entry.number)
        return self.beside.script.where(call) if call else f"entry {entry.number}"

    def numbered(self, entry: Entry) -> str:
        """An entry with the line and column of its call."""
        call = self.beside.call_of.get(entry.number)
        return f"entry {entry.number}" + (" at {}:{}".format(*self.beside.script.text.place(call.value.start)) if call else "")

    def errors_of(self, scope: Scope) -> str:
        """Which errors a scope catches, as its call says."""
        call = self.beside.call_of.get(scope.opened.number)
        word = call.value.member("filter") if call else None
        return f"{word.what} errors" if word is not None else "errors of its filter"

    def of_fault(self, entry: Entry) -> list[str]:
        """Lines on the scope that caught an entry's fault, or on those that did not."""
        scope = self.caught.get(entry.number)
        if scope is None:
            open_scopes = self.passed.get(entry.number)
            kind = entry.own_fault().kind
            return [f"of {count(open_scopes, 'open error scope')} none catches {kind} errors"] if open_scopes else []
        lines = [f"error scope {scope.place} was opened for {self.errors_of(scope)} at {self.at(scope.opened)}"]
        if scope.first is not entry:
            return [*lines, f"it received an error before, that of entry {scope.first.number}, and keeps that one alone"]
        if scope.closed is None:
            return [*lines, "it keeps this error, and no popErrorScope tells it"]
        return [*lines, f"it keeps this error, and the popErrorScope at {self.at(scope.closed)} tells it"]

    def answer(self, entry: Entry) -> str | None:
        """The answer of an entry that these say more of than its own words do, or None."""
        if entry.word == "pushErrorScope":
            scope = self.opened[entry.number]
            return f"opens error scope {scope.place}, for {self.errors_of(scope)}"
        if entry.word == "popErrorScope":
            scope = self.closed.get(entry.number)
            return f"closes error scope {scope.place}, opened by {self.numbered(scope.opened)}" if scope else "closes no error scope"
        if entry.word == "workDone":
            return self.work(entry)
        if entry.word == "mapAsync":
            return self.map(entry)
        if entry.word == "unmap":
            return self.maps.unmapped(entry)
        if entry.word == "lose":
            return (
                "the device is lost from here on"
                if self.lost is None or entry is self.lost
                else f"done: the device is lost already, since {self.numbered(self.lost)}"
            )
        return self.on_lost(entry) if self.is_lost_before(entry) else None

    def work(self, entry: Entry) -> str:
        """What a promise of workDone waits for."""
        if self.settler.get(entry.number) is entry:
            return "a promise that has nothing to wait for"
        return f"a promise that waits for the operations up to {self.issued[entry.number]}: {self.settled_by(entry)}"

    def map(self, entry: Entry) -> str:
        """What a promise of mapAsync waits for."""
        if self.settler.get(entry.number) is entry:
            return "a promise that is refused" if entry.fault else "a promise"
        return f"{self.maps.waits(entry)}: {self.settled_by(entry)}"

    def settled_by(self, entry: Entry) -> str:
        """Which later entry settles the promise of an entry."""
        by = self.settler.get(entry.number)
        return f"{self.numbered(by)} settles it" if by else "nothing settles it before the script ends"

    def on_lost(self, entry: Entry) -> str | None:
        """The answer of an entry that a lost device gives otherwise than another does, or None."""
        if entry.word in ("submit", "writeBuffer", "writeTexture"):
            return "does nothing: the device is lost"
        if entry.word == "late":
            return "late: what it is recorded on has ended; no fault, since the device is lost"
        return None

    def settled(self, entry: Entry, promise: int, how: str) -> str:
        """How an entry settles a promise."""
        if promise != entry.number:
            asked = self.beside.report.entries[promise]
            why = self.maps.why(asked, how, entry) if asked.word == "mapAsync" else self.why_done(entry)
            return f"settles the promise of {self.numbered(asked)}: {how}{why}"
        return f"settles its promise at once: {how}{self.why(entry, how)}"

    def why_done(self, entry: Entry) -> str:
        return ", since the device is lost" if entry is self.lost else ""

    def why(self, entry: Entry, how: str) -> str:
        """Why a promise is settled so by the entry that made it."""
        if entry.word == "mapAsync":
            return self.maps.why(entry, how, entry)
        if entry.word not in ("workDone", "popErrorScope"):
            return ""
        if self.is_lost_before(entry):
            return ", since the device is lost"
        if entry.word == "workDone":
            issued = self.issued[entry.number]
            return f": the operations up to {issued} are complete" if issued else ": no operation was queued"
        scope = self.closed.get(entry.number)
        if scope is None:
            return ": no error scope is open"
        return f", the first error that it received, of {self.numbered(scope.first)}" if scope.first else ": it received no error"

    def loss(self) -> list[Any]:
        """Lines on the loss of the device, if it was lost."""
        if self.lost is None:
            return []
        return [
            "",
            f"LOST at entry {self.lost.number}: {self.at(self.lost)}",
            "    the device is lost from here on: no later call makes a fault, what it makes is invalid, and a submit or",
            "    write does nothing; unmap, destroy, drop and complete work as before",
        ]
