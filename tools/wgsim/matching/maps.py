"""Mapped buffers: how each stands as the entries of a report go on, and what that says of their calls."""

from __future__ import annotations

from typing import TYPE_CHECKING, Iterable

from wgsim.reading import script as scripts

if TYPE_CHECKING:
    from wgsim.matching.beside import Beside
    from wgsim.reading.places import Value
    from wgsim.reading.report import Entry
    from wgsim.reading.script import Call

MODES = {1: "reading", 2: "writing"}
# The rules that ask how a buffer is mapped.
BUSY = (192, 203, 225)


class Standing:
    """How a buffer stands that is not unmapped: the entry that asked for the map, and whether it still waits."""

    def __init__(self, asked: Entry, mode: str | None, is_pending: bool) -> None:
        self.asked = asked
        self.mode = mode
        self.is_pending = is_pending


class Maps:
    """What the entries of a report say of mapped buffers, where a script lies beside it."""

    def __init__(self, beside: Beside) -> None:
        self.beside = beside
        self.ended = {}
        self.busy = {}
        self.asked = {}
        self.dropped = set()
        self.of_dropped = set()
        standing = {}
        for entry in beside.report.entries:
            self.take(entry, standing)

    def take(self, entry: Entry, standing: dict[int | None, Standing]) -> None:
        """Notes an entry; `standing` has how buffers stand before it by their numbers, and then after it."""
        call = self.beside.call_of.get(entry.number)
        if call is None:
            return
        if entry.fault and entry.fault[1] in BUSY:
            self.busy[entry.number] = dict(standing)
        buffer = self.buffer_of(call)
        if entry.word == "mapAsync":
            self.asked[entry.number] = call
            if not entry.fault and not entry.settled:
                standing[buffer] = Standing(entry, MODES.get(call.number("mode")), True)
        for promise, how in entry.settled:
            self.settle(self.beside.report.entries[promise], how, standing, entry)
        if entry.word == "drop":
            self.dropped.add(buffer)
        if entry.word in ("unmap", "destroy"):
            if buffer in self.dropped:
                self.of_dropped.add(entry.number)
            self.ended[entry.number] = standing.pop(buffer, None) if buffer not in self.dropped else None
        if entry.word == "createBuffer" and entry.is_valid() and is_true(call.value.member("mapped")):
            standing[entry.object()] = Standing(entry, "writing", False)

    def settle(self, asked: Entry, how: str, standing: dict[int | None, Standing], by: Entry) -> None:
        call = self.asked.get(asked.number)
        if call is not None and how == "mapped":
            standing[self.buffer_of(call)] = Standing(asked, MODES.get(call.number("mode")), False)
        elif call is not None and by.word == "lose":
            standing.pop(self.buffer_of(call), None)

    def buffer_of(self, call: Call) -> int | None:
        """The number of the buffer that a call on one names, or None."""
        maker = self.beside.object_of(scripts.string_of(call.value, "buffer") or scripts.string_of(call.value, "object"))
        return maker.object() if maker is not None else None

    def name_of(self, entry: Entry) -> str | None:
        call = self.asked.get(entry.number)
        return scripts.string_of(call.value, "buffer") if call else "the buffer"

    def unmapped(self, entry: Entry) -> str | None:
        """What an unmap did, as far as the entries before it tell, or None."""
        if entry.number not in self.ended or entry.fault:
            return None
        stands = self.ended[entry.number]
        if entry.number in self.of_dropped:
            return "does nothing: the buffer was dropped"
        if stands is None:
            return "does nothing: the buffer is neither mapped nor pending"
        if stands.is_pending:
            return "gives up the map that waits"
        if stands.mode == "writing":
            return "ends the mapping for writing: what is in the range is written back"
        return "ends the mapping for reading"

    def waits(self, entry: Entry) -> str:
        """What the promise of a mapAsync waits for."""
        return f"a promise that waits until every operation that uses {self.name_of(entry)} is complete"

    def why(self, asked: Entry, how: str, by: Entry) -> str:
        """Why the promise of a mapAsync is settled so by an entry, its own or a later one; the loss itself is told elsewhere."""
        name = self.name_of(asked)
        if how == "mapped":
            mode = MODES.get(self.asked[asked.number].number("mode")) if asked.number in self.asked else None
            ready = f"no operation that uses {name} is out" if by is asked else f"every operation that uses {name} is complete"
            return f": {ready}" + (f", and it is mapped for {mode}" if mode else "")
        if how == "rejected":
            return ": a rule is unmet"
        if by.word in ("unmap", "destroy"):
            return f": {name} was {'unmapped' if by.word == 'unmap' else 'destroyed'} while it waited"
        return ", since the device is lost"

    def of_fault(self, entry: Entry, names: Iterable[str]) -> list[str]:
        """Lines on the buffers among some names that are pending or mapped where an entry has a fault."""
        lines = []
        for name in names:
            maker = self.beside.object_of(name)
            stands = self.busy.get(entry.number, {}).get(maker.object()) if maker is not None else None
            if stands is not None:
                call = self.beside.call_of[stands.asked.number]
                how = "is pending: a map of it waits" if stands.is_pending else f"is mapped for {stands.mode}"
                lines.append(f"{self.beside.script.labeled(name)} {how}, by {call.word} at {self.beside.script.where(call)}")
        return lines


def is_true(value: Value | None) -> bool:
    return value is not None and value.kind == "true"
