"""Sets a report beside its script: which call made each entry, each object and each step, and by which name."""

from __future__ import annotations

import collections
from typing import TYPE_CHECKING

from wgsim.reading import calls
from wgsim.reading import report as reports

if TYPE_CHECKING:
    from wgsim.reading.frames import Frame
    from wgsim.reading.report import Entry, Part, Report, Step
    from wgsim.reading.script import Call, Script


class DoNotMatch(Exception):
    """The report is not of this script."""


class Beside:
    """A report with the script that it is of, or with none: `known` is that or None."""

    def __init__(self, report: Report, script: Script | None = None) -> None:
        self.report = report
        self.known = script
        self.call_of: dict[int, Call] = {}
        self.entry_of: dict[Call | None, Entry] = {}
        self.turns: list[Call] = []
        self.names: dict[int, str] = {}
        self.makers: dict[int, Entry] = {}
        self.operations: dict[int, Entry] = {}
        self.promises = {entry.number: n for n, entry in enumerate(each for each in report.entries if each.answer == ["promise"])}
        self.command_of: dict[int, Call] = {}
        if script is not None:
            self.match_entries()
        for entry in report.entries:
            number, operation = entry.object(), entry.operation()
            if number is not None:
                self.makers[number] = entry
            if operation is not None:
                self.operations[operation] = entry
        if script is not None:
            self.match_steps()

    @property
    def script(self) -> Script:
        """The script, of a report that has one."""
        assert self.known is not None
        return self.known

    def match_entries(self) -> None:
        """Goes through the entries and the lanes of each phase side by side: each entry is of the next call of its lane that makes one.

        `turns` gets the calls in the order in which the device took them, recording calls right before the next entry of their lane."""
        phases = sorted({phase for phase, _ in self.script.lanes})
        waiting = {phase: {lane: self.events(phase, lane) for p, lane in self.script.lanes if p == phase} for phase in phases}
        taken = dict.fromkeys(self.script.lanes, 0)
        for entry in self.report.entries:
            while phases and not any(waiting[phases[0]].values()):
                self.turns += self.names_at_the_end(phases.pop(0))
            lane = waiting[phases[0]].get(entry.lane) if phases else None
            if not lane:
                raise DoNotMatch(f"entry {entry.number} is of lane {entry.lane}, where the script has no further call")
            call = lane.popleft()
            if entry.word != call.event:
                raise DoNotMatch(f"entry {entry.number} is of {entry.word}, and the call at {self.script.where(call)} is {call.word}")
            self.call_of[entry.number] = call
            self.entry_of[call] = entry
            own, behind = call.place[:2], call.place[2] + 1
            self.turns += self.script.lanes[own][taken[own] : behind]
            taken[own] = behind
            number = entry.object()
            if number is not None and call.gives is not None:
                self.names[number] = call.gives
        left = [call for lanes in waiting.values() for lane in lanes.values() for call in lane]
        if left:
            raise DoNotMatch(f"the report has no entry for the call at {self.script.where(left[0])}")

    def events(self, phase: int, lane: int) -> collections.deque[Call]:
        """The calls of a lane that make an entry."""
        return collections.deque(call for call in self.script.lanes[phase, lane] if call.event is not None)

    def names_at_the_end(self, phase: int) -> list[Call]:
        """The calls of canvases behind the last entry of each lane of a phase: they make none, and what they name may be used in later
        phases."""
        lanes = [lane for (of, _), lane in self.script.lanes.items() if of == phase]
        return [call for lane in lanes for call in lane[after_entry(lane) :] if calls.canvas(call.word) is not None]

    def match_steps(self) -> None:
        """Finds the call that each step comes from. Where the counts do not fit, none is named for that operation."""
        by_operation: dict[int, list[Step]] = {}
        for step in self.report.steps():
            if not step.is_host and step.name != "clear":
                by_operation.setdefault(step.at, []).append(step)
            elif step.is_host and step.name != "clear":
                self.match_host(step)
        for operation, steps in by_operation.items():
            made = self.calls_of(operation)
            if [calls.step_of(call.word) for call in made] == [step.name for step in steps]:
                self.command_of.update({step.number: call for step, call in zip(steps, made)})

    def match_host(self, step: Step) -> None:
        """Finds the call of a host access: the unmap at its entry, or the mapAsync whose promise is settled there."""
        entry = self.report.entries[step.at] if step.at < len(self.report.entries) else None
        asked = [self.call_of.get(promise) for promise, how in entry.settled if how == "mapped"] if entry else []
        for call in [self.call_of.get(step.at), *asked]:
            if call is not None and calls.step_of(call.word) == step.name:
                maker = self.object_of(call.value.needed("buffer").what)
                if maker is not None and any(part.object == maker.object() for _, part in step.accesses):
                    self.command_of[step.number] = call

    def calls_of(self, operation: int) -> list[Call]:
        """The calls that make the steps of an operation, in their order."""
        entry = self.operations.get(operation)
        call = self.call_of.get(entry.number) if entry else None
        if call is None:
            return []
        made = [call]
        for _, name in call.names():
            finish = self.script.made.get(name.what)
            made += self.script.recorded_in(finish) if finish is not None else []
        return [each for each in made if calls.step_of(each.word) and not each.is_empty()]

    def named(self, sort: str, number: int) -> str:
        """An object by its name in the script, or else by its kind and number."""
        return self.names.get(number) or f"{reports.SORTS.get(sort, sort)} {number}"

    def label_of(self, number: int) -> str:
        """The label of the call that made an object, as it stands behind a name."""
        entry = self.makers.get(number)
        call = self.call_of.get(entry.number) if entry is not None else None
        return call.label if call is not None else ""

    def object_of(self, name: str | None) -> Entry | None:
        """The entry that made the object that a name stands for, or None."""
        return self.entry_of.get(self.script.maker_of(name))

    def frame_of(self, number: int) -> Frame | None:
        """The frame of a canvas whose texture an object is, or None."""
        entry = self.makers.get(number)
        call = self.call_of.get(entry.number) if entry is not None else None
        return call.frame if call is not None else None

    def part(self, part: Part) -> str:
        """A part or some cells in words."""
        name = self.named(part.sort, part.object)
        if part.aspect is not None:
            piece = "slice" if part.sort == "s" else "layer"
            return f"{name} {part.aspect} mip {part.mip} {piece}{span(part)}"
        if not part.is_whole:
            piece = "query" if part.sort == "q" else "byte"
            many = "queries" if part.sort == "q" else "bytes"
            return f"{name} {piece if part.high - part.low == 1 else many} {ends(part)}"
        return name


def after_entry(lane: list[Call]) -> int:
    """The place in the calls of a lane behind the last one that makes an entry."""
    return next((number + 1 for number in reversed(range(len(lane))) if lane[number].event is not None), 0)


def span(part: Part) -> str:
    return f" {part.low}" if part.high - part.low == 1 else f"s {ends(part)}"


def ends(part: Part) -> str:
    """The first and the last of a run, as a reader counts them."""
    return f"{part.low}" if part.high - part.low == 1 else f"{part.low} to {part.high - 1}"
