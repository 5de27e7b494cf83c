"""Asks the core about scripts of one lane: the proved program, or the second reading where there is none."""

from __future__ import annotations

import json
import random
from typing import Any, Callable, NamedTuple

from wgsim import exit_status
from wgsim.program.program import Program
from wgsim.reading.report import Entry

MOST = 2**53 - 1
# How often the program is asked anew, until each `complete` of a script says what is so.
ROUNDS = 8


class Flat:
    """A script of one lane: its calls, and the limits that it asks for."""

    def __init__(self, calls: list[dict[str, Any]], limits: dict[str, int] | None = None, budget: int = MOST) -> None:
        self.calls, self.limits, self.budget = calls, limits, budget

    def top(self) -> dict[str, Any]:
        """It as what the text of a script is made of."""
        limits = {"limits": self.limits} if self.limits is not None else {}
        return {"budget": self.budget, **limits, "phases": [[self.calls]]}

    def data(self) -> bytes:
        """Its text, with a call in each line."""
        limits = f'"limits":{json.dumps(self.limits)},' if self.limits is not None else ""
        lines = ",\n".join(json.dumps(call) for call in self.calls)
        return f'{{"budget":{self.budget},{limits}"phases":[[[\n{lines}\n]]]}}\n'.encode()


class Answered:
    """A script with what is answered to it: the entries by the numbers of their calls, and the calls with all their keys."""

    def __init__(self, flat: Flat, whole: list[dict[str, Any]], places: list[int], lines: list[str]) -> None:
        self.flat, self.whole = flat, whole
        entries = [Entry(line) for line in lines]
        if len(entries) != len(places):
            raise ValueError(f"{len(entries)} entries, and {len(places)} calls that make one")
        self.entry_of = dict(zip(places, entries))
        self.call_of = {entry.number: number for number, entry in self.entry_of.items()}
        self.settled: dict[int, str] = {}
        self.settled_at: dict[int, list[int]] = {}
        for number, entry in self.entry_of.items():
            for promise, how in entry.settled:
                self.settled[self.call_of[promise]] = how
                self.settled_at.setdefault(number, []).append(self.call_of[promise])


class Script(NamedTuple):
    """A script that was read: its calls with all their keys, and those that are played, each with its number, as what it is then."""

    flat: Flat
    whole: list[dict[str, Any]]
    events: list[tuple[int, dict[str, Any]]]
    budget: int
    limits: dict[str, int]


class Core:
    """What is asked about scripts: a program, or without one the second reading."""

    def __init__(self, program: Program | None) -> None:
        from model import rules

        self.program = program
        rules.count(False)

    def answered(self, flat: Flat) -> Answered | None:
        """What is answered to a script of which each `complete` says that all is complete that was queued by then, as it is where a page
        waits for its queue; one that has nothing to say is left out. None where the script is refused."""
        if self.program is None:
            return self.asked(flat, played)
        for _ in range(ROUNDS):
            answered = self.asked(flat, self.by_program)
            if answered is None:
                return None
            calls = with_completes(answered)
            if calls == flat.calls:
                return answered
            flat = Flat(calls, flat.limits, flat.budget)
        return None

    def confirmed(self, flat: Flat) -> Answered | None:
        """What the program answers to it, as it is."""
        return self.asked(flat, self.by_program)

    def asked(self, flat: Flat, answer: Callable[[Script], Answered | None]) -> Answered | None:
        """What one of the two answers; None where the script is refused."""
        from model import canvases, names, script

        try:
            budget, limits, phases = script.read_top(flat.top())
            names.bind(phases)
        except script.Refused:
            return None
        lane = phases[0][0]
        events = [(place[2], call) for place, call in canvases.events_in(lane)]
        return answer(Script(flat, [call for _, call in lane], events, budget, limits))

    def by_program(self, script: Script) -> Answered | None:
        """What the program answers."""
        from model import turns

        lines = self.history(script.flat.data())
        is_event = turns.events_of([call for _, call in script.events])
        places = [number for (number, _), is_one in zip(script.events, is_event) if is_one]
        return None if lines is None else Answered(script.flat, script.whole, places, lines)

    def history(self, data: bytes) -> list[str] | None:
        """The history by the program."""
        assert self.program is not None
        status, out = self.program.run(data)
        return history_of(out.decode("utf-8")) if status == exit_status.SAME else None

    def report(self, top: dict[str, Any], chance: random.Random) -> str | None:
        """A report of a script of several lanes, in some order of turns; None where the script is refused."""
        from model import answers

        data = json.dumps(top).encode()
        if self.program is None:
            status, text = answers.answer(data, chance.choice)
            return text if status == exit_status.SAME else None
        status, out = self.program.run(data)
        return out.decode("utf-8") if status == exit_status.SAME else None


def played(script: Script) -> Answered:
    """What the second reading answers. A `complete` says what is so when it comes, or is passed over."""
    from model import replies, report
    from model.history import History, Setup

    history = History(Setup(script.budget, script.limits))
    flat, whole, gone, places, lines = script.flat, script.whole, set(), [], []
    calls = list(flat.calls)
    for number, call in script.events:
        if call["do"] == "complete":
            if history.issued() == history.completed():
                gone.add(number)
                continue
            call = whole[number] = {**call, "op": history.issued()}
            calls[number] = calls[number] if calls[number]["op"] == call["op"] else {**calls[number], "op": call["op"]}
        entry = replies.answer_call(history, call, 0)
        if entry.entry is not None:
            places.append(number - len(gone))
            lines.append(report.entry_line(entry))
    if gone:
        calls, whole = ([call for number, call in enumerate(each) if number not in gone] for each in (calls, whole))
    return Answered(Flat(calls, flat.limits, flat.budget), whole, places, lines)


def with_completes(answered: Answered) -> list[dict[str, Any]]:
    """The calls with each `complete` saying that all is complete that was queued by then, and without those that have nothing to say."""
    calls, issued, complete = [], 0, 0
    for number, call in enumerate(answered.flat.calls):
        entry = answered.entry_of.get(number)
        issued = (entry.operation() or issued) if entry is not None else issued
        if call["do"] == "complete":
            if issued == complete:
                continue
            call = call if call["op"] == issued else {**call, "op": issued}
            complete = issued
        calls.append(call)
    return calls


def history_of(text: str) -> list[str]:
    """The lines of the history of a report."""
    return text[: text.index("trace\n")].splitlines()[1:]
