"""The second reading of the rules, model/, as the tool asks it: a script, read and played in a given order of turns.

It is written in Python, beside the product and not from it, and nothing of it is proved.
"""

from __future__ import annotations

from typing import TYPE_CHECKING

from wgsim import exit_status
from wgsim.program import building

from model import (  # noqa: F401
    answers,
    attachments,
    automatic,
    bound_groups,
    buffers,
    bundles,
    calls,
    canvases,
    cells,
    copies,
    draws,
    fixed_function,
    formats,
    groups,
    history,
    limits,
    maps,
    memory,
    passes,
    recording,
    report,
    rules,
    textures,
    traces,
    turns,
)

if TYPE_CHECKING:
    from model.history import History
    from model.turns import Turns

SAID = "the second reading of the rules (model/), which is not proved"


def say() -> None:
    building.say(f"this answer is from {SAID}")


class Played:
    """A script for the second reading: its phases with the place of each call, or the line that refuses it."""

    def __init__(self, data: bytes, name: str) -> None:
        rules.count(False)
        self.name = name
        self.setup, self.phases, refusal = answers.read(data)
        self.refusal = refusal[1] if refusal else None
        if refusal and refusal[0] == answers.TOO_LARGE:
            raise exit_status.End(exit_status.TOO_LARGE, f"{name}: {exit_status.SILENT[exit_status.TOO_LARGE]}")
        self.places = {id(call): place for lanes in self.phases or [] for lane in lanes for place, call in lane}

    def begin(self) -> Turns:
        return turns.Turns(self.setup, self.phases)

    def place(self, played: history.Played) -> tuple[int, int, int]:
        """The phase, the lane and the number of a call that was played."""
        return self.places[id(played.call)]

    def events(self) -> list[list[int]]:
        """Of each phase how many entries each of its lanes makes."""
        return [[len(turns.stretches_of([call for _, call in lane])[0]) for lane in lanes] for lanes in self.phases]


def next_call(played: Turns) -> dict[int, dict[str, str]]:
    """The next call of a lane that makes an entry, of those that are being played."""
    return {caller: played.lanes[caller][played.places[caller]][-1] for caller in played.open_lanes()}


def text_of(played: History) -> str:
    """The report of a history that was played."""
    return report.report(played)
