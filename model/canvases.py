"""Canvases: which event each of their calls is, and for which textures their names stand.

A canvas is no object of the device, so the script is played without them: a call of a canvas is played as the createTexture or the destroy
that it is, and is passed over where it is none. Only the lane that made a canvas names it, so its lane alone tells which. """

from __future__ import annotations

from typing import TYPE_CHECKING, Any, Iterator

from .rules import note

if TYPE_CHECKING:
    from model.forms import Call

CANVAS_CALLS = {"createCanvas", "configureCanvas", "currentTexture", "present"}


class Canvas:
    """A canvas: its extent, what it was last configured with, and the createTexture of its current texture, or None where it has none."""

    def __init__(self, call: Call) -> None:
        self.extent = [call["width"], call["height"], 1]
        self.setting: Call = {}
        self.current: Call | None = None

    def texture(self, call: Call) -> Call:
        """The createTexture that a currentTexture is, which finds no texture."""
        fixed = {"dim": "2d", "mips": 1, "samples": 1, "also": []}
        current = {"do": "createTexture", "size": self.extent, **self.setting, **fixed, "as": call["as"], "of": call}
        self.current = current
        return current

    def again(self, current: Call, call: Call) -> None:
        """A currentTexture that finds a texture: it is no event, and its name stands for that one too."""
        current["also"].append(call["as"])

    def destroy(self, call: Call) -> Call | None:
        """The destroy that a call is which ends the current texture, or None where there is none. What the script itself destroyed is
        current all the same, and so is what is invalid."""
        current, self.current = self.current, None
        return current and {"do": "destroy", "object": current["as"], "of": call}


def as_played(phases: list[Any]) -> list[Any]:
    """The phases of a script, each call of a canvas being the event that it is, at its place, or left out."""
    return [[list(events_in(lane)) for lane in lanes] for lanes in phases]


def events_in(lane: list[Any]) -> Iterator[tuple[Any, ...]]:
    canvases = {}
    for place, call in lane:
        event = event_of(canvases, call) if call["do"] in CANVAS_CALLS else call
        if event is not None:
            yield place, event


def event_of(canvases: dict[str, Canvas], call: Call) -> Call | None:
    """The event that a call of a canvas is after the earlier ones of its lane, or None."""
    if call["do"] == "createCanvas":
        canvases[call["as"]] = Canvas(call)
        return None
    canvas = canvases[call["canvas"]]
    note(call["do"], 0, "a texture is current", canvas.current is not None)
    if call["do"] == "currentTexture":
        if canvas.current is None:
            return canvas.texture(call)
        canvas.again(canvas.current, call)
        return None
    if call["do"] == "configureCanvas":
        canvas.setting = {"usage": call["usage"], "format": call["format"]}
    return canvas.destroy(call)


def said_by(call: Call) -> Call:
    """The call of the script that a call is which is played."""
    return call.get("of", call)


def names_of(call: Call) -> list[str]:
    """The names that stand for what a call makes: its own, and of the texture of a canvas those of each later currentTexture that found
    it."""
    return [call["as"], *call.get("also", ())]
