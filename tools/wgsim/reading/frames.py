"""The canvases of a script: which entry each of their calls makes, if any, and which frame of its canvas a texture is.

A frame begins with a currentTexture that finds no texture, and ends with the next present or configureCanvas of its canvas. It has the
names that the currentTextures between the two gave. """

from __future__ import annotations

from typing import TYPE_CHECKING

from wgsim.reading import bits, calls

if TYPE_CHECKING:
    from wgsim.matching.beside import Beside
    from wgsim.reading.script import Call, Script

MAKES, CONFIGURES, GIVES = "makes", "configures", "gives"


class Canvas:
    """A canvas of a script: the call that made it, the one that configured it last, its frames, and the one that is current, or None."""

    def __init__(self, call: Call) -> None:
        self.name = call.gives
        self.call = call
        self.calls = [call]
        self.configured: Call | None = None
        self.frames: list[Frame] = []
        self.current: Frame | None = None


class Frame:
    """A frame: its number among those of its canvas, from 1; the call that said the format and usage of its texture; those that named it,
    of which the first made it; and the one that ended it, if one did."""

    def __init__(self, canvas: Canvas) -> None:
        self.canvas = canvas
        self.number = len(canvas.frames) + 1
        self.configured = canvas.configured
        self.calls: list[Call] = []
        self.ended: Call | None = None

    def names(self) -> list[str]:
        return [call.gives for call in self.calls if call.gives is not None]

    def event_of(self, call: Call) -> str | None:
        """The word of the entry that a call of it makes, or None."""
        return "createTexture" if call is self.calls[0] else "destroy" if call is self.ended else None

    def said(self) -> str:
        return f"frame {self.number} of {self.canvas.name}"


class Canvases:
    """The canvases of a script, by name, as the calls that come one after another leave them."""

    def __init__(self) -> None:
        self.of_name = {}

    def take(self, call: Call, name: str | None) -> None:
        """Notes a call of a canvas, which has the name under its key `canvas`, or makes it; and gives the call its frame, if it has to do
        with one."""
        does = calls.canvas(call.word)
        if does == MAKES:
            self.of_name.setdefault(call.gives, Canvas(call))
            return
        canvas = self.of_name.get(name)
        if canvas is None:
            return
        canvas.calls.append(call)
        if does == GIVES:
            self.give(canvas, call)
            return
        call.frame, canvas.current = canvas.current, None
        if call.frame is not None:
            call.frame.ended = call
        if does == CONFIGURES:
            canvas.configured = call

    def give(self, canvas: Canvas, call: Call) -> None:
        if canvas.current is None:
            canvas.current = Frame(canvas)
            canvas.frames.append(canvas.current)
        call.frame = canvas.current
        call.frame.calls.append(call)

    def with_frames(self) -> list[Canvas]:
        return [canvas for canvas in self.of_name.values() if canvas.frames]


def extent(canvas: Canvas) -> str:
    return f"{canvas.call.number('width')} by {canvas.call.number('height')}"


def texture(script: Script, frame: Frame) -> str:
    """Of what the texture of a frame is made: what its canvas and the configure say."""
    assert frame.configured is not None
    format, usage = frame.configured.value.needed("format").what, frame.configured.number("usage", 16)
    made, configured = script.at(frame.canvas.call), script.at(frame.configured)
    return (
        f"the texture of {frame.canvas.name}: {extent(frame.canvas)} (made at {made}), of {format} with usage"
        f" {bits.said(usage, bits.TEXTURE)} (configured at {configured})"
    )


def of_fault(script: Script, call: Call) -> list[str]:
    """A line on what a currentTexture makes, which its own text does not say."""
    return [texture(script, call.frame)] if call.frame is not None and call.event == "createTexture" else []


def listed(beside: Beside) -> list[tuple[str, list[str]]]:
    """Each canvas that has frames, as a line, with a line for each of them."""
    return [
        (f"{canvas.name}, {extent(canvas)}, made at {beside.script.at(canvas.call)}", [line(beside, frame) for frame in canvas.frames])
        for canvas in beside.script.canvases.with_frames()
    ]


def line(beside: Beside, frame: Frame) -> str:
    """A frame in a line: its texture by its names and number, and from where up to where it is current."""
    first, *others = frame.calls
    entry, script = beside.entry_of[first], beside.script
    also = f" (also {', '.join(frame.names()[1:])})" if others else ""
    until = f"up to the {frame.ended.word} at {script.at(frame.ended)}" if frame.ended else "to the end of its phase"
    return f"frame {frame.number}: {first.gives}{also}, object {entry.object()}, {entry.answer[2]}, from {script.at(first)} {until}"
