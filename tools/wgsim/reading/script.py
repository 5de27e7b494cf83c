"""A script as its writer sees it: each call with its place, its text and its names, and what is recorded on each encoder, be it one of a
bundle."""

from __future__ import annotations

import json
from typing import TYPE_CHECKING, Any

from wgsim.reading import calls, frames

if TYPE_CHECKING:
    from wgsim.reading.places import Text, Value

# The calls that set something of a pass by which it dispatches or draws, with the key that says where, if several stand side by side; and
# the key of each that may be null, so that the call unsets what is set.
SETS = {"setPipeline": None, "setBindGroup": "index", "setVertexBuffer": "slot", "setIndexBuffer": None}
UNSETS = {"setBindGroup": "group", "setVertexBuffer": "buffer"}


class Call:
    """A call of a script. `place` is its phase, lane and number in the lane, `locked_by` the pass that is open on the encoder on which it
    records, `frame` the frame of a canvas that it begins, names or ends."""

    def __init__(self, value: Value, place: tuple[int, int, int]) -> None:
        self.value = value
        self.place = place
        self.word = string_of(value, "do") or "?"
        self.gives = string_of(value, "as")
        self.is_late = False
        self.locked_by: Place | None = None
        self.frame: frames.Frame | None = None

    @property
    def event(self) -> str | None:
        """The word of the entry that the call makes, or None where it makes none."""
        if calls.canvas(self.word) is not None:
            return self.frame.event_of(self) if self.frame is not None else None
        return "late" if self.is_late else None if calls.records(self.word) else self.word

    @property
    def label(self) -> str:
        """The label as it stands behind a name: a string of JSON in printable ASCII, after a space. Nothing where it is left out or
        empty."""
        label = string_of(self.value, "label")
        return f" {json.dumps(label)}" if label else ""

    def names(self) -> list[tuple[str, Value]]:
        """The names that the call uses, in the order of its table's keys: pairs of key and name."""
        return [(key, value) for key, value, _ in self.wanted_names()]

    def wanted_names(self) -> list[tuple[str, Value, list[str]]]:
        """The same, each with the kinds of object that it may stand for."""
        return names_in(self.value, calls.keys_of(self.word) or {})

    def number(self, key: str, otherwise: Any = None) -> Any:
        value = self.value.member(key)
        return int(value.what) if value is not None and value.kind == "number" and value.what.isdigit() else otherwise

    def sets(self) -> bool:
        """Whether the call sets something by which its pass or bundle dispatches or draws."""
        value = self.value.member(UNSETS[self.word]) if self.word in UNSETS else None
        return self.word in SETS and (value is None or value.kind != "null")

    def is_empty(self) -> bool:
        """Whether the call names a size that has nothing in it, or no query, as far as its text tells."""
        size = self.value.member("size") or self.value.member("count")
        if size is None:
            return False
        if size.kind == "list":
            return any(item.what == "0" for item in size.what)
        return size.what == "0"


def names_in(value: Value, keys: dict[str, calls.Key]) -> list[tuple[str, Value, list[str]]]:
    """The names that a call or an object in it uses, in the order of its table's keys: each with its key and the kinds that will do."""
    found = []
    for key, wanted in keys.items():
        member = value.member(key)
        if member is None:
            continue
        if wanted.is_name(member):
            found.append((key, member, wanted.kinds()))
        if wanted.sort == "names" and member.kind == "list":
            found += [(key, item, wanted.kinds()) for item in member.what if item.kind == "string"]
        if wanted.sort in ("object", "objects"):
            items = [
                item
                for item in ([member] if wanted.sort == "object" else member.what if member.kind == "list" else [])
                if item.kind == "object"
            ]
            found += [name for item in items for name in names_in(item, calls.keys_of_object(wanted.detail, item))]
    return found


def string_of(value: Value, key: str) -> str | None:
    if value.kind != "object":
        return None
    member = value.member(key)
    return member.what if member is not None and member.kind == "string" else None


class Place:
    """An encoder, a bundle encoder or a pass, on which calls record, with the calls that ended it. A pass has the encoder that it was begun
    on."""

    def __init__(self, call: Call, encoder: Place | None = None) -> None:
        self.call = call
        self.encoder = encoder
        self.name = call.gives
        self.has_ended = False
        self.finish: Call | None = None
        self.end: Call | None = None
        self.open_pass: Place | None = None
        self.commands: list[Call] = []


class Script:
    """A script's calls, in the order of its text."""

    def __init__(self, text: Text, top: Value) -> None:
        self.text = text
        self.top = top
        self.lanes: dict[tuple[int, int], list[Call]] = {}
        self.made: dict[str | None, Call] = {}
        self.phases: list[Value] = top.needed("phases").what
        for phase, lanes in enumerate(self.phases):
            for lane, values in enumerate(lanes.what):
                self.lanes[phase, lane] = [Call(value, (phase, lane, n)) for n, value in enumerate(values.what)]
        self.calls = [call for lane in self.lanes.values() for call in lane]
        for call in self.calls:
            if call.gives is not None:
                self.made.setdefault(call.gives, call)
        self.places: dict[str | None, Place] = {}
        self.canvases = frames.Canvases()
        for call in self.calls:
            self.record(call)

    def record(self, call: Call) -> None:
        """Notes what a call does to the encoders, bundle encoders, passes and canvases, as far as the order of the calls alone decides
        it."""
        on = string_of(call.value, "on")
        place = self.places.get(on)
        if calls.makes_encoder(call.word):
            self.places[call.gives] = Place(call)
        elif place is not None and calls.ends_encoder(call.word):
            place.finish = place.finish or call
            place.has_ended = True
        elif place is not None and calls.records(call.word):
            self.command(call, place)
        elif calls.canvas(call.word) is not None:
            self.canvases.take(call, string_of(call.value, "canvas"))

    def command(self, call: Call, place: Place) -> None:
        encoder = place.encoder or place
        call.is_late = place.has_ended or encoder.has_ended
        begun = Place(call, encoder) if call.word in calls.BEGINS else None
        if begun:
            self.places[call.gives] = begun
            begun.has_ended = call.is_late
        if call.is_late:
            return
        encoder.commands.append(call)
        call.locked_by = encoder.open_pass if place is encoder else None
        if begun:
            encoder.open_pass = encoder.open_pass or begun
        elif call.word == calls.END and place is encoder.open_pass:
            place.has_ended = True
            place.end = call
            encoder.open_pass = None

    def set_at(self, call: Call) -> list[Call]:
        """What is set of a pass or a bundle where a call records on it: the last setPipeline, the last setBindGroup of each index and
        setVertexBuffer of each slot, least indexes and slots first, and the last setIndexBuffer. One with null unsets what is set there,
        and bundles that are executed unset all of it."""
        found = {}
        for command in self.before(call):
            if command.word in SETS:
                at = SETS[command.word]
                where = list(SETS).index(command.word), command.number(at, 0) if at else 0
                found.pop(where, None)
                found.update({where: command} if command.sets() else {})
            elif calls.executes(command.word):
                found = {}
        return [found[at] for at in sorted(found)]

    def recorded_in(self, call: Call) -> list[Call]:
        """The commands of what a call makes, where it is a finish of an encoder, or of a bundle encoder; else none."""
        place = self.places.get(string_of(call.value, "on")) if calls.ends_encoder(call.word) else None
        return place.commands if place is not None else []

    def drawn_on(self, call: Call) -> Call | None:
        """The call that made what a call draws on: the begin of a render pass, or the making of a bundle encoder; or None where it is on
        neither."""
        place = self.places.get(string_of(call.value, "on"))
        return place.call if place is not None and calls.makes(place.call.word) in ("render pass", "bundle encoder") else None

    def set_before(self, call: Call) -> list[Call]:
        """What a call's pass or bundle has set or executed before it, overwritten or not, in order."""
        return [command for command in self.before(call) if command.sets() or calls.executes(command.word)]

    def before(self, call: Call) -> list[Call]:
        """The commands of the pass or bundle of a call that come before it."""
        place = self.places[string_of(call.value, "on")]
        commands = (place.encoder or place).commands
        before = commands[: commands.index(call)] if call in commands else commands
        return [command for command in before if string_of(command.value, "on") == place.name]

    def maker_of(self, name: str | None) -> Call | None:
        """The call that made what a name stands for, or None: of each name of a frame of a canvas the first currentTexture of it."""
        call = self.made.get(name)
        return call.frame.calls[0] if call is not None and call.frame is not None else call

    def labeled(self, name: str | None) -> str:
        """A name, and behind it the label of the call that gave it, where that has one."""
        call = self.made.get(name)
        return f"{name}{call.label if call is not None else ''}"

    def where(self, call: Call) -> str:
        return self.text.where(call.value.start)

    def at(self, call: Call) -> str:
        """The line and column of a call."""
        return "{}:{}".format(*self.text.place(call.value.start))

    def line(self, call: Call) -> int:
        return self.text.place(call.value.start)[0]

    def said(self, call: Call, most: int = 160) -> str:
        """The text of a call in one line."""
        return shown(self.text.of(call.value), most)


def shown(text: str, most: int = 160) -> str:
    """A text in one line, cut off where it is long."""
    line = " ".join(text.split())
    return line if len(line) <= most else line[: most - 2] + ".."


def read(text: Text) -> Script | None:
    """The script of a text that the program has played, or None where the text has no such form."""
    top = text.read()
    phases = top.member("phases") if top.kind == "object" else None
    if phases is None or phases.kind != "list":
        return None
    for lanes in phases.what:
        if lanes.kind != "list" or any(lane.kind != "list" for lane in lanes.what):
            return None
    return Script(text, top)
