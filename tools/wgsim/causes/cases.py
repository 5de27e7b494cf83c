"""Plays a script by the second reading, in the order of a report, and finds the cause of each fault of it."""

from __future__ import annotations

import bisect
import functools
from typing import TYPE_CHECKING, Any, Iterable

from wgsim.matching import second

from .making import RULES, listed

if TYPE_CHECKING:
    from model.forms import Cell
    from model.history import Played
    from model.turns import Turns
    from wgsim.causes.making import Cause, Values
    from wgsim.matching.beside import Beside
    from wgsim.reading.report import Entry
    from wgsim.reading.script import Call, Script

# How a thing stands in a call, by the key of a list, and what it is called where it stands alone under a key that is no word for it.
IN_LISTS = {"entries": "bound by entry {}", "colors": "among the colors", "depth": "the view of depth"}
CALLED = {"on": "encoder", "queries": "query set", "bundles": "bundle"}
# The calls that make what has memory.
WITH_MEMORY = ("createBuffer", "createTexture", "createQuerySet")


class Case:
    """A rule that is unmet: the history up to its entry, the call of the entry, and the command that brought it where it is one of an
    encoder.

    `played` is the call that the rule is of: the command, or the call of the entry. `earlier` has the commands before it on the same
    encoder, pass or bundle encoder, `open_pass` the pass that is open where it comes, and `commands` all of the encoder that a finish
    ends."""

    def __init__(
        self, play: Play, entry: Played, played: Played | None = None, earlier: Iterable[Played] = (),
        open_pass: Played | None = None, commands: Iterable[Played] = (),
    ) -> None:
        self.play = play
        self.second = play.second
        self.history = play.turns.history
        self.entry = entry
        self.played = played or entry
        self.is_of_command = played is not None
        self.earlier = list(earlier)
        self.open_pass = open_pass
        self.commands = list(commands)
        self.call: dict[str, Any] = self.played.call
        self.uses: dict[str, Any] = self.played.uses
        self.do: str = self.played.do

    @property
    def is_of_commands(self) -> bool:
        """Whether the rule is the finish's own, on what its commands are."""
        return not self.is_of_command and bool(self.commands)

    def place(self, thing: Played) -> str:
        """The line and column of a call that was played."""
        return self.play.place(thing)

    def name(self, thing: Played) -> str:
        return f'"{thing.call["as"]}"'

    def named(self, thing: Played) -> str:
        """What a call made, with its label, if it has one, and the line and column of that call."""
        return f"{self.name(thing)}{self.play.call_of(thing).label} ({self.place(thing)})"

    def called(self, key: str) -> str:
        """What a thing is called that stands under a key."""
        return CALLED.get(key, key)

    def aspects(self, format: str) -> str:
        return listed(self.second.formats.aspects_of(format))

    def object_of(self, part: Cell) -> Played:
        return self.history.objects[part[1]]

    def part(self, part: Cell) -> str:
        """A part or a cell in words: a buffer, bytes of it, a subresource of a texture, or slices of one. No rule tells of queries by their
        cells."""
        named = self.named(self.object_of(part))
        if part[0] == "s":
            aspect, mip, low, high = part[2:]
            image = f"{named} {self.second.formats.ASPECTS[aspect]} mip {mip}"
            return f"{image} slice {low}" if high - low == 1 else f"{image} slices {low} to {high - 1}"
        if part[0] == "t":
            aspect, mip, layer = part[2:]
            return f"{named} {self.second.formats.ASPECTS[aspect]} mip {mip} layer {layer}"
        return f"{named} bytes {part[2]} to {part[3] - 1}" if len(part) > 2 else named

    def part_values(self, part: Cell) -> Values:
        values = {"object": self.object_of(part).call["as"]}
        if part[0] == "s":
            return {
                **values,
                "aspect": self.second.formats.ASPECTS[part[2]],
                "mip": part[3],
                "firstSlice": part[4],
                "lastSlice": part[5] - 1,
            }
        if part[0] == "t":
            return {**values, "aspect": self.second.formats.ASPECTS[part[2]], "mip": part[3], "layer": part[4]}
        return {**values, "firstByte": part[2], "lastByte": part[3] - 1} if len(part) > 2 else values

    @property
    def pipeline(self) -> Played:
        """The pipeline that is set where the command comes, where one is."""
        assert self.settings.pipeline is not None
        return self.settings.pipeline

    @functools.cached_property
    def settings(self) -> second.passes.Settings:
        """What is set of the pass or the bundle where the command comes."""
        found = self.second.passes.Settings()
        for command in self.earlier:
            found.take(command)
        return found

    def named_things(self) -> list[tuple[str, Played]]:
        """The objects that the call names, each with words for where it stands in it; those of a command without what it stands on."""
        found = []
        for key, value in self.uses.items():
            if key == "on" and self.is_of_command:
                continue
            if type(value) is list:
                many = IN_LISTS.get(key, f"item {{}} of {key}")
                found += [(many.format(self.place_among(key, number)), thing) for number, thing in enumerate(value)]
            else:
                found.append((f"the {self.called(key)}", value))
        return found

    def place_among(self, key: str, number: int) -> int:
        """The place in a list of the call of the item by which it names so many things before: a null counts too."""
        given = self.call[key] if type(self.call[key]) is list else []
        places = [place for place, item in enumerate(given) if item is not None]
        return places[number] if number < len(places) else number


class Play:
    """A script that is played, beside the script as the tool reads it."""

    def __init__(self, data: bytes, script: Script) -> None:
        self.second = second
        self.script = script
        self.read = second.Played(data, script.text.name)
        self.destroyed_by: dict[Played, Played] = {}
        self.submitted_by: dict[Played, Played] = {}
        self.mapped_by: dict[Played, Played] = {}
        self.live: list[tuple[int, int]] = []
        self.known = None if self.read.refusal else self.read.begin()

    @property
    def turns(self) -> Turns:
        """The turns that are taken, of a script that is not refused."""
        assert self.known is not None
        return self.known

    def call_of(self, played: Played) -> Call:
        """A call as the tool reads it."""
        phase, lane, number = self.read.place(played)
        return self.script.lanes[phase, lane][number]

    def place(self, played: Played) -> str:
        return "{}:{}".format(*self.script.text.place(self.call_of(played).value.start))

    def take(self, caller: int) -> Played | None:
        """Plays the next event of a caller; None where it has none."""
        if caller not in self.turns.open_lanes():
            return None
        self.turns.take(caller)
        played = self.turns.history.entries()[-1]
        self.note(played)
        return played

    def note(self, played: Played) -> None:
        """Notes which entry destroyed, submitted or mapped a thing, and what takes memory, the largest first: causes tell of these."""
        if played.do == "destroy" and played.is_met:
            self.destroyed_by.setdefault(played.uses["object"], played)
        for one in played.uses["buffers"] if played.do == "submit" else []:
            self.submitted_by.setdefault(one, played)
        self.mapped_by.update((promise.uses["buffer"], promise) for promise, how in played.settled if how == "mapped")
        if played.do in WITH_MEMORY and played.is_valid:
            bisect.insort(self.live, self.taken_by(played))
        for thing in played.released:
            del self.live[bisect.bisect_left(self.live, self.taken_by(thing))]

    def taken_by(self, thing: Played) -> tuple[int, int]:
        """How much memory a thing takes, below 0, and its entry: what takes most has the least such pair."""
        assert thing.entry is not None
        return -second.memory.bytes_of(thing.call), thing.entry

    def case(self, played: Played) -> Case:
        """The case of an entry that has a fault."""
        history, encoder = self.turns.history, played.uses.get("on")
        if played.do not in second.calls.FINISHES or encoder is None or not encoder.is_valid:
            return Case(self, played)
        if history.is_dropped(encoder) or history.finishes(encoder)[0] is not played:
            return Case(self, played)
        commands = history.commands_on(encoder)
        return self.blamed(played, commands) or Case(self, played, commands=commands)

    def blamed(self, finish: Played, commands: list[Played]) -> Case | None:
        """The case of the command that invalidated an encoder, or None where none did."""
        if finish.uses["on"].do == "createBundleEncoder":
            return self.blamed_among(finish, None, commands, commands)
        walk = second.passes.Walk()
        for command in commands:
            place = command.uses["on"]
            if place.do == "createEncoder":
                if second.rules.first_unmet(command.do, second.recording.command_rules(command, walk)) is not None:
                    return Case(self, finish, command, walk.on[place], walk.open_pass, commands)
            elif command.do == "end" and place is walk.open_pass:
                found = self.blamed_in_pass(finish, place, walk.on[place] + [command], commands)
                if found:
                    return found
            walk.take(command)
        return None

    def blamed_in_pass(self, finish: Played, begin: Played, inside: list[Played], commands: list[Played]) -> Case | None:
        """The same of the commands of a pass, beside its begin."""
        passes, first_unmet = second.passes, second.rules.first_unmet
        if first_unmet(begin.do, passes.begin_rules(begin, self.turns.history.limits)) is not None:
            return Case(self, finish, begin, [], None, commands)
        return self.blamed_among(finish, begin, inside, commands)

    def blamed_among(self, finish: Played, begin: Played | None, inside: list[Played], commands: list[Played]) -> Case | None:
        """The same of the commands of a pass alone, or of those of a bundle encoder, which have no begin."""
        settings = second.passes.Settings()
        for number, command in enumerate(inside):
            rules = second.passes.command_rules(command, settings, self.turns.history.limits)
            if second.rules.first_unmet(command.do, rules) is not None:
                return Case(self, finish, command, inside[:number], begin, commands)
            settings.take(command)
        return None


class Told:
    """What is told of a fault: its cause, or None with the reason why there is none; the command that invalidated the encoder, if one did;
    and the command that a fault of a finish is about, with its number among those of the encoder and how many these are, or None."""

    def __init__(
        self, cause: Cause | None = None, why_none: str | None = None, command: Call | None = None,
        about: tuple[Call, int, int] | None = None,
    ) -> None:
        self.cause = cause
        self.why_none = why_none
        self.command = command
        self.about = about


class Causes:
    """The causes of the faults of a report, by the numbers of their entries."""

    def __init__(self, told: dict[int, Told]) -> None:
        self.told = told

    def of(self, entry: Entry) -> Told:
        return self.told.get(entry.number) or Told()

    def root(self, entry: Entry) -> int | None:
        """The entry whose fault brought that of another, or None where a fault is a cause of its own."""
        number = self.step(entry.number)
        while number is not None and self.step(number) is not None:
            number = self.step(number)
        return number

    def step(self, number: int) -> int | None:
        told = self.told.get(number)
        return told.cause.follows_from if told and told.cause else None

    def follows(self, entry: Entry) -> bool:
        return self.root(entry) is not None


def of_report(data: bytes, beside: Beside) -> Causes:
    """The causes of the faults of a report that stands beside its script; none where it has no script, or no fault."""
    if beside.known is None or not any(entry.fault for entry in beside.report.entries):
        return Causes({})
    play, told = Play(data, beside.script), {}
    last = max(entry.number for entry in beside.report.entries if entry.fault)
    for entry in beside.report.entries[: last + 1] if play.known else []:
        played = play.take(entry.lane)
        if played is None:
            break
        if entry.fault:
            told[entry.number] = told_of(play, played, entry.fault[1])
    return Causes(told)


def told_of(play: Play, played: Played, rule: int) -> Told:
    """What is told of a fault with a rule, where the second reading has just played its entry."""
    if played.fault is None or played.fault[1] != rule:
        other = f"rule {played.fault[1]}" if played.fault else "no fault"
        return Told(why_none=f"no cause is told: the second reading of the rules finds {other} here")
    case = play.case(played)
    cause = RULES[rule](case) if rule in RULES else None
    about = case.played if case.is_of_command else cause.about if cause else None
    if about is None:
        return Told(cause)
    call = play.call_of(about)
    return Told(cause, None, call if case.is_of_command else None, (call, case.commands.index(about) + 1, len(case.commands)))
