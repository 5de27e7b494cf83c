"""The calls that were played so far, and what is seen by looking back over them.

All looking back is over plain lists: the calls that were played, oldest first, and the objects, in the order in which they were made. What
is asked for again and again is kept beside them, and brought up to date by each call that is added, so that no call walks what came before
it. """

from __future__ import annotations

import collections
import functools
from typing import Any

from . import automatic, maps, passes, scopes
from .calls import ENCODERS, FINISHES, ONE_NAME, RESOURCES, WAITING, name_keys, names_in
from .lives import Lives


class Played:
    """A call that was played: what it says, which objects its names stand for, and how it was answered.

    Its rule is the first that it leaves unmet, also on a lost device, where that makes no fault. A command that was recorded in
    time has no entry in the history, no rule and no answer. A first finish has the commands of which it makes a command buffer or a bundle,
    be they valid or not; a later one has none.
    """

    def __init__(self, call: dict[Any, Any], uses: dict[Any, Any], caller: int) -> None:
        self.call = call
        self.caller = caller
        self.do = call["do"]
        self.uses = uses
        self.on_lost = False
        self.entry: int | None = None
        self.rule: int | None = None
        self.answer: str | None = None
        self.fault: tuple[str, int] | None = None
        self.catcher: int | None = None
        self.settled: list[tuple[Played, str]] = []
        self.made: int | None = None
        self.op: int | None = None
        self.awaited: int | None = None
        self.ended: tuple[int, int, int] | None = None
        self.commands: list[Played] = []
        self.released: list[Played] = []

    @property
    def is_met(self) -> bool:
        """The call leaves no rule unmet. Whether the device is lost is not looked at."""
        return self.rule is None

    @property
    def is_valid(self) -> bool:
        """The object that this call made is valid exactly where no rule is unmet and the device was not lost before."""
        return self.is_met and not self.on_lost

    def referred(self) -> list[Any]:
        """The objects that the call names, in the order of its keys."""
        found = []
        for value in self.uses.values():
            found += value if type(value) is list else [value]
        return found

    def named(self) -> list[Any]:
        """The objects that a command names, with their keys: all but what it stands on. A begin of a render pass names its views and its
        query set."""
        found = []
        for key, value in self.uses.items():
            if key != "on":
                found += [(key, thing) for thing in (value if type(value) is list else [value])]
        return found

    @functools.cached_property
    def layouts(self) -> Any:
        """The entries of each bind group layout that a valid pipeline has, by group."""
        return automatic.layouts_of(self)

    @functools.cached_property
    def entries(self) -> Any:
        """The entries of a valid bind group layout."""
        return automatic.entries_of(self)

    @functools.cached_property
    def owner(self) -> Played | None:
        """The pipeline that a bind group layout is exclusive to, or None."""
        return automatic.owner_of(self)

    @functools.cached_property
    def names(self) -> list[Any]:
        """The objects that the commands of a finish name themselves, each once."""
        return list(dict.fromkeys(thing for command in self.commands for _, thing in command.named()))

    @functools.cached_property
    def resources(self) -> list[Played]:
        """The buffers, textures and query sets that they name, themselves or through others, each once."""
        return list(dict.fromkeys(found for thing in self.names for found in resources_in(thing)))

    @functools.cached_property
    def draws(self) -> int:
        """How many draws the commands of a bundle are."""
        return sum(passes.draws_of(command) for command in self.commands)

    @functools.cached_property
    def touches(self) -> list[Any]:
        """What a bundle touches in each pass that executes it, each once."""
        return list(dict.fromkeys(passes.touches_of_drawing(self.commands)))


def encoder_of(place: Played) -> Played:
    """The encoder of what a command stands on: itself, be it one of a bundle, or the one on which the pass was begun."""
    return place if place.do in ENCODERS else place.uses["on"]


def resources_in(thing: Played) -> list[Any]:
    """The buffers, textures and query sets that one names who names an object: it itself, the texture of a view, what a bind group
    binds, or what the commands of a bundle name, themselves or through these."""
    if thing.do in RESOURCES:
        return [thing]
    if thing.do == "createView":
        return [thing.uses["texture"]]
    if thing.do == "finishBundle":
        return thing.resources
    return [found for bound in thing.uses["entries"] for found in resources_in(bound)] if thing.do == "createBindGroup" else []


class Setup:
    """What a device is opened with: the bytes of its budget, and its limits by their names."""

    def __init__(self, budget: int, limits: dict[str, int]) -> None:
        self.budget = budget
        self.limits = limits


class History:
    def __init__(self, setup: Setup) -> None:
        self.budget = setup.budget
        self.limits = setup.limits
        self.objects = []
        self.names = {}
        self.with_entry = []
        self.has_loss = False
        self.recorded = collections.defaultdict(list)
        self.walks = collections.defaultdict(passes.Walk)
        self.finished = collections.defaultdict(list)
        self.destroyed = set()
        self.drops = {}
        self.consumed = set()
        self.last_op = 0
        self.last_ops = {}
        self.last_completed = 0
        self.completed_before = 0
        self.unsettled = {}
        self.waiting_for = collections.defaultdict(list)
        self.pending = {}
        self.mappings = {}
        self.scopes = scopes.Stack()
        self.lives = Lives(self)

    def add(self, played: Played) -> None:
        """Adds a call that was answered, or a command that was recorded, and notes what it changes."""
        if played.entry is None:
            encoder = encoder_of(played.uses["on"])
            self.recorded[encoder].append(played)
            self.walks[encoder].take(played)
            return
        self.with_entry.append(played)
        if played.do in FINISHES:
            self.finished[played.uses["on"]].append(played)
        if played.do == "destroy" and played.is_met:
            self.destroyed.add(played.uses["object"])
        if played.do == "drop" and played.is_met:
            self.drops.setdefault(played.uses["object"], played)
        if played.do == "submit":
            self.consumed.update(played.uses["buffers"])
        if played.do == "complete" and played.answer == "plain":
            self.completed_before, self.last_completed = self.last_completed, played.call["op"]
        if played.do == "lose":
            self.has_loss = True
        if played.op is not None:
            self.last_op = played.op
            self.last_ops.update(dict.fromkeys(self.used_by(played), played.op))
        self.follow_promises(played)
        maps.follow(self.mappings, played)
        scopes.follow(self.scopes, played)
        played.released = self.lives.follow(played)

    def follow_promises(self, played: Played) -> None:
        """Notes which promises wait after an entry, for which operations, and of which buffer."""
        if played.do in WAITING:
            self.unsettled[played] = True
            self.waiting_for[played.awaited].append(played)
            if played.do == "mapAsync" and not played.settled:
                self.pending[played.uses["buffer"]] = played
        for promise, _ in played.settled:
            self.unsettled.pop(promise, None)
            if promise.do == "mapAsync" and promise is not played:
                del self.pending[promise.uses["buffer"]]

    def uses_of(self, call: dict[Any, Any]) -> dict[Any, Any]:
        """The objects that the names of a call stand for, key by key; of an object, and of a list of names or of objects, a list. Where a
        name is left out there is none of its key."""
        uses = {}
        for key, sort in name_keys(call["do"]):
            found = [self.names[name] for name, _ in names_in(sort, call[key])]
            if sort[0] not in ONE_NAME:
                uses[key] = found
            elif found:
                uses[key] = found[0]
        return uses

    def entries(self) -> list[Any]:
        return self.with_entry

    def is_lost(self) -> bool:
        """The device is lost from its first loss on."""
        return self.has_loss

    def finishes(self, encoder: Played) -> list[Any]:
        """The finishes that named an encoder or a bundle encoder, accepted, refused or on a lost device."""
        return self.finished[encoder]

    def has_finished(self, encoder: Played) -> bool:
        return self.finishes(encoder) != []

    def has_ended(self, place: Played) -> bool:
        """An encoder or a bundle encoder has ended from its first finish on. A pass has ended where its encoder has, or by its own end, if
        it was open."""
        encoder = encoder_of(place)
        return self.has_finished(encoder) or place in self.walks[encoder].ended

    def commands_on(self, encoder: Played) -> list[Played]:
        """The commands that were recorded on an encoder and on its passes, in order; a late one was not."""
        return self.recorded[encoder]

    def commands_of(self, made: Played) -> list[Any]:
        """The commands of a command buffer or a bundle: those of its encoder if it came of the first finish, else none."""
        return made.commands

    def is_destroyed(self, thing: Played) -> bool:
        """Some destroy that met its rules named the object, be it on a lost device."""
        return thing in self.destroyed

    def drop_of(self, thing: Played) -> Any:
        """The drop that met its rules and named the object, be it on a lost device; there is one at most, or None."""
        return self.drops.get(thing)

    def is_dropped(self, thing: Played) -> bool:
        return self.drop_of(thing) is not None

    def was_dropped_before(self, thing: Played, other: Played) -> bool:
        """The object was dropped before the other one was made."""
        drop = self.drop_of(thing)
        return drop is not None and drop.entry < other.entry

    def is_consumed(self, command_buffer: Played) -> bool:
        """Some submit listed the command buffer, accepted, refused or on a lost device."""
        return command_buffer in self.consumed

    def issued(self) -> int:
        """How many operations were queued; they are numbered from 1."""
        return self.last_op

    def completed(self) -> int:
        """The number of the last completion that was not bad, or 0."""
        return self.last_completed

    def waiting(self) -> list[Any]:
        """The promises of workDones and mapAsyncs that no entry has settled, in their order."""
        return list(self.unsettled)

    def waiting_until(self, op: int) -> list[Any]:
        """Those of them that wait for an operation which is not complete and is at most the one of a number, in their order."""
        found = [promise for one in range(self.completed() + 1, op + 1) for promise in self.waiting_for[one] if promise in self.unsettled]
        return sorted(found, key=lambda promise: promise.entry)

    def pending_map(self, buffer: Played) -> Any:
        """The mapAsync of a buffer whose promise waits, of which there is one at most, or None."""
        return self.pending.get(buffer)

    def last_use(self, thing: Played) -> int:
        """The last operation that uses an object, or 0."""
        return self.last_ops.get(thing, 0)

    def used_by(self, played: Played) -> list[Played]:
        """What an operation uses: a write its target, also where its size is 0; a submit what its commands name, with the textures of the
        views that they attach, what is bound in the groups that they set, and what the bundles name that they execute. A query set is used
        also where no query of it is begun."""
        if played.do == "submit":
            return self.resources_of(played.uses["buffers"])
        return [played.uses["buffer" if played.do == "writeBuffer" else "texture"]]

    def named_by(self, command_buffers: list[Played]) -> list[Played]:
        """The objects that the commands of some command buffers name themselves."""
        return [thing for one in command_buffers for thing in one.names]

    def resources_of(self, command_buffers: list[Played]) -> list[Played]:
        """The buffers, textures and query sets that the commands of some command buffers name, themselves, through a view that they
        attach, through a bind group, or through a bundle, whether or not a step comes of it."""
        return [found for one in command_buffers for found in one.resources]

    def live_bytes(self) -> int:
        """The bytes of all that is valid and was not released."""
        return self.lives.bytes
