"""How long objects live: what holds what was dropped, what is given back after an entry, and which bytes of the budget are taken.

What is let go once, destroyed or held no longer, stays so: no later call can make anything hold it again, or use it. So of each object
those are noted that may hold it, and are taken off once they hold it no longer; and after an entry only that is looked at which the entry
may have let go, or for which an operation is complete now. """

from __future__ import annotations

import collections
from typing import TYPE_CHECKING, Any, Iterator

from . import memory
from .calls import ENCODERS, FINISHES, RESOURCES

if TYPE_CHECKING:
    from model.history import History, Played

# The calls that make an object which refers to all that they name.
REFERRING = {"createView", "createPipelineLayout", "createBindGroup", "createComputePipeline", "createRenderPipeline", "getBindGroupLayout"}

# Those that hold nothing that takes memory: layouts and pipelines hold each other alone.
REACHING_NONE = {"createBindGroupLayout", "createPipelineLayout", "createComputePipeline", "createRenderPipeline", "getBindGroupLayout"}


class Lives:
    """The buffers, textures and query sets that are live, and what holds what, after the entries of a history so far."""

    def __init__(self, history: History) -> None:
        self.history = history
        self.kept = set()
        self.bytes = 0
        self.holders = collections.defaultdict(list)
        self.open_encoders = collections.OrderedDict()
        self.under_encoders = collections.deque()
        self.until = collections.defaultdict(list)

    def follow(self, played: Played) -> list[Played]:
        """Notes an entry that the history has, and answers with what it gives back, in the order of numbers."""
        if played.do in RESOURCES and played.is_valid:
            self.kept.add(played)
            self.bytes += memory.bytes_of(played.call)
        if played.do in ENCODERS:
            self.open_encoders[played] = True
        if played.is_valid and (played.do in REFERRING or played.do in FINISHES):
            for thing in dict.fromkeys(self.held_by(played)):
                self.holders[thing].append(played)
        released = sorted({thing for thing in self.looked_at(played) if self.is_due(thing)}, key=lambda thing: thing.made or 0)
        for thing in released:
            self.kept.remove(thing)
            self.bytes -= memory.bytes_of(thing.call)
        return released

    def held_by(self, thing: Played) -> list[Any]:
        """What an object holds while it is valid and itself held: a view its texture, a pipeline layout its bind group layouts, a bind
        group its layout and what it binds, a pipeline the layout that it names, a bind group layout the pipeline that it was got of; and a
        command buffer or a bundle what its commands name."""
        if thing.do in FINISHES:
            return thing.names
        return thing.referred() if thing.do in REFERRING else []

    def looked_at(self, played: Played) -> Iterator[Played]:
        """The buffers, textures and query sets that an entry may let go, and those whose last operation it makes complete."""
        history = self.history
        if played.do == "destroy" and played.is_met:
            yield played.uses["object"]
        if played.do == "drop" and played.is_met:
            self.under_encoders.append(played.uses["object"])
            yield from self.reached(played.uses["object"])
            yield from self.closed(played.uses["object"])
        if played.do in FINISHES:
            yield from self.closed(played.uses["on"])
        for one in played.uses["buffers"] if played.do == "submit" else []:
            yield from self.reached(one)
        if played.do == "complete" and played.answer == "plain":
            for op in range(history.completed_before + 1, history.completed() + 1):
                yield from self.until.pop(op, [])

    def closed(self, thing: Played) -> Iterator[Played]:
        """What no encoder holds any longer, if an object is one that was open: all that was dropped before the oldest open one was made."""
        self.open_encoders.pop(thing, None)
        while self.under_encoders and not self.is_held_by_encoder(self.under_encoders[0]):
            yield from self.reached(self.under_encoders.popleft())

    def reached(self, thing: Played) -> list[Any]:
        """The buffers, textures and query sets that an object is, or holds, itself or through others."""
        if thing.do in RESOURCES:
            return [thing]
        if thing.do in REACHING_NONE:
            return []
        return [found for held in dict.fromkeys(self.held_by(thing)) for found in self.reached(held)]

    def is_held(self, thing: Played) -> bool:
        """An object is held while it is not dropped, and after that while something else holds it: an encoder, or an object that was
        valid."""
        if not self.history.is_dropped(thing) or self.is_held_by_encoder(thing):
            return True
        holders = self.holders[thing]
        while holders and not self.still_holds(holders[-1]):
            holders.pop()
        return holders != []

    def still_holds(self, other: Played) -> bool:
        """A command buffer holds what it names while it is neither consumed nor dropped, another object, be it a bundle, while it is itself
        held."""
        if other.do == "finish":
            return not self.history.is_consumed(other) and not self.history.is_dropped(other)
        return self.is_held(other)

    def is_held_by_encoder(self, thing: Played) -> bool:
        """An encoder or bundle encoder that is open, valid or not, holds all that was dropped since it was made: so the oldest holds the
        most."""
        oldest = next(iter(self.open_encoders), None)
        return oldest is not None and oldest.entry < self.history.drop_of(thing).entry

    def is_due(self, thing: Played) -> bool:
        """A valid buffer, texture or query set is due where it is destroyed or not held, and every operation that uses it is complete. One
        that waits for its last operation is noted."""
        if thing not in self.kept or not self.history.is_destroyed(thing) and self.is_held(thing):
            return False
        last = self.history.last_use(thing)
        if last > self.history.completed():
            self.until[last].append(thing)
            return False
        return True
