"""What a script that is being made has so far: its calls, and its objects as the maker takes them to be."""

from __future__ import annotations

from typing import TYPE_CHECKING, Any, Callable, Sequence

from .resources import BUFFER_FAULTS, QUERY_SET_FAULTS, TEXTURE_FAULTS, VIEW_FAULTS, good_buffer, good_query_set, good_texture, good_view

if TYPE_CHECKING:
    from random import Random

    from .canvases import Canvas
    from .handed import Bound, Call, Cell, Entry, Signature

LETTERS = "abcdefghijklmnopqrstuvwxyzABCDEFGHIJKLMNOPQRSTUVWXYZ0123456789_"


class Thing:
    """An object under a name, with the call that makes it. A time is how many calls the script had then.

    What stands first it has where its maker gives it; the files of the makers say of what."""

    kind: str
    role: str | None
    texture: Thing
    of: tuple[Thing, Call]
    entries: list[Entry]
    shape: str
    owner: Thing | None
    layouts: list[Thing] | None
    lists: list[list[Entry]]
    derives: bool
    vertex: list[Call | None]
    signature: Signature
    writes: set[str]
    bound: Bound
    draws: int
    target: Any  # A Target, or in holding.py the keys of a bundle encoder.
    parts: list[tuple[Cell, str]]
    names: set[str]
    behind: set[str]

    def __init__(self, name: str, call: Call, good: bool) -> None:
        self.name = name
        self.call = call
        self.good = good
        self.destroyed = False
        self.size = 0
        self.made_at = 0
        self.dropped_at: int | None = None
        self.mapped = bool(call.get("mapped")) and good
        self.is_shown = False  # It is the texture of a canvas.
        self.finished = False
        self.submitted = False
        self.groups = 0
        self.commands = 0

    @property
    def dropped(self) -> bool:
        return self.dropped_at is not None

    def dropped_after(self, time: int) -> bool:
        """It was dropped, and later than at a time."""
        return self.dropped_at is not None and self.dropped_at > time

    def own_layouts(self) -> list[Thing]:
        """The layouts of a thing that has some."""
        assert self.layouts is not None
        return self.layouts


class World:
    """The calls and the objects so far, and the chance of which they come. Some sorts of scripts have `renders`, and some `budget`."""

    renders: float  # How many of the passes are render passes.
    budget: int

    def __init__(self, random: Random, fault: float = 0.05) -> None:
        self.random = random
        self.fault = fault
        self.queries = 0.2  # How many of the render passes have a query set, and how often queries are resolved beside them.
        self.bundled = 0.08  # How often bundles are executed before the draws of a render pass, and bundles are made beside them.
        self.calls: list[Call] = []
        self.names = 0
        self.issued = 0
        self.completed = 0
        self.scopes = 0
        self.is_lost = False
        self.buffers: list[Thing] = []
        self.textures: list[Thing] = []
        self.views: list[Thing] = []
        self.samplers: list[Thing] = []
        self.group_layouts: list[Thing] = []
        self.derived_layouts: list[Thing] = []  # Those that are exclusive to a pipeline.
        self.pipeline_layouts: list[Thing] = []
        self.groups: list[Thing] = []
        self.pipelines: list[Thing] = []
        self.render_pipelines: list[Thing] = []
        self.query_sets: list[Thing] = []
        self.encoders: list[Thing] = []
        self.command_buffers: list[Thing] = []
        self.bundle_encoders: list[Thing] = []
        self.bundles: list[Thing] = []
        self.canvases: list[Canvas] = []

    def has_fault(self) -> bool:
        return self.random.random() < self.fault

    def new_name(self, letter: str) -> str:
        self.names += 1
        name = f"{letter}{self.names}"
        if self.random.random() < 0.01:
            name += "_" + "".join(self.random.choice(LETTERS) for _ in range(63 - len(name)))
        return name

    def add(self, call: Call) -> Call:
        self.calls.append(call)
        return call

    def spoil(self, faults: Sequence[Callable[..., object]], *what: Call) -> None:
        """Leaves one rule unmet, or at times two, so that their order shows."""
        for fault in self.random.sample(faults, self.random.choice([1, 1, 1, 2])):
            fault(self.random, *what)

    def make(self, letter: str, call: Call, good: bool) -> Thing:
        thing = Thing(self.new_name(letter), call, good and not self.is_lost)
        self.add({**call, "as": thing.name})
        thing.made_at = len(self.calls)
        return thing

    def buffer(self, good: bool = True, **wanted: Any) -> Thing:
        """Makes a buffer, with some values as they are wanted."""
        call = {**good_buffer(self.random), **wanted}
        if not good:
            self.spoil(BUFFER_FAULTS, call)
        thing = self.make("b", call, good)
        self.buffers.append(thing)
        return thing

    def texture(self, good: bool = True, **wanted: Any) -> Thing:
        """Makes a texture; keys that have their usual value are sometimes left out."""
        call = good_texture(self.random, **wanted)
        if not good:
            self.spoil(TEXTURE_FAULTS, call)
        return self.texture_as(good, call)

    def texture_as(self, good: bool, call: Call) -> Thing:
        """Makes a texture of a call that has all its keys but for `do`."""
        call = {"do": "createTexture", **call}
        usual = {"dim": "2d", "mips": 1, "samples": 1}
        told = {key: value for key, value in call.items() if usual.get(key) != value or self.random.random() < 0.5}
        thing = self.make("t", told, good)
        thing.call = call
        self.textures.append(thing)
        return thing

    def view(self, texture: Thing, good: bool = True) -> Thing:
        call = good_view(self.random, texture.call) if texture.good else {"do": "createView"}
        if not good and texture.good:
            self.spoil(VIEW_FAULTS, call, texture.call)
        thing = self.make("v", {**call, "texture": texture.name}, good and texture.good and not texture.dropped)
        self.views.append(thing)
        return thing

    def query_set(self, good: bool = True, **wanted: Any) -> Thing:
        """Makes a query set, with some count as it is wanted."""
        call = {**good_query_set(self.random), **wanted}
        if not good:
            self.spoil(QUERY_SET_FAULTS, call)
        thing = self.make("u", call, good)
        self.query_sets.append(thing)
        return thing

    def encoder(self) -> Thing:
        thing = self.make("e", {"do": "createEncoder"}, True)
        self.encoders.append(thing)
        return thing

    def finish(self, encoder: Thing) -> Thing:
        """Ends an encoder, closing its debug groups first, as a rule."""
        while encoder.groups > 0 and not self.has_fault():
            self.add({"do": "popDebugGroup", "on": encoder.name})
            encoder.groups -= 1
        thing = self.make(
            "c", {"do": "finish", "on": encoder.name}, not encoder.finished and encoder.good and not encoder.dropped and encoder.groups == 0
        )
        encoder.finished = True
        self.command_buffers.append(thing)
        return thing

    def bundle_encoder(self, call: Call, good: bool = True, name: str | None = None) -> Thing:
        """Makes a bundle encoder; keys that have their usual value are sometimes left out."""
        usual = {"samples": 1, "depthReadOnly": False, "stencilReadOnly": False}
        told = {key: value for key, value in call.items() if usual.get(key, ...) != value or self.random.random() < 0.3}
        thing = Thing(name or self.new_name("h"), call, good and not self.is_lost)
        self.add({**told, "as": thing.name})
        thing.made_at = len(self.calls)
        self.bundle_encoders.append(thing)
        return thing

    def finish_bundle(self, encoder: Thing) -> Thing:
        good = not encoder.finished and encoder.good and not encoder.dropped
        thing = self.make("m", {"do": "finishBundle", "on": encoder.name}, good)
        encoder.finished = True
        self.bundles.append(thing)
        return thing

    def submit(self, command_buffers: list[Thing]) -> None:
        self.add({"do": "submit", "buffers": [thing.name for thing in command_buffers]})
        self.queued(all(thing.good and not thing.submitted and not thing.dropped for thing in command_buffers))
        for thing in command_buffers:
            thing.submitted = True

    def queued(self, good: bool) -> None:
        """An operation more, where the call is taken to be good; a lost device takes none."""
        self.issued += good and not self.is_lost

    def map(self, thing: Thing, good: bool, call: Call) -> None:
        """A map of a buffer, which is pending or mapped from then on, where it is taken to be good."""
        self.add({"do": "mapAsync", "buffer": thing.name, **call})
        thing.mapped = thing.mapped or good and thing.good and not thing.destroyed and not thing.dropped and not self.is_lost

    def unmap(self, thing: Thing) -> None:
        self.add({"do": "unmap", "buffer": thing.name})
        thing.mapped = False

    def destroy(self, thing: Thing) -> None:
        self.add({"do": "destroy", "object": thing.name})
        thing.destroyed = True
        thing.mapped = False

    def drop(self, thing: Thing) -> None:
        """A drop; in place of one of a canvas's texture, for which the script is refused, a destroy as a rule."""
        if thing.is_shown and self.random.random() < 0.95:
            self.destroy(thing)
            return
        self.add({"do": "drop", "object": thing.name})
        thing.dropped_at = thing.dropped_at or len(self.calls)

    def everything(self) -> list[Thing]:
        bound = (
            self.samplers
            + self.group_layouts
            + self.derived_layouts
            + self.pipeline_layouts
            + self.groups
            + self.pipelines
            + self.render_pipelines
        )
        return self.resources() + self.views + bound + self.encoders + self.command_buffers + self.bundle_encoders + self.bundles

    def resources(self) -> list[Thing]:
        """What takes memory."""
        return self.buffers + self.textures + self.query_sets

    def complete(self, number: int) -> None:
        self.add({"do": "complete", "op": number})
        self.completed = number if self.completed < number <= self.issued else self.completed

    def push_scope(self) -> None:
        words = ["validation", "out-of-memory", "internal"]
        self.add({"do": "pushErrorScope", "filter": self.random.choices(words, [4, 1, 1])[0]})
        self.scopes += 1

    def pop_scope(self) -> None:
        self.add({"do": "popErrorScope"})
        self.scopes = max(self.scopes - 1, 0)

    def work_done(self) -> None:
        self.add({"do": "workDone"})

    def lose(self) -> None:
        self.add({"do": "lose"})
        self.is_lost = True

    def one(self, things: list[Thing]) -> Thing:
        """The same of objects of which there are some."""
        thing = self.some(things)
        assert thing is not None
        return thing

    def some(self, things: list[Thing]) -> Thing | None:
        """One of some objects: a good one that is not destroyed, dropped, pending or mapped, as a rule, or None."""
        usable = [thing for thing in things if thing.good and not thing.destroyed and not thing.dropped and not thing.mapped]
        if usable and self.random.random() > 0.03:
            return self.random.choice(usable[-6:])
        return self.random.choice(things) if things else None
