"""What is set and drawn in a render pass or on a bundle encoder, in any order that is good."""

from __future__ import annotations

from typing import TYPE_CHECKING, Sequence

from .bindings import is_written
from .dispatching import bound_by, set_call
from .drawing import (
    INDIRECT_BYTES, VERTEX, counts_for, draw_call, end_of, index_call, indirect_call, joins, parts_of_group, read_slots, size_set,
    some_index_range, some_range, some_render_pipeline, stray_settings, vertex_call,
)

from .fixed_function import NOT_SAID, strip_of

if TYPE_CHECKING:
    from random import Random

    from .handed import Between, Call, Groups, Now
    from .targets import Target
    from .world import Thing, World

DRAWS = ["draw", "drawIndexed", "drawIndirect", "drawIndexedIndirect"]
INDEXED = ["drawIndexed", "drawIndexedIndirect"]

# What may be past the edge, and in which draws.
PAST = {"vertices": ["draw"], "instances": ["draw", "drawIndexed"], "indices": ["drawIndexed"]}


class Draw:
    """What a draw is to be: its word, what is to be past the edge (a key of PAST), whether bindings are to overlap, and whether what it
    sets need not agree with the usage scope of its pass."""

    def __init__(self, random: Random, wanted: str | None, is_first: bool) -> None:
        self.past = wanted if wanted in PAST and is_first else None
        self.overlaps = wanted == "overlap" and is_first
        self.is_any = wanted == "scope"
        self.word = random.choice(PAST[self.past]) if self.past is not None else random.choices(DRAWS, [4, 4, 2, 2])[0]

    def suit(self, pipeline: Thing) -> None:
        """A strip whose format of indices is not said is drawn without indices."""
        if strip_of(pipeline.call) == NOT_SAID:
            self.word = self.word.replace("Indexed", "")


def drawn(world: World, on: str, target: Target, wanted: str | None, counts: Sequence[int], between: Between | None = None) -> list[Call]:
    """The settings and draws on what is drawn to, with one of so many settings with draws. Between these stand more calls, which unset all,
    if a function gives any.

    `wanted` is what is to be wrong with them: `overlap`, `scope`, a key of PAST, or None.
    """
    random = world.random
    calls: list[Call] = []
    now: Now = {}
    for number in range(random.choice(counts)):
        more = [] if between is None else between(wanted == "scope")
        if more:
            calls += more
            now = {}
        draw = Draw(random, wanted, number == 0)
        pipeline, groups = ready(world, target, draw)
        if pipeline is None or groups is None:
            continue
        draw.suit(pipeline)
        added = settings(world, on, target, pipeline, groups, now, draw)
        if added is not None:
            free = [index for index in range(4) if index not in groups]
            calls += stray_settings(world, on, target, draw.is_any, free_slots(pipeline), free, now) + added
            calls += [one_draw(world, on, target, pipeline, now, draw) for _ in range(random.choice([1, 1, 1, 2]))]
    calls += stray_settings(world, on, target, wanted == "scope", list(range(8)), list(range(4)), now)
    return calls + ([] if between is None else between(wanted == "scope"))


def ready(world: World, target: Target, draw: Draw) -> tuple[Thing, Groups] | tuple[None, None]:
    """A pipeline that will do for a draw, with a group and offsets for each index at which it asks for one; or None in place of these."""
    for _ in range(8 if draw.past or draw.overlaps else 1):
        pipeline = some_render_pipeline(world, target, is_new=draw.past is not None)
        if will_do(pipeline, draw):
            groups = groups_of(world, target, pipeline, draw)
            if groups is not None:
                return pipeline, groups
    return None, None


def free_slots(pipeline: Thing) -> list[int]:
    """The slots that a pipeline does not read."""
    return [slot for slot in range(8) if slot not in dict(read_slots(pipeline))]


def will_do(pipeline: Thing, draw: Draw) -> bool:
    """A draw can ask too much of a vertex buffer that steps, and what overlaps is two bindings, of which one is written."""
    step = {"vertices": "vertex", "instances": "instance"}.get(draw.past) if draw.past is not None else None
    entries = [entry for layout in pipeline.own_layouts() for entry in layout.entries if entry["kind"] != "sampler"]
    if draw.overlaps and not (len(entries) > 1 and any(is_written(entry) for entry in entries)):
        return False
    if draw.past == "indices" and strip_of(pipeline.call) == NOT_SAID:
        return False
    return step is None or any(one["step"] == step and one["stride"] > 0 for _, one in read_slots(pipeline))


def groups_of(world: World, target: Target, pipeline: Thing, draw: Draw) -> Groups | None:
    """A group and offsets for each index at which a pipeline asks for one, that agree with the pass, or None."""
    for _ in range(5):
        found = bound_by(world, pipeline, "overlap" if draw.overlaps else None, None)
        if found is None:
            return None
        parts = [pair for group, offsets in found.values() for pair in parts_of_group(group, offsets)]
        if joins(target, parts, draw.is_any or draw.overlaps):
            return found
    return None


def settings(world: World, on: str, target: Target, pipeline: Thing, groups: Groups, now: Now, draw: Draw) -> list[Call] | None:
    """What a draw needs and is not set already, in any order; at times it is set again. None where there is nothing for it."""
    random = world.random
    found: list[tuple[object, object, Call]] = [("pipeline", pipeline.name, {"do": "setPipeline", "on": on, "pipeline": pipeline.name})]
    for index, (group, offsets) in groups.items():
        found.append((("group", index), (group.name, offsets), set_call(random, on, index, group, offsets)))
    for slot, one in read_slots(pipeline):
        end = max([end_of(attribute) for attribute in one["attributes"]], default=0)
        setting = now.get(("slot", slot))
        if setting is None or size_set(world, setting) < end or random.random() < 0.3:
            setting = some_range(world, target, VERTEX, 4, end + random.choice([0, 0, 1, 3]) * one["stride"], draw.is_any)
            if setting is None:
                return None
        found.append((("slot", slot), setting, vertex_call(random, on, slot, setting)))
    setting = now.get("index")
    strip = strip_of(pipeline.call) if draw.word in INDEXED else None
    is_wanted = draw.word in INDEXED and (setting is None or strip not in (None, setting[3]))
    if is_wanted or random.random() < 0.15:
        setting = some_index_range(world, target, draw.is_any, strip)
        if setting is None and draw.word in INDEXED:
            return None
    if setting is not None:
        found.append(("index", setting, index_call(random, on, setting)))
    found = [one for one in found if now.get(one[0]) != one[1] or random.random() < 0.2]
    now.update({key: value for key, value, _ in found})
    random.shuffle(found)
    return [call for _, _, call in found]


def one_draw(world: World, on: str, target: Target, pipeline: Thing, now: Now, draw: Draw) -> Call:
    """The draw, by what is set. One that is indirect is not where there is no buffer for it."""
    if draw.word in INDIRECT_BYTES:
        thing = counts_for(world, target, draw.word, draw.is_any)
        if thing is not None:
            return indirect_call(world, on, draw.word, thing)
    return draw_call(world, on, draw.word.replace("Indirect", ""), pipeline, now, draw.past)
