"""The reply to each call, after all that were played before it."""

from __future__ import annotations

import collections
from typing import TYPE_CHECKING, Any, Iterator

from . import (
    automatic,
    buffers,
    bundles,
    canvases,
    copies,
    fixed_function,
    groups,
    maps,
    memory,
    passes,
    pipelines,
    promises,
    queries,
    recording,
    scopes,
    textures,
)
from .calls import BEGINS, FINISHES, MADE, PROMISING, QUEUED, RECORDING, bound_by
from .history import Played, resources_in
from .rules import first_unmet, note

if TYPE_CHECKING:
    from model.forms import Call
    from model.history import History

BUDGET_RULE, LATE_RULE = 13, 14

# The calls that do on a lost device what they do on any, where they meet their rules.
AS_EVER = {"unmap", "destroy", "drop"}


def answer_call(history: History, call: Call, caller: int) -> Played:
    """Plays one call of a caller. A command that comes in time makes no entry; all else does."""
    played = Played(call, history.uses_of(call), caller)
    if played.do in BEGINS:
        history.names[call["as"]] = played
    if played.do in RECORDING and not history.has_ended(played.uses["on"]):
        note("late", LATE_RULE, "in time", True)
        history.add(played)
        return played
    played.entry = len(history.entries())
    played.on_lost = history.is_lost()
    played.rule = rule_of(history, played)
    played.fault = fault_of(played)
    played.catcher = scopes.catcher_of(history, played.fault)
    played.answer = answer_of(history, played)
    played.settled = promises.settled_by(history, played)
    history.add(played)
    return played


def rule_of(history: History, played: Played) -> int | None:
    """The first unmet rule of an event, or None. On a lost device only those rules are tested by which a call does something."""
    if played.on_lost and played.do not in AS_EVER:
        return None
    word = "late" if played.do in RECORDING else played.do
    return first_unmet(f"{word} on a lost device" if played.on_lost else word, rules_of(history, played))


def fault_of(played: Played) -> Any:
    """The kind and the rule of the fault of an event whose rule is known, or None: a lost device makes no fault."""
    if played.is_met or played.on_lost:
        return None
    return "out-of-memory" if played.rule == BUDGET_RULE else "validation", played.rule


def answer_of(history: Any, played: Any) -> Any:
    """The answer to an event whose fault is known; an object or an operation gets its number.

    A workDone waits for all operations that were queued before it, a mapAsync for those that use its buffer. An unmap ends the
    mapping of its buffer, if there is one. A first finish takes the commands of its encoder.
    """
    if played.do in FINISHES and not history.has_finished(played.uses["on"]):
        played.commands = history.commands_on(played.uses["on"])
    if played.do in MADE:
        played.made = len(history.objects)
        history.objects.append(played)
        history.names.update(dict.fromkeys(canvases.names_of(played.call), played))
        return f"made {played.made} {'valid' if played.is_valid else 'invalid'}"
    if played.do == "complete":
        return answer_of_complete(history, played.call["op"])
    if played.do == "workDone":
        played.awaited = history.issued()
    if played.do == "mapAsync":
        played.awaited = history.last_use(played.uses["buffer"])
    if played.do == "unmap" and played.is_met:
        played.ended = maps.mapping_of(history, played.uses["buffer"])
    if played.do in PROMISING:
        return "promise"
    if played.do in QUEUED and played.is_met and not played.on_lost:
        played.op = history.issued() + 1
        return f"op {played.op}"
    return "plain"


def answer_of_complete(history: History, op: int) -> str:
    """A completion is bad where its number is not above what is complete, or is above what was queued."""
    is_new, is_issued = op > history.completed(), op <= history.issued()
    note("complete", 0, "above what is complete", is_new)
    note("complete", 0, "at most what was queued", is_issued)
    return "plain" if is_new and is_issued else "bad"


def rules_of(history: History, played: Played) -> Any:
    """The rules of an event."""
    call, uses = played.call, played.uses
    if played.do in RECORDING:
        return iter([(LATE_RULE, "in time", False)])
    if played.do == "createBuffer":
        return making_rules(history, call, buffers.create_rules(call, history.limits))
    if played.do == "createTexture":
        return making_rules(history, call, textures.create_rules(call, history.limits))
    if played.do == "createQuerySet":
        return making_rules(history, call, queries.create_rules(call))
    if played.do == "createView":
        texture = uses["texture"]
        view = textures.view_of(call, texture.call, texture.is_valid)
        return of_object(history, "texture", texture, textures.view_rules(view, texture.call))
    if played.do == "createSampler":
        return fixed_function.sampler_rules(call)
    if played.do == "createBindGroupLayout":
        return groups.layout_rules(call["entries"], history.limits)
    if played.do == "createPipelineLayout":
        return of_objects(history, [("layout", layout) for layout in uses["layouts"]], pipeline_layout_rules(history, played))
    if played.do == "createBindGroup":
        return bind_group_rules(history, call, uses)
    if played.do in ("createComputePipeline", "createRenderPipeline"):
        return pipeline_rules(history, played)
    if played.do == "getBindGroupLayout":
        return of_object(history, "pipeline", uses["pipeline"], automatic.got_rules(uses["pipeline"], call["index"]))
    if played.do == "writeBuffer":
        return of_object(history, "target", uses["buffer"], write_buffer_rules(history, call, uses["buffer"]))
    if played.do == "writeTexture":
        texture = uses["texture"]
        return of_object(history, "target", texture, copies.write_texture_rules(call, texture.call, history.is_destroyed(texture)))
    if played.do == "mapAsync":
        return of_object(history, "target", uses["buffer"], maps.map_rules(history, call, uses["buffer"]))
    if played.do == "createBundleEncoder":
        return bundles.create_rules(call, history.limits)
    if played.do in FINISHES:
        return of_object(history, "encoder", uses["on"], finish_rules(history, uses["on"]))
    if played.do == "submit":
        return submit_rules(history, uses["buffers"])
    if played.do in AS_EVER:
        return own_and_kept(history, "object", *uses.values())
    return iter([])


def pipeline_layout_rules(history: History, played: Played) -> Iterator[tuple[int, str, bool]]:
    """The own rules of createPipelineLayout, on valid layouts."""
    yield from groups.pipeline_layout_rules(automatic.entries_of_each(played), history.limits)
    yield from automatic.exclusive_rules(played.uses["layouts"])


def pipeline_rules(history: History, played: Played) -> Iterator[tuple[int, str, bool]]:
    """The rules of a pipeline: on the layout that it names, or on those that it derives, and then its own by these."""
    if automatic.is_automatic(played):
        yield from automatic.derived_rules(played.call["iface"], history.limits)
    else:
        yield from of_object(history, "layout", played.uses["layout"], [])
    if played.do == "createComputePipeline":
        yield from pipelines.compute_rules(played.layouts, played.call["iface"])
    else:
        yield from pipelines.render_rules(played.layouts, played.call, history.limits)


def making_rules(history: History, call: dict[str, Any], own_rules: Iterator[Any]) -> Iterator[tuple[int, str, bool]]:
    """The rules of what takes memory: its own, and then that the budget is enough for it beside what is live before the call."""
    yield from own_rules
    yield BUDGET_RULE, "budget", history.live_bytes() + memory.bytes_of(call) <= history.budget


def own_and_kept(history: History, what: str, thing: Played) -> Iterator[tuple[int, str, bool]]:
    """An object that a call names is of this device, which no script can leave unmet, and was not dropped."""
    yield 10, what, True
    yield 11, what, not history.is_dropped(thing)


def of_object(history: History, what: str, thing: Played, further_rules: Any) -> Iterator[tuple[int, str, bool]]:
    """The rules of a call that asks for a valid object, and then the further ones of the call."""
    yield from own_and_kept(history, what, thing)
    yield 12, what, thing.is_valid
    yield from further_rules


def of_objects(history: History, named: list[Any], further_rules: Any) -> Iterator[Any]:
    """The same of several objects one after another, given as pairs of a word and an object."""
    for what, thing in named:
        yield from of_object(history, what, thing, [])
    yield from further_rules


def bind_group_rules(history: History, call: dict[Any, Any], uses: dict[Any, Any]) -> Iterator[tuple[int, str, bool]]:
    """The rules of createBindGroup: its layout and what its entries bind, and then its own. That something that is bound is
    destroyed or mapped breaks none."""
    bound = list(zip(call["entries"], uses["entries"]))
    named = [("layout", uses["layout"])] + [(bound_by(entry), thing) for entry, thing in bound]
    yield from of_objects(history, named, [])
    yield from groups.group_rules(uses["layout"].entries, bound, history.limits)


def write_buffer_rules(history: History, call: dict[str, int | str], buffer: Played) -> Iterator[tuple[int, str, bool]]:
    yield from buffers.write_rules(call, buffer.call)
    yield from maps.idle_rules(history, 203, buffer)


def finish_rules(history: History, encoder: Played) -> Iterator[tuple[int, str, bool]]:
    """The rules of a finish after those of its encoder: first the rule that invalidated it, then what was recorded. Those of a finishBundle
    are the same, but that no pass can be open, and that all commands are in one usage scope."""
    yield 180, "ended", not history.has_finished(encoder)
    commands = history.commands_on(encoder)
    invalidating = recording.verdict(encoder, commands, history.limits)
    if invalidating is not None:
        yield invalidating, "invalidated the encoder", False
    is_bundle = encoder.do == "createBundleEncoder"
    if not is_bundle:
        yield 182, "no pass is open", history.walks[encoder].open_pass is None
    yield 183, "groups are closed", history.walks[encoder].groups[encoder] == 0
    for command in commands:
        for key, thing in command.named():
            yield 11, f"{key} that a command names", not history.was_dropped_before(thing, encoder)
    yield from passes.scope_rule(passes.touches_of_drawing(commands)) if is_bundle else passes.scope_rules(commands)


def submit_rules(history: Any, command_buffers: Any) -> Iterator[tuple[int, str, bool]]:
    """The rules of submit: those of each command buffer, and then those of all together."""
    yield from of_objects(history, [("command buffer", one) for one in command_buffers], [])
    yield 190, "consumed", not any(history.is_consumed(one) for one in command_buffers)
    yield 191, "named twice", len(set(command_buffers)) == len(command_buffers)
    used, how = dict.fromkeys(history.resources_of(command_buffers)), ways_of(history.named_by(command_buffers))
    yield from used_rules(history, [thing for thing in used if thing.do == "createBuffer"], how)
    for thing in used:
        if thing.do != "createBuffer":
            what = "texture" if thing.do == "createTexture" else "query set"
            yield 193, f"destroyed {what}{how[thing]}", not history.is_destroyed(thing)


def used_rules(history: History, used: list[Any], how: dict[Played, str]) -> Iterator[tuple[int, str, bool]]:
    """Rule 192, on the buffers that are used, of which `how` says in what ways they are named."""
    for thing in used:
        yield 192, f"pending buffer{how[thing]}", not maps.is_pending(history, thing)
        yield 192, f"mapped buffer{how[thing]}", not maps.mapping_of(history, thing)
        yield 192, f"destroyed buffer{how[thing]}", not history.is_destroyed(thing)


def ways_of(named: list[Played]) -> dict[Played, str]:
    """Of each buffer, texture and query set a word for the counts, where no command names it itself."""
    ways = collections.defaultdict(lambda: " in a bind group")
    bundled = dict.fromkeys(inner for one in named if one.do == "finishBundle" for inner in one.names)
    ways.update((inner, " in a bundle") for inner in bundled if inner.do == "createBuffer")
    ways.update(
        (thing, " in a bind group of a bundle") for inner in bundled if inner.do == "createBindGroup" for thing in resources_in(inner)
    )
    ways.update((thing, " in a bind group") for one in named if one.do == "createBindGroup" for thing in resources_in(one))
    ways.update((one.uses["texture"], " that is attached") for one in named if one.do == "createView")
    ways.update((one, "") for one in named)
    return ways
