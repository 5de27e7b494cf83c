"""The rules of commands on an encoder, and the rule that invalidates it.

A command makes no fault when it is recorded. The first rule that goes to an encoder stays with it, and it is invalid from then
on. A pass keeps the first rule of its begin and its own commands, and hands it over by its end.
"""

from __future__ import annotations

from typing import TYPE_CHECKING, Any, Iterator

from . import buffers, copies, passes, queries
from .calls import BEGINS
from .rules import first_unmet

if TYPE_CHECKING:
    from model.history import Played
    from model.passes import Walk


def verdict(encoder: Played, commands: list[Any], limits: dict[str, int]) -> int | None:
    """The rule that went to an encoder or a bundle encoder first, by the commands that were recorded on it and on its passes, or None."""
    if encoder.do == "createBundleEncoder":
        return passes.rule_in(commands, limits, " in a bundle")
    walk = passes.Walk()
    for command in commands:
        rule = rule_given(command, walk, limits)
        if rule is not None:
            return rule
        walk.take(command)
    return None


def rule_given(command: Played, walk: Walk, limits: dict[str, int]) -> int | None:
    """The rule that a command gives its encoder after the earlier ones, or None: one on the encoder its own, and the end of the open pass
    that of the pass."""
    place = command.uses["on"]
    if place.do == "createEncoder":
        return first_unmet(command.do, command_rules(command, walk))
    if command.do == "end" and place is walk.open_pass:
        return passes.pass_rule(place, walk.on[place] + [command], limits)
    return None


def command_rules(command: Played, walk: Walk) -> Iterator[tuple[int, str, bool]]:
    """The rules of a command on an encoder, after the earlier commands. All but the first of a begin go to the pass that it begins."""
    yield 240, "no pass is open", walk.open_pass is None
    if command.do not in BEGINS:
        yield from passes.named_rules(command)
        yield from own_rules(command, walk.groups[command.uses["on"]])


def own_rules(command: Played, open_groups: int) -> Iterator[tuple[int, str, bool]]:
    call, uses = command.call, command.uses
    if command.do == "copyBufferToBuffer":
        yield from buffers.copy_rules(call, uses["source"], uses["target"])
    elif command.do == "copyBufferToTexture":
        yield from copies.buffer_to_texture_rules(call, uses["buffer"].call, uses["texture"].call)
    elif command.do == "copyTextureToBuffer":
        yield from copies.texture_to_buffer_rules(call, uses["buffer"].call, uses["texture"].call)
    elif command.do == "copyTextureToTexture":
        yield from copies.texture_to_texture_rules(call, uses["source"], uses["target"])
    elif command.do == "clearBuffer":
        buffer = uses["buffer"]
        yield from buffers.clear_rules(buffer.call, call["offset"], clear_size(command))
    elif command.do == "resolveQuerySet":
        yield from queries.resolve_rules(call, uses["queries"].call, uses["buffer"].call)
    elif command.do == "popDebugGroup":
        yield 285, "open group", open_groups > 0


def clear_size(clear: Played) -> int:
    """The size of a clearBuffer; where it is left out, what remains of the buffer."""
    buffer = clear.uses["buffer"]
    if clear.call["size"] is None:
        return buffers.rest(buffer.call, buffer.is_valid, clear.call["offset"])
    return clear.call["size"]
