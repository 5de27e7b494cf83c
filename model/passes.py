"""Passes: which one is open, the rules of its commands, and what its dispatches, or the pass as a whole, use."""

from __future__ import annotations

import collections
from typing import TYPE_CHECKING, Any, Iterator

from . import attachments, bound_groups, bundles, draws, queries, viewports
from .calls import BEGINS, DISPATCHES, DRAWS
from .cells import part_of
from .draws import INDIRECT_BYTES
from .limits import of_all as limits_of_all
from .rules import at_most, first_unmet

if TYPE_CHECKING:
    from model.history import Played

MOST_COUNT = limits_of_all("maxComputeWorkgroupsPerDimension")

# The commands that set something and have rules of their own.
SETTINGS = {"setPipeline", "setBindGroup", "setVertexBuffer", "setIndexBuffer", "setViewport", "setScissorRect"}

# The usages that agree with each other on one part; storage and attachment agree with themselves alone.
READ_TOGETHER = {"input", "constant", "storage-read", "attachment-read"}


class Walk:
    """How far the commands that were recorded on an encoder have come: the pass that is open, or None, the passes that have ended, and of
    the encoder and each pass its commands and how many debug groups they have open.

    A pass that is begun while another one is open is dead: it neither opens nor ends.
    """

    def __init__(self, commands: list[Played] | tuple[()] = ()) -> None:
        self.open_pass: Played | None = None
        self.ended: set[Played] = set()
        self.on: dict[Played, list[Played]] = collections.defaultdict(list)
        self.groups = collections.Counter()
        for command in commands:
            self.take(command)

    def take(self, command: Played) -> None:
        place = command.uses["on"]
        self.on[place].append(command)
        self.groups[place] = groups_after(self.groups[place], command)
        if command.do in BEGINS and self.open_pass is None:
            self.open_pass = command
        elif command.do == "end" and place is self.open_pass:
            self.ended.add(place)
            self.open_pass = None


class Settings:
    """What is set of a pass or a bundle after some of its commands, each as the command that set it last, how many of its debug groups are
    open, which queries were begun in it, whether one is active, and how often it has drawn, by bundles too. A command without a group or a
    buffer leaves nothing set at its place."""

    def __init__(self) -> None:
        self.unset()
        self.open_groups = 0
        self.begun = set()
        self.is_active = False
        self.draws = 0

    def unset(self) -> None:
        self.pipeline: Played | None = None
        self.groups: dict[int, Played] = {}
        self.vertex_buffers: dict[int, Played] = {}
        self.index_buffer: Played | None = None

    def take(self, command: Played) -> None:
        self.open_groups = groups_after(self.open_groups, command)
        self.draws += draws_of(command)
        if command.do == "setPipeline":
            self.pipeline = command.uses["pipeline"]
        elif command.do == "setBindGroup":
            put(self.groups, command.call["index"], command if "group" in command.uses else None)
        elif command.do == "setVertexBuffer":
            put(self.vertex_buffers, command.call["slot"], command if "buffer" in command.uses else None)
        elif command.do == "setIndexBuffer":
            self.index_buffer = command
        elif command.do == "beginOcclusionQuery":
            self.begun.add(command.call["index"])
            self.is_active = True
        elif command.do == "endOcclusionQuery":
            self.is_active = False
        elif command.do == "executeBundles":
            self.unset()


def put(places: dict[int, Played], place: int, setting: Played | None) -> None:
    """Notes what is set last at a place, which may be nothing."""
    if setting is None:
        places.pop(place, None)
    else:
        places[place] = setting


def draws_of(command: Played) -> int:
    """How many draws a command of a pass or a bundle is: one that draws is one, whatever its counts, and one that executes bundles is all
    that these have, each as often as it is executed."""
    if command.do == "executeBundles":
        return sum(bundle.draws for bundle in command.uses["bundles"])
    return 1 if command.do in DRAWS else 0


def groups_after(count: int, command: Played) -> int:
    """How many debug groups are open after a command on the same encoder or pass: a push opens one, a pop closes one if there is one."""
    if command.do == "pushDebugGroup":
        return count + 1
    return max(count - 1, 0) if command.do == "popDebugGroup" else count


def pass_rule(begin: Any, commands: list[Played], limits: dict[str, int]) -> int | None:
    """The first rule that a pass leaves unmet: one of its begin, or else of its commands; or None."""
    rule = first_unmet(begin.do, begin_rules(begin, limits))
    return rule_in(commands, limits) if rule is None else rule


def rule_in(commands: list[Played], limits: dict[str, int], where: str = "") -> int | None:
    """The first rule that the commands of a pass or of a bundle encoder leave unmet, which are counted with a word for where they stand; or
    None."""
    settings = Settings()
    for command in commands:
        rule = first_unmet(command.do + where, command_rules(command, settings, limits))
        if rule is not None:
            return rule
        settings.take(command)
    return None


def begin_rules(begin: Played, limits: dict[str, int]) -> Iterator[tuple[int, str, bool]]:
    """The rules of the begin of a pass that go to the pass. That of a compute pass has none."""
    if begin.do == "beginRenderPass":
        yield from named_rules(begin)
        yield from attachments.begin_rules(begin, limits)


def command_rules(command: Played, settings: Settings, limits: dict[str, int]) -> Iterator[tuple[int, str, bool]]:
    """The rules of a command of a pass or of a bundle encoder by what is set where it comes: those on what it names, then its own."""
    yield from named_rules(command)
    if command.do in SETTINGS:
        yield from setting_rules(command, limits)
    elif command.do in DISPATCHES | DRAWS:
        yield from bound_groups.bound_rules(settings)
        yield from work_rules(command, settings)
    else:
        yield from bracket_rules(command, settings)


def setting_rules(command: Played, limits: dict[str, int]) -> Iterator[tuple[int, str, bool]]:
    """The own rules of a command that sets something, none of which goes by what is set."""
    call, uses = command.call, command.uses
    if command.do == "setPipeline":
        yield from bundles.pipeline_rules(uses["pipeline"].call, uses["on"])
    elif command.do == "setBindGroup":
        yield from bound_groups.set_rules(call["index"], uses.get("group"), call["offsets"])
    elif command.do == "setVertexBuffer":
        yield from draws.vertex_buffer_rules(command)
    elif command.do == "setIndexBuffer":
        yield from draws.index_buffer_rules(command)
    elif command.do == "setViewport":
        yield from viewports.viewport_rules(call, limits)
    elif command.do == "setScissorRect":
        yield from viewports.scissor_rules(call, uses["on"])


def bracket_rules(command: Played, settings: Settings) -> Iterator[tuple[int, str, bool]]:
    """The own rules of debug groups, queries, bundles that are executed, and the end of a pass."""
    call, uses = command.call, command.uses
    if command.do == "popDebugGroup":
        yield 285, "open group", settings.open_groups > 0
    elif command.do == "end":
        yield 310, "groups are closed", settings.open_groups == 0
        yield 311, "no query is active", not settings.is_active
        if uses["on"].call.get("maxDrawCount") is not None:
            yield at_most(404, "draws", settings.draws, uses["on"].call["maxDrawCount"])
    elif command.do == "beginOcclusionQuery":
        yield from queries.begin_rules(uses["on"].uses.get("queries"), call["index"], settings)
    elif command.do == "endOcclusionQuery":
        yield 364, "a query is active", settings.is_active
    elif command.do == "executeBundles":
        yield from bundles.execute_rules(uses["bundles"], uses["on"])


def work_rules(command: Played, settings: Settings) -> Iterator[tuple[int, str, bool]]:
    """The rules of a dispatch or a draw after those on what is bound."""
    if command.do == "dispatch":
        for key in ("x", "y", "z"):
            yield at_most(343, key, command.call[key], MOST_COUNT)
    if command.do in INDIRECT_BYTES:
        yield from draws.indirect_rules(command)
    if command.do in DRAWS:
        yield from draws.draw_rules(command, settings)


def named_rules(command: Played) -> Iterator[tuple[int, str, bool]]:
    """Rules 10 and 12 on each object that a command names. No script can leave 10 unmet."""
    for key, thing in command.named():
        yield 10, key, True
        yield 12, key, thing.is_valid


def touches_of_dispatch(dispatch: Played, settings: Settings) -> Any:
    """What a dispatch touches by what is set where it comes: all that the groups bind which its pipeline asks for, and the counts of one
    that is indirect."""
    touches = [touch for _, setting in bound_groups.asked_for(settings) for _, found in bound_groups.touched(setting) for touch in found]
    return touches + draws.touches_of_indirect(dispatch)


def touches_of_pass(begin: Played, commands: list[Played]) -> list[Any]:
    """What a render pass touches: what is attached, what its commands set or execute, and the queries that are begun in it. Of a query set
    of which none is begun nothing is."""
    begun = [touch for command in commands for touch in queries.touches_of_begun(begin, command)]
    return attachments.touches(begin) + begun + touches_of_drawing(commands)


def touches_of_drawing(commands: list[Played]) -> Any:
    """What the commands of a render pass or of a bundle encoder touch: all that they set, whatever comes of it, the numbers of indirect
    draws, and what the bundles touch that they execute, be it several times."""
    touches = []
    for command in commands:
        if command.do == "setBindGroup":
            touches += [touch for _, found in bound_groups.touched(command) for touch in found]
        touches += draws.touches_of_range(command) + draws.touches_of_indirect(command)
    executed = dict.fromkeys(bundle for command in commands if command.do == "executeBundles" for bundle in command.uses["bundles"])
    return touches + [touch for bundle in executed for touch in bundle.touches]


def scopes_of(commands: list[Played]) -> Iterator[tuple[Any, ...]]:
    """Of each command of an encoder, in order, what its usage scope touches, which is that of a dispatch or of a render pass; of any other
    command None."""
    on, settings = Walk(commands).on, collections.defaultdict(Settings)
    for command in commands:
        if command.do in DISPATCHES:
            yield command, touches_of_dispatch(command, settings[command.uses["on"]])
        else:
            yield command, touches_of_pass(command, on[command]) if command.do == "beginRenderPass" else None
        settings[command.uses["on"]].take(command)


def scope_rules(commands: list[Played]) -> Iterator[tuple[int, str, bool]]:
    """Rule 184, on each usage scope of an encoder, those of dispatches and of render passes. The commands are those of one that no rule
    invalidated."""
    for _, touches in scopes_of(commands):
        yield from scope_rule(touches or [])


def scope_rule(touches: list[Any]) -> Iterator[tuple[int, str, bool]]:
    """Rule 184 on what is touched in one usage scope, in which query sets are not looked at."""
    uses = {}
    for cell, usage, _ in touches:
        uses.setdefault(part_of(cell), set()).add(usage)
    for part, usages in uses.items():
        if part[0] == "q":
            continue
        what = "buffer" if part[0] == "b" else "subresource"
        are_alike = usages <= READ_TOGETHER or usages in ({"storage"}, {"attachment"})
        yield 184, f"{what}, {' and '.join(sorted(usages))}", are_alike
