"""The rule of usage scopes: which two uses of a part clash, each with the command that brought it."""

from __future__ import annotations

import collections
from typing import TYPE_CHECKING, Any, Iterator, List, Tuple

from .making import Cause, rule

if TYPE_CHECKING:
    from model.forms import Cell
    from model.history import Played
    from wgsim.causes.cases import Case

# What has one scope as a whole, in words, by the call that begins or makes it.
WHOLE = {"beginRenderPass": "the render pass", "finishBundle": "the bundle that is finished"}


class Use:
    """A use of a part in a scope: the usage, the words that tell of what it comes, the command with its place, and the view that is bound,
    if one is."""

    def __init__(self, case: Case, usage: str, words: str, command: Played, bound: Played | None = None) -> None:
        self.bound = bound
        self.usage = usage
        self.words = words
        self.command = command
        self.at = case.place(command)


# Cells, each with a use of it.
Uses = List[Tuple[Tuple[Any, ...], Use]]


def of_setting(case: Case, setting: Played) -> Uses:
    """What a setBindGroup brings: pairs of a cell and its use; one of null brings none."""
    group, found = setting.uses.get("group"), []
    if group is None:
        return found
    for asked, entry, thing, move in case.second.bound_groups.bindings(group, setting.call["offsets"]):
        bound = thing if thing.do == "createView" else None
        view = f", with {seen_by(case, bound)}" if bound else ""
        words = f"binding {entry['binding']} of {case.named(group)}, set at {case.place(setting)}{view}"
        touches = case.second.bound_groups.touches_of(asked, entry, thing, move)
        found += [(cell, Use(case, usage, words, setting, bound)) for cell, usage, _ in touches]
    return found


def seen_by(case: Case, view: Played) -> str:
    """A view that is bound, with its mip levels and layers."""
    told = case.second.textures.told(view)
    runs = [run("mip level", told["baseMip"], told["mips"])]
    if told["dim"] != "3d":
        runs.append(run("layer", told["baseLayer"], told["layers"]))
    return f"{case.named(view)} of {' and '.join(runs)}"


def run(what: str, base: int, count: int) -> str:
    return f"{what} {base}" if count == 1 else f"{what}s {base} to {base + count - 1}"


def of_command(case: Case, command: Played) -> Uses:
    """What a setVertexBuffer, a setIndexBuffer or an indirect command brings."""
    touches = case.second.draws.touches_of_range(command) + case.second.draws.touches_of_indirect(command)
    return [(cell, Use(case, usage, f"the {command.do} at {case.place(command)}", command)) for cell, usage, _ in touches]


def of_executed(case: Case, command: Played) -> Uses:
    """What an executeBundles brings: what the bundles use, each bundle once, with the command that brought it there."""
    found = []
    for bundle in dict.fromkeys(command.uses["bundles"]):
        for cell, use in of_drawing(case, case.history.commands_of(bundle)):
            words = f"{use.words} in {case.named(bundle)}, executed at {case.place(command)}"
            found.append((cell, Use(case, use.usage, words, command, use.bound)))
    return found


def of_drawing(case: Case, commands: list[Played]) -> Uses:
    """What the commands of a render pass or of a bundle bring, in their order."""
    of = {"setBindGroup": of_setting, "executeBundles": of_executed}
    return [use for command in commands for use in of.get(command.do, of_command)(case, command)]


def of_attachments(case: Case, begin: Played) -> Uses:
    """What is attached to a render pass."""
    found, at = [], case.place(begin)
    attachments = case.second.attachments
    for place, (color, view, resolve) in enumerate(attachments.colors_of(begin)):
        for touch_view, words in ((view, "a color"), (resolve, "a resolve view")):
            if touch_view is not None:
                touches = attachments.touches_of_view(touch_view, "attachment", None)
                found += [
                    (cell, Use(case, usage, f"{case.named(touch_view)}, attached as {words} at {at}", begin)) for cell, usage, _ in touches
                ]
    for view in attachments.depth_of(begin):
        touches = attachments.touches_of_depth(begin.call["depth"], view)
        found += [(cell, Use(case, usage, f"{case.named(view)}, attached as depth at {at}", begin)) for cell, usage, _ in touches]
    return found


def scopes_of(case: Case) -> Iterator[tuple[Played, Uses]]:
    """Each dispatch and each render pass of an encoder, with all uses of its scope; of a bundle encoder the one scope, with its finish."""
    if case.entry.do == "finishBundle":
        yield case.entry, of_drawing(case, case.commands)
        return
    bound_groups, passes = case.second.bound_groups, case.second.passes
    on, settings = passes.Walk(case.commands).on, collections.defaultdict(passes.Settings)
    for command in case.commands:
        place = command.uses["on"]
        if command.do in case.second.calls.DISPATCHES:
            found = [use for _, setting in bound_groups.asked_for(settings[place]) for use in of_setting(case, setting)]
            yield command, found + of_command(case, command)
        elif command.do == "beginRenderPass":
            yield command, of_attachments(case, command) + of_drawing(case, on[command])
        settings[place].take(command)


def clash(case: Case, uses: list[Use]) -> tuple[Use, Use] | None:
    """The first of some uses of one part, and the first that does not go with it, or None. What goes with it goes with each other."""
    one, together = uses[0], case.second.passes.READ_TOGETHER
    return next(((one, other) for other in uses if other.usage != one.usage and not {one.usage, other.usage} <= together), None)


def brought_by(case: Case, command: Played, uses: Uses) -> Played:
    """The command with which a scope is no longer compatible: of a render pass or a bundle that of the first use that clashes with one
    before it."""
    first = {}
    for cell, use in uses if command.do in WHOLE else []:
        if clash(case, [first.setdefault(case.second.cells.part_of(cell), use), use]):
            return use.command
    return command


@rule(184)
def scope(case: Case) -> Cause | None:
    for command, uses in scopes_of(case):
        parts = {}
        for cell, use in uses:
            parts.setdefault(case.second.cells.part_of(cell), []).append(use)
        for part in sorted(parts):
            pair = clash(case, parts[part])
            if pair:
                return clashing(case, command, part, *pair, brought_by(case, command, uses))
    return None


def clashing(case: Case, command: Played, part: Cell, one: Use, other: Use, about: Played) -> Cause:
    what = WHOLE.get(command.do, f"the {command.do}")
    said = (
        f"{case.part(part)} is used as {one.usage} by {one.words}, and as {other.usage} by {other.words}, in the one scope of {what} at"
        f" {case.place(command)}"
    )
    values = {
        **case.part_values(part),
        "first": one.usage,
        "firstBy": one.at,
        "other": other.usage,
        "otherBy": other.at,
        "scope": case.place(command),
    }
    remedies = {
        "beginRenderPass": "Use them in two render passes.",
        "finishBundle": "Use them in two bundles, and execute these in two render passes.",
    }
    remedy = remedies.get(command.do, "Use them in two dispatches, or bind both for reading alone.")
    bound = one.bound or other.bound
    return Cause(said, values, apart(case, bound) or remedy if bound else remedy, about=about)


def apart(case: Case, bound: Played) -> str | None:
    """What to do where a view is bound that has more mip levels or layers than the part that clashes; None where it has that alone."""
    told = case.second.textures.told(bound)
    what = "mip level" if told["mips"] > 1 else "layer" if told["layers"] > 1 and told["dim"] != "3d" else None
    return f"Bind a view of one {what} that nothing else uses here, in place of {case.name(bound)}." if what else None
