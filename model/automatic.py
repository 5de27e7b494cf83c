"""Bind group layouts that a call makes or a pipeline derives: the entries of each, and whose it is alone.

A pipeline whose `layout` is `auto` derives layouts from its interface: of each group from 0 to the greatest that the interface names a
layout, with an entry for each binding that the interface names in that group. An interface may name one binding several times, each time
with its stage. """

from __future__ import annotations

from typing import TYPE_CHECKING, Any, Iterator

from .groups import COMPUTE, MOST_LAYOUTS, STAGES, layout_rules, pipeline_layout_rules
from .pipelines import kind_rules
from .rules import at_most

if TYPE_CHECKING:
    from model.forms import Call
    from model.history import Played

AUTO = "auto"

# What an interface tells of a binding beside its kind, or does not tell, since it is a shader's.
NOT_OF_KIND = ("group", "stage", "dynamic", "minSize")


def is_automatic(pipeline: Played) -> bool:
    """A pipeline derives its layouts, where it names none."""
    return pipeline.call["layout"] == AUTO


def layouts_of(pipeline: Played) -> Any:
    """The entries of each bind group layout of a valid pipeline, by group."""
    if is_automatic(pipeline):
        return merged(pipeline.call["iface"])
    return entries_of_each(pipeline.uses["layout"])


def layouts_at(pipeline_layout: Played) -> list[Any]:
    """The bind group layout of each index of a pipeline layout, or None where it is null."""
    layouts = iter(pipeline_layout.uses["layouts"])
    return [None if name is None else next(layouts) for name in pipeline_layout.call["layouts"]]


def entries_of_each(pipeline_layout: Played) -> Any:
    """The entries of each bind group layout of a pipeline layout; a null one has none."""
    return [[] if layout is None else layout.entries for layout in layouts_at(pipeline_layout)]


def entries_of(layout: Played) -> Any:
    """The entries of a valid bind group layout: its own, or those that its pipeline has for its group."""
    if layout.do == "createBindGroupLayout":
        return layout.call["entries"]
    return layout.uses["pipeline"].layouts[layout.call["index"]]


def owner_of(layout: Played) -> Played | None:
    """The pipeline that a bind group layout is exclusive to (rule 143), or None."""
    if layout.do == "createBindGroupLayout":
        return None
    return owner_in_use(layout.uses["pipeline"])


def owner_in_use(pipeline: Played) -> Played | None:
    """Where a pipeline is in use, the one that the groups which it asks for have to be exclusive to, or None."""
    return pipeline if is_automatic(pipeline) else None


def stage_of(used: dict[str, Any]) -> int:
    """The bit of the stage that names a binding: an entry of the interface of a compute pipeline tells no stage."""
    return STAGES[used["stage"]] if "stage" in used else COMPUTE


def merged(iface: list[Call]) -> list[list[Call]]:
    """The layouts of an interface in which no two entries of one binding differ in kind. A layout has its bindings in ascending order, and
    each is seen by just the stages that name it."""
    visibility, kinds = {}, {}
    for used in iface:
        place = used["group"], used["binding"]
        visibility[place] = visibility.get(place, 0) | stage_of(used)
        of_kind = {key: value for key, value in used.items() if key not in NOT_OF_KIND}
        kinds.setdefault(place, {**of_kind, **never_dynamic(used)})
    layouts: list[list[Call]] = [[] for _ in range(1 + max((group for group, _ in visibility), default=-1))]
    for group, binding in sorted(visibility):
        layouts[group].append({**kinds[group, binding], "visibility": visibility[group, binding]})
    return layouts


def never_dynamic(used: dict[str, Any]) -> dict[str, int]:
    """A buffer is not dynamic and of any size, whatever the interface says of that."""
    return {"dynamic": False, "minSize": 0} if "minSize" in used else {}


def derived_rules(iface: list[dict[str, Any]], limits: dict[str, int]) -> Iterator[tuple[int, str, bool]]:
    """Rules 167 and 168, on the interface of a pipeline that derives its layouts."""
    first = {}
    for used in iface:
        other = first.setdefault((used["group"], used["binding"]), used)
        if other is not used:
            stages = "of one stage" if stage_of(other) == stage_of(used) else "of two stages"
            yield from kind_rules(167, other, used, f", {stages}")
    for used in iface:
        yield at_most(168, "group", used["group"], MOST_LAYOUTS - 1)
    layouts = merged(iface)
    for entries in layouts:
        yield from within(layout_rules(entries, limits))
    yield from within(pipeline_layout_rules(layouts, limits))


def within(rules: Iterator[Any]) -> Iterator[tuple[int, str, bool]]:
    """The rules of layouts, all as one rule of the pipeline."""
    for number, what, is_met in rules:
        yield 168, f"as {number}: {what}", is_met


def got_rules(pipeline: Played, index: int) -> Iterator[tuple[int, str, bool]]:
    """The own rule of getBindGroupLayout, on a valid pipeline."""
    how = "derived" if is_automatic(pipeline) else "named"
    last = len(pipeline.layouts) - 1
    what = "none" if last < 0 else "just the last" if index == last else "just past the last" if index == last + 1 else "index"
    yield 169, f"{what}, {how}", index <= last


def exclusive_rules(layouts: list[Any]) -> Iterator[tuple[int, str, bool]]:
    """Rule 143, on each layout of a pipeline layout."""
    for layout in layouts:
        yield 143, "exclusive", layout.owner is None


def owner_rules(pipeline: Any, group: Played) -> Iterator[tuple[int, str, bool]]:
    """Rule 341 on whose the layout of a group is that is set where a pipeline is in use."""
    owner, wanted = group.uses["layout"].owner, owner_in_use(pipeline)
    if wanted is None:
        yield 341, "made for no derived layout", owner is None
    else:
        yield 341, "made for a derived layout", owner is not None
        yield 341, "made for this pipeline's", owner is wanted
