"""The rules of layouts that a pipeline derives, and of getBindGroupLayout."""

from __future__ import annotations

from typing import TYPE_CHECKING

from . import layouts
from .making import Cause, at_most, first, plural, rule
from .pipelines import OF_KINDS, told

if TYPE_CHECKING:
    from wgsim.causes.cases import Case


def naming(case: Case) -> dict[tuple[int, int], list[int]]:
    """Of each group and binding that an interface names the numbers of its entries that do so."""
    found = {}
    for number, used in enumerate(case.call["iface"]):
        found.setdefault((used["group"], used["binding"]), []).append(number)
    return found


@rule(167)
def one_kind(case: Case) -> Cause | None:
    """The least binding that is named with two kinds, and the first two entries that do so."""
    iface = case.call["iface"]
    for (group, binding), numbers in sorted(naming(case).items()):
        for number in numbers[1:]:
            one, other = iface[numbers[0]], iface[number]
            key = next((key for key in ("kind", *OF_KINDS) if one.get(key) != other.get(key)), None)
            if key is not None:
                words = [f"entry {place} of iface ({used.get('stage', 'compute')})" for place, used in ((numbers[0], one), (number, other))]
                said = (
                    f"{words[0]} and {words[1]} both name binding {binding} of group {group}: the {key} is {told(one[key])} in the first,"
                    f" and {told(other[key])} in the second"
                )
                values = {"entries": [numbers[0], number], "group": group, "binding": binding, "key": key, "has": [one[key], other[key]]}
                return Cause(
                    said,
                    {**values, "stages": [one.get("stage", "compute"), other.get("stage", "compute")]},
                    "Name it with one kind, or give one of them another binding.",
                )
    return None


# Of each rule of layouts that derived ones can break the cause by a layout and a case.
OF_LAYOUTS = {131: layouts.binding_limit, 133: layouts.vertex_writes, 134: layouts.multisampled, 135: layouts.storage_texture}


@rule(168)
def can_be_made(case: Case) -> Cause | None:
    remedy = "Groups are numbered from 0 to 3."
    found = first(
        at_most("group", used["group"], 3, remedy, f"entry {number} of iface: ") for number, used in enumerate(case.call["iface"])
    )
    if found:
        return found
    derived = case.second.automatic.merged(case.call["iface"])
    numbers = naming(case)
    for group, items in enumerate(derived):
        for number, cause_of in OF_LAYOUTS.items():
            cause = cause_of(layouts.Derived(case, group, items, numbers))
            if cause:
                return of_derived(cause, number)
    cause = layouts.seen(case, [(f"group {group}", items) for group, items in enumerate(derived)])
    return cause and of_derived(cause, 136 if any(layouts.seen(case, [(None, items)]) for items in derived) else 141)


def of_derived(cause: Cause, number: int) -> Cause:
    """A cause of a rule of layouts as one of the pipeline that derives them."""
    return Cause(f"the layouts that it derives break rule {number}: {cause.condition}", {**cause.values, "breaks": number}, cause.remedy)


@rule(169)
def group_of_pipeline(case: Case) -> Cause | None:
    pipeline, index = case.uses["pipeline"], case.call["index"]
    count = len(pipeline.layouts)
    derives = case.second.automatic.is_automatic(pipeline)
    has = plural(count, "group") if count else "no group"
    why = ", as its iface names none" if derives and not count else ", up to the greatest that its iface names" if derives else ""
    return Cause(
        f"index is {index}, and {case.named(pipeline)} has {has}{why}",
        {"index": index, "pipeline": pipeline.call["as"], "groups": count, "derived": derives},
        f"The greatest index is {count - 1}." if count else "Leave it out: the pipeline takes no bind group.",
    )
