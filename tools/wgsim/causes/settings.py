"""The rules of bind groups that are set in a pass, and of what is set where a dispatch or a draw comes."""

from __future__ import annotations

from typing import TYPE_CHECKING, Any, Dict, List, Tuple

from wgsim.reading import bits
from wgsim.reading.script import UNSETS

from .making import Cause, Values, at_most, first, listed, plural, rule

if TYPE_CHECKING:
    from model.history import Played
    from wgsim.causes.cases import Case

# A binding of a group that is set: the index and the group, what is asked of it, and what it touches.
Bound = Tuple[int, Any, Dict[str, Any], List[Any]]


@rule(325)
def index(case: Case) -> Cause | None:
    return at_most("index", case.call["index"], 3, "Bind groups are set at 0 to 3.")


@rule(326)
def offsets(case: Case) -> Cause | None:
    if "group" not in case.uses:
        return offsets_of_none(case)
    group = case.uses["group"]
    layout, given = group.uses["layout"], len(case.call["offsets"])
    bindings = sorted(entry["binding"] for entry in layout.entries if entry.get("dynamic"))
    if given == len(bindings):
        return None
    has = f"{plural(len(bindings), 'dynamic binding')}" + (f" ({listed(bindings)})" if bindings else "")
    values = {"offsets": given, "dynamic": bindings, "group": group.call["as"], "layout": layout.call["as"]}
    return Cause(
        f"offsets has {plural(given, 'item')}, and {case.named(layout)} of {case.named(group)} has {has}",
        values,
        f"Give {plural(len(bindings), 'offset')}." if bindings else "Leave offsets out.",
    )


def offsets_of_none(case: Case) -> Cause | None:
    """Offsets are given with the group null."""
    given = len(case.call["offsets"])
    if not given:
        return None
    said = f"offsets has {plural(given, 'item')}, and group is null, which takes no offset"
    return Cause(said, {"offsets": given, "group": None, "most": 0}, "Leave offsets out.")


@rule(327)
def offset_alignment(case: Case) -> Cause | None:
    for place, offset in enumerate(case.call["offsets"]):
        if offset % 256:
            low = offset - offset % 256
            return Cause(
                f"item {place} of offsets is {offset}, which is no multiple of 256",
                {"item": place, "offset": offset, "multipleOf": 256},
                f"The nearest multiples are {low} and {low + 256}.",
            )
    return None


@rule(328)
def moved(case: Case) -> Cause | None:
    """A range of a group does not fit its buffer, moved by its offset."""
    groups, group = case.second.groups, case.uses["group"]
    for asked, entry, thing, move in case.second.bound_groups.bindings(group, case.call["offsets"]):
        if asked["kind"] not in groups.BUFFER_KINDS:
            continue
        offset, size, _ = groups.range_of(entry, thing)
        end = move + offset + size
        if end > thing.call["size"]:
            said = (
                f"binding {entry['binding']} of {case.named(group)}: the offset {offset}, the given offset {move} and the size {size} end"
                f" at {end}, and {case.named(thing)} has {plural(thing.call['size'], 'byte')}"
            )
            values = {
                "group": group.call["as"],
                "binding": entry["binding"],
                "offset": offset,
                "given": move,
                "size": size,
                "end": end,
                "object": thing.call["as"],
                "bytes": thing.call["size"],
            }
            most = (thing.call["size"] - offset - size) // 256 * 256
            is_left_out = entry["size"] is None
            return Cause(said, values, "Give the entry of the group a size that leaves room." if is_left_out else f"Give at most {most}.")
    return None


@rule(340)
def pipeline(case: Case) -> Cause | None:
    if case.settings.pipeline is not None:
        return None
    place = case.uses["on"]
    values = {"pass": place.call["as"], "call": case.do}
    unset, again = unset_before(case, "setPipeline")
    return Cause(f"no pipeline is set on {case.named(place)} where the {case.do} comes{unset}", values, f"Set one {again}.")


def unset_before(case: Case, word: str, **keys: int) -> tuple[str, str]:
    """Words for the command that unset what one has set before, if there is such, be it by bundles or by null; and whether it is to be
    set before or again."""
    is_set, by = False, None
    for command in case.earlier:
        is_own = command.do == word and all(command.call[key] == held for key, held in keys.items())
        if is_own and is_setting(command):
            is_set = True
        elif is_set and (is_own or command.do == "executeBundles"):
            is_set, by = False, command
    return (f": the {by.do} at {case.place(by)} unset it", "again") if by else ("", "before")


def is_setting(command: Played) -> bool:
    """Whether a command sets something, and does not unset it by null."""
    return UNSETS.get(command.do, "on") in command.uses


class Asked:
    """A layout that a pipeline asks a group for: its index and entries, words for it, its name or None where it is derived, and the
    setBindGroup there, or None."""

    def __init__(self, case: Case, at: int, entries: list[dict[str, Any]]) -> None:
        pipeline = case.pipeline
        self.at = at
        self.entries = entries
        self.owner = case.second.automatic.owner_in_use(pipeline)
        self.setting = case.settings.groups.get(at)
        layout = None if self.owner else case.second.automatic.layouts_at(pipeline.uses["layout"])[at]
        self.name = layout.call["as"] if layout else None
        self.words = f"{case.named(pipeline)} asks there for " + (case.named(layout) if layout else "the layout that it derives")


def asked_groups(case: Case) -> list[Asked]:
    """Of each index at which the pipeline asks for a group what it asks."""
    return [Asked(case, at, entries) for at, entries in enumerate(case.pipeline.layouts) if entries]


@rule(341)
def groups_set(case: Case) -> Cause | None:
    pipeline = case.pipeline
    for asked in asked_groups(case):
        values = {"index": asked.at, "pipeline": pipeline.call["as"], "layout": asked.name}
        if asked.setting is None:
            unset, again = unset_before(case, "setBindGroup", index=asked.at)
            return Cause(f"no bind group is set at index {asked.at}, and {asked.words}{unset}", values, f"Set one {again}.")
        group = asked.setting.uses["group"]
        other = group.uses["layout"]
        set_there = f"{case.named(group)} is set at index {asked.at}, with {case.named(other)}, and {asked.words}: "
        values.update(group=group.call["as"], groupLayout=other.call["as"])
        cause = of_another(case, asked, other, set_there, values)
        if cause:
            return cause
        why = difference(asked.entries, other.entries)
        if why:
            group_of = f'"{asked.name}"' if asked.name else f"what getBindGroupLayout gives of {case.name(pipeline)} for {asked.at}"
            return Cause(set_there + why, {**values, "difference": why}, f"Make the group of {group_of}.")
    return None


def of_another(case: Case, asked: Asked, other: Played, set_there: str, values: Values) -> Cause | None:
    """A group's layout is one that another pipeline derived, or that none did where the one in use derives its own; or None."""
    if other.owner is asked.owner:
        return None
    pipeline = case.pipeline
    why = f"{case.named(other)} was got of {case.named(other.owner)}, which derived it for itself" if other.owner else "it takes no other's"
    owner = other.owner.call["as"] if other.owner else None
    remedy = (
        f"Make the group of a layout that getBindGroupLayout gives of {case.name(pipeline)}."
        if asked.owner
        else f'Make the group of "{asked.name}", or of a layout with the same entries that no pipeline derived.'
    )
    return Cause(set_there + why, {**values, "groupPipeline": owner, "difference": why}, remedy)


def difference(asked: list[dict[str, Any]], given: list[dict[str, Any]]) -> str | None:
    """In what the entries of two layouts differ, or None."""
    here = {entry["binding"]: entry for entry in given}
    if len(asked) != len(here):
        return f"{plural(len(asked), 'entry') if len(asked) == 1 else f'{len(asked)} entries'} there, and {len(here)} here"
    for entry in asked:
        other = here.get(entry["binding"])
        if other is None:
            return f"binding {entry['binding']} there, and none here"
        if other["kind"] != entry["kind"]:
            return f"binding {entry['binding']} is {entry['kind']} there, and {other['kind']} here"
        for key, value in entry.items():
            if other[key] != value:
                return f"binding {entry['binding']} has {key} {told(key, value)} there, and {told(key, other[key])} here"
    return None


def told(key: str, value: Any) -> object:
    if key == "visibility":
        return bits.said(value, bits.STAGES)
    return str(value).lower() if isinstance(value, bool) else value


@rule(342)
def overlaps(case: Case) -> Cause | None:
    """Two bindings overlap that one stage sees and of which one is written."""
    bound = []
    for place in asked_groups(case):
        assert place.setting is not None
        group = place.setting.uses["group"]
        for asked, entry, thing, move in case.second.bound_groups.bindings(group, place.setting.call["offsets"]):
            bound.append((place.at, group, asked, case.second.bound_groups.touches_of(asked, entry, thing, move)))
    for number, one in enumerate(bound):
        for other in bound[number + 1 :]:
            cause = overlap(case, one, other)
            if cause:
                return cause
    return None


def overlap(case: Case, one: Bound, other: Bound) -> Cause | None:
    (at, group, asked, touches), (other_at, other_group, other_asked, others) = one, other
    seen = asked["visibility"] & other_asked["visibility"]
    is_written = case.second.groups.is_written(asked) or case.second.groups.is_written(other_asked)
    if not seen or not is_written:
        return None
    both = [(cell, found) for cell, _, _ in touches for found, _, _ in others if case.second.cells.do_meet(cell, found)]
    if not both:
        return None
    cell, found = both[0]
    common = ("b", cell[1], max(cell[2], found[2]), min(cell[3], found[3])) if cell[0] == "b" else cell
    words = [
        f"binding {each['binding']} of {case.named(whose)} at index {where} ({each['kind']})"
        for where, whose, each in ((at, group, asked), (other_at, other_group, other_asked))
    ]
    said = (
        f"{words[0]} and {words[1]} overlap in {case.part(common)}, and"
        f" {bits.each(seen, bits.STAGES)} {'sees' if bin(seen).count('1') == 1 else 'see'} both"
    )
    values = {
        "groups": [group.call["as"], other_group.call["as"]],
        "indexes": [at, other_at],
        "bindings": [asked["binding"], other_asked["binding"]],
        "kinds": [asked["kind"], other_asked["kind"]],
    }
    return Cause(
        said,
        {**values, "visibility": seen, **case.part_values(common)},
        "Bind parts that have nothing in common, or both for reading alone.",
    )


@rule(343)
def counts(case: Case) -> Cause | None:
    remedy = "Spread the workgroups over x, y and z, or over several dispatches."
    return first(at_most(key, case.call[key], 65535, remedy) for key in ("x", "y", "z"))
