"""The rules of createBindGroupLayout and createPipelineLayout."""

from __future__ import annotations

from typing import TYPE_CHECKING, Any, Dict, List, Optional, Tuple

from wgsim.reading import bits

from .making import Cause, Values, limited, listed, plural, rule

if TYPE_CHECKING:
    from wgsim.causes.cases import Case


# Words for some layouts, or None, each with the entries.
Layouts = List[Tuple[Optional[str], List[Dict[str, Any]]]]


class Derived:
    """A layout that a pipeline derives, in place of a case of createBindGroupLayout: its entries, and of each binding the numbers of the
    entries of the interface that name it."""

    def __init__(self, case: Case, group: int, items: list[dict[str, Any]], naming: dict[tuple[int, int], list[int]]) -> None:
        self.second = case.second
        self.history = case.history
        self.group = group
        self.call = {"entries": items}
        self.naming = naming

    def entries(self) -> list[tuple[str, int, dict[str, Any]]]:
        """The entries with the words and numbers that a cause tells of them: those of the entry of the interface that names each first."""
        return [(self.said(entry["binding"]), self.naming[self.group, entry["binding"]][0], entry) for entry in self.call["entries"]]

    def said(self, binding: int) -> str:
        numbers = self.naming[self.group, binding]
        return f"binding {binding} of group {self.group} ({'entry' if len(numbers) == 1 else 'entries'} {listed(numbers)} of iface)"


def entries(case: Case | Derived) -> list[tuple[str, int, dict[str, Any]]]:
    """The entries of a bind group layout, each with words for it."""
    if isinstance(case, Derived):
        return case.entries()
    return [(f"entry {number} (binding {entry['binding']})", number, entry) for number, entry in enumerate(case.call["entries"])]


def twice(numbers: list[int]) -> tuple[int, int] | None:
    """The places of the first two of some numbers that are equal, or None."""
    seen = {}
    for place, number in enumerate(numbers):
        if number in seen:
            return seen[number], place
        seen[number] = place
    return None


@rule(130)
def distinct(case: Case | Derived) -> Cause | None:
    found = twice([entry["binding"] for _, _, entry in entries(case)])
    if found is None:
        return None
    binding = case.call["entries"][found[0]]["binding"]
    return Cause(
        f"entries {found[0]} and {found[1]} both have the binding {binding}",
        {"entries": list(found), "binding": binding},
        "Give each a binding of its own.",
    )


@rule(131)
def binding_limit(case: Case | Derived) -> Cause | None:
    most = case.history.limits["maxBindingsPerBindGroup"] - 1
    for _, number, entry in entries(case):
        if entry["binding"] > most:
            cause = Cause(
                f"entry {number}{of_iface(case)} has the binding {entry['binding']}, and the greatest is {most}",
                {"entry": number, "binding": entry["binding"], "most": most},
                None,
            )
            return limited("maxBindingsPerBindGroup", entry["binding"] + 1, cause)
    return None


def of_iface(case: Case | Derived) -> str:
    return " of iface" if isinstance(case, Derived) else ""


@rule(132)
def visibility(case: Case | Derived) -> Cause | None:
    for said, number, entry in entries(case):
        seen, unknown = entry["visibility"], entry["visibility"] & ~7
        if seen > 7:
            return Cause(
                f"{said} has the visibility {bits.said(seen, bits.STAGES)}; {unknown} is no stage",
                {"entry": number, "binding": entry["binding"], "visibility": seen, "unknown": unknown, "most": 7},
                f"Take {unknown} away.",
            )
    return None


@rule(133)
def vertex_writes(case: Case | Derived) -> Cause | None:
    for said, number, entry in entries(case):
        if entry["visibility"] & 1 and case.second.groups.is_written(entry):
            what = "kind storage" if entry["kind"] == "storage" else f"kind storage-texture, the access {entry['access']}"
            values = {
                "entry": number,
                "binding": entry["binding"],
                "kind": entry["kind"],
                "visibility": entry["visibility"],
                "visibilityWords": bits.words(entry["visibility"], bits.STAGES),
            }
            other = "read-only-storage" if entry["kind"] == "storage" else "read-only"
            return Cause(
                (
                    f"{said} has the {what} and the visibility {bits.said(entry['visibility'], bits.STAGES)}, and VERTEX (1) may not see"
                    " what is written"
                ),
                values,
                f"{'Let no entry of the vertex stage name it' if isinstance(case, Derived) else 'Take VERTEX away'}, or make it {other}.",
            )
    return None


@rule(134)
def multisampled(case: Case | Derived) -> Cause | None:
    for said, number, entry in entries(case):
        if entry["kind"] == "texture" and entry["multi"]:
            values = {"entry": number, "binding": entry["binding"], "dim": entry["dim"], "sample": entry["sample"]}
            if entry["dim"] != "2d":
                return Cause(f"{said} has multi true and the dim {entry['dim']}, where 2d is asked for", values, "Take the dim 2d.")
            if entry["sample"] == "float":
                return Cause(
                    f"{said} has multi true and the sample type float, which cannot be filtered with several samples",
                    values,
                    "Take unfilterable-float.",
                )
    return None


@rule(135)
def storage_texture(case: Case | Derived) -> Cause | None:
    for said, number, entry in entries(case):
        if entry["kind"] != "storage-texture":
            continue
        values = {"entry": number, "binding": entry["binding"], "dim": entry["dim"], "format": entry["format"], "access": entry["access"]}
        if entry["dim"] in ("cube", "cube-array"):
            return Cause(f"{said} is a storage-texture with the dim {entry['dim']}", values, "Take the dim 2d-array.")
        formats = case.second.formats
        if not formats.has_access(entry["format"], entry["access"]):
            allowed = [name for name in formats.FORMATS if formats.has_access(name, entry["access"])]
            return Cause(
                f"{said} has the format {entry['format']}, which has no {entry['access']} access",
                {**values, "allowed": allowed},
                f"Formats that have it are {listed(allowed)}.",
            )
    return None


def seen(case: Case | Derived, layouts: Layouts) -> Cause | None:
    """Rules 136 and 141: what a stage sees too much of. `layouts` are pairs of words for a layout, or None, and its entries."""
    groups = case.second.groups
    for stage, bit in groups.STAGES.items():
        for kinds, limit in groups.SEEN_LIMITS.values():
            counts = [(said, sum(entry["kind"] in kinds and entry["visibility"] & bit != 0 for entry in items)) for said, items in layouts]
            cause = too_many(
                case,
                counts,
                limit,
                f"{stage.upper()} ({bit}) sees",
                f"of {' and '.join(kinds)}",
                {"stage": bit, "stageWord": stage.upper(), "kinds": list(kinds)},
            )
            if cause:
                return cause
    return None


def dynamic(case: Case | Derived, layouts: Layouts) -> Cause | None:
    """Rules 137 and 142: what is dynamic too often."""
    for kinds, limit in case.second.groups.DYNAMIC_LIMITS.values():
        counts = [(said, sum(entry["kind"] in kinds and entry["dynamic"] for entry in items)) for said, items in layouts]
        cause = too_many(case, counts, limit, "", f"of {' and '.join(kinds)} with dynamic true", {"kinds": list(kinds)})
        if cause:
            return cause
    return None


def too_many(
    case: Case | Derived, counts: list[tuple[str | None, int]], limit: str, before: str, after: str, values: Values
) -> Cause | None:
    total, most = sum(number for _, number in counts), case.history.limits[limit]
    if total <= most:
        return None
    by = ": " + listed(f"{number} in {said}" for said, number in counts if said and number) if counts[0][0] else ""
    many = f"{plural(total, 'entry') if total == 1 else f'{total} entries'} {after}"
    said = f"{before} {many}" if before else f"there are {many}"
    return limited(limit, total, Cause(f"{said}, and at most {most} are allowed{by}", {**values, "count": total, "most": most}, None))


@rule(136)
def seen_of_one(case: Case) -> Cause | None:
    return seen(case, [(None, case.call["entries"])])


@rule(137)
def dynamic_of_one(case: Case) -> Cause | None:
    return dynamic(case, [(None, case.call["entries"])])


def layouts_of(case: Case) -> Layouts:
    return [(case.named(layout), layout.entries) for layout in case.uses["layouts"]]


@rule(140)
def layouts(case: Case) -> Cause | None:
    count, nulls = len(case.call["layouts"]), case.call["layouts"].count(None)
    if count <= 4:
        return None
    of_which = f", of which {nulls} {'is' if nulls == 1 else 'are'} null," if nulls else ","
    return Cause(
        f"layouts has {count} items{of_which} and at most 4 are allowed",
        {"layouts": count, "nulls": nulls, "most": 4},
        "Put the entries of several layouts into one.",
    )


@rule(141)
def seen_of_all(case: Case) -> Cause | None:
    return seen(case, layouts_of(case))


@rule(142)
def dynamic_of_all(case: Case) -> Cause | None:
    return dynamic(case, layouts_of(case))


@rule(143)
def exclusive(case: Case) -> Cause | None:
    for place, layout in enumerate(case.second.automatic.layouts_at(case.played)):
        if layout is not None and layout.owner is not None:
            return Cause(
                (
                    f"{case.named(layout)}, which is item {place} of layouts, was got of {case.named(layout.owner)}, which derived it for"
                    " itself"
                ),
                {"item": place, "layout": layout.call["as"], "pipeline": layout.owner.call["as"]},
                "Make a layout of the same entries by createBindGroupLayout.",
            )
    return None
