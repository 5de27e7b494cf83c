"""The rules of createComputePipeline and createRenderPipeline."""

from __future__ import annotations

from typing import TYPE_CHECKING, Any, Dict, Tuple

from wgsim.reading import bits

from .layouts import twice
from .making import Cause, Values, first, limited, listed, plural, rule

if TYPE_CHECKING:
    from model.history import Played
    from wgsim.causes.cases import Case

MOST_COLORS = 8
# An attribute: words for it, the numbers of its buffer and of itself, itself, and its buffer.
Attribute = Tuple[str, int, int, Dict[str, Any], Dict[str, Any]]
OF_KINDS = ("type", "sample", "dim", "multi", "access", "format")


def told(value: object) -> object:
    """A value as a script has it."""
    return str(value).lower() if isinstance(value, bool) else value


@rule(160)
def interface(case: Case) -> Cause | None:
    layout = case.uses["layout"]
    for number, used in enumerate(case.call["iface"]):
        where = f"entry {number} of iface (group {used['group']}, binding {used['binding']}): "
        found = unused(case, layout, used)
        if found:
            condition, values, remedy = found
            return Cause(where + condition, {"entry": number, "group": used["group"], "binding": used["binding"], **values}, remedy)
    return None


def unused(case: Case, layout: Played, used: dict[str, Any]) -> tuple[str, Values, str] | None:
    """What a pipeline layout does not offer to an entry of the interface: a condition with its values and a remedy, or None."""
    layouts = case.second.automatic.layouts_at(layout)
    if used["group"] >= len(layouts):
        return (
            f"{case.named(layout)} has {plural(len(layouts), 'layout')}, and none at {used['group']}",
            {"layout": layout.call["as"], "layouts": len(layouts)},
            f"Give {case.name(layout)} a layout at {used['group']}, or name another group.",
        )
    group = layouts[used["group"]]
    if group is None:
        return (
            f"item {used['group']} of the layouts of {case.named(layout)} is null, which has no binding",
            {"layout": layout.call["as"], "item": used["group"], "has": []},
            f"Give {case.name(layout)} a layout at {used['group']}, or name another group.",
        )
    has = {entry["binding"]: entry for entry in group.entries}
    found, stage = has.get(used["binding"]), used.get("stage", "compute")
    if found is None:
        return (
            f"{case.named(group)} has no binding {used['binding']}" + (f"; it has {listed(has)}" if has else ""),
            {"layout": group.call["as"], "has": list(has)},
            f"Add it to {case.name(group)}, or name another binding.",
        )
    bit = case.second.groups.STAGES[stage]
    if not found["visibility"] & bit:
        seen = found["visibility"]
        values = {
            "layout": group.call["as"],
            "visibility": seen,
            "visibilityWords": bits.words(seen, bits.STAGES),
            "missing": bit,
            "missingWord": stage.upper(),
        }
        return (
            f"{case.named(group)} has the visibility {bits.said(seen, bits.STAGES)} there, and {bits.one(bit, bits.STAGES)} is missing",
            values,
            f"Add it where {case.name(group)} is made.",
        )
    for key in ("kind", *OF_KINDS):
        if key in used and found.get(key) != used[key]:
            return (
                f"the {key} is {told(used[key])}, and {told(found[key])} in {case.named(group)}",
                {"key": key, "asked": used[key], "has": found[key], "layout": group.call["as"]},
                f"Make {case.name(group)} with the {key} {told(used[key])}, or name it with {told(found[key])}.",
            )
    return None


def buffers_of(case: Case) -> list[tuple[int, dict[str, Any]]]:
    return case.second.draws.read_slots(case.call)


def attributes_of(case: Case) -> list[Attribute]:
    """All attributes, each with the numbers of its buffer and of itself, words for it, and its buffer."""
    return [
        (f"attribute {number} of buffer {place}: ", place, number, attribute, one)
        for place, one in buffers_of(case)
        for number, attribute in enumerate(one["attributes"])
    ]


@rule(161)
def vertex_buffers(case: Case) -> Cause | None:
    buffers, attributes = case.call["buffers"], attributes_of(case)
    if len(buffers) > 8:
        return Cause(
            f"buffers has {len(buffers)} vertex buffers, and at most 8 are allowed",
            {"buffers": len(buffers), "most": 8},
            "Put the attributes of several into one buffer.",
        )
    most, widest = case.history.limits["maxVertexAttributes"], case.history.limits["maxVertexBufferArrayStride"]
    if len(attributes) > most:
        said = f"the vertex buffers have {len(attributes)} attributes together, and at most {most} are allowed"
        return limited("maxVertexAttributes", len(attributes), Cause(said, {"attributes": len(attributes), "most": most}, None))
    for place, one in buffers_of(case):
        stride, low = one["stride"], one["stride"] - one["stride"] % 4
        if stride % 4:
            return Cause(
                f"buffer {place} has the stride {stride}, which is no multiple of 4",
                {"buffer": place, "stride": stride, "multipleOf": 4},
                f"The nearest multiples are {low} and {low + 4}.",
            )
        if stride > widest:
            said = f"buffer {place} has the stride {stride}, and at most {widest} is allowed"
            return limited("maxVertexBufferArrayStride", stride, Cause(said, {"buffer": place, "stride": stride, "most": widest}, None))
    return None


@rule(162)
def attributes(case: Case) -> Cause | None:
    found, most = attributes_of(case), case.history.limits["maxVertexAttributes"] - 1
    for where, place, number, attribute, _ in found:
        if attribute["location"] > most:
            cause = Cause(
                f"{where}the location is {attribute['location']}, and the greatest is {most}",
                {"buffer": place, "attribute": number, "location": attribute["location"], "most": most},
                None,
            )
            return limited("maxVertexAttributes", attribute["location"] + 1, cause)
    pair = twice([attribute["location"] for _, _, _, attribute, _ in found])
    if pair:
        one, other = found[pair[0]], found[pair[1]]
        location = one[3]["location"]
        return Cause(
            f"attribute {one[2]} of buffer {one[1]} and attribute {other[2]} of buffer {other[1]} both have the location {location}",
            {"location": location, "buffers": [one[1], other[1]], "attributes": [one[2], other[2]]},
            "Give each a location of its own.",
        )
    return first(placed(case, *each) for each in found)


def placed(case: Case, where: str, place: int, number: int, attribute: dict[str, Any], one: dict[str, Any]) -> Cause | None:
    """An attribute ends past its stride, or stands at an odd offset."""
    size, offset = case.second.formats.VERTEX_FORMATS[attribute["format"]], attribute["offset"]
    values, widest = {
        "buffer": place,
        "attribute": number,
        "offset": offset,
        "format": attribute["format"],
        "bytes": size,
    }, case.history.limits["maxVertexBufferArrayStride"]
    most = one["stride"] or widest
    if offset + size > most:
        limit = f"the stride is {one['stride']}" if one["stride"] else f"the stride is 0, where at most {widest} is allowed"
        cause = Cause(
            f"{where}{attribute['format']} at offset {offset} ends at {offset} + {size} = {offset + size}, and {limit}",
            {**values, "end": offset + size, "most": most},
            f"Give a stride of at least {offset + size}, or a smaller offset." if one["stride"] else None,
        )
        return cause if one["stride"] else limited("maxVertexBufferArrayStride", offset + size, cause)
    step = min(4, size)
    if offset % step:
        return Cause(
            f"{where}the offset {offset} of {attribute['format']} is no multiple of {step}",
            {**values, "multipleOf": step},
            f"The nearest multiples are {offset - offset % step} and {offset - offset % step + step}.",
        )
    return None


def formats_of(case: Case) -> list[str | None]:
    """The format of each target, or None where it is null."""
    return case.second.fixed_function.target_formats(case.call)


@rule(163)
def targets(case: Case) -> Cause | None:
    return wrong_colors(case, "target", formats_of(case))


def wrong_colors(case: Case, word: str, formats: list[str | None]) -> Cause | None:
    """What is wrong with the formats of targets of a pipeline, or of colors of a bundle encoder, where some may be null: there are too
    many, or one has no color."""
    if len(formats) > MOST_COLORS:
        return Cause(
            f"{word}s has {len(formats)} items, and at most {MOST_COLORS} are allowed",
            {f"{word}s": len(formats), "most": MOST_COLORS},
            "Draw to the others in a pass of their own.",
        )
    for place, format in enumerate(formats):
        if format is not None and not case.second.formats.is_color(format):
            return Cause(
                f"{word} {place} is {format}, which has {case.aspects(format)} and no color",
                {word: place, "format": format},
                "Give it as the format of depth." if word == "target" else "Give it as depth.",
            )
    return None


@rule(164)
def depth(case: Case) -> Cause | None:
    state = case.call["depth"]
    if state is None:
        return None
    format, aspects = state["format"], case.second.formats.aspects_of(state["format"])
    if "color" in aspects:
        return Cause(
            f"the format of depth is {format}, which has color, and neither depth nor stencil",
            {"format": format},
            "Give it among the targets.",
        )
    for key, aspect in (("depthWrite", "depth"), ("stencilWrite", "stencil")):
        if state.get(key) is True and aspect not in aspects:
            return Cause(
                f"{key} is true, and {format} has {case.aspects(format)} alone",
                {"key": key, "format": format, "missing": aspect},
                f"Leave {key} out, or take a format with {aspect}.",
            )
    return None


@rule(165)
def something(case: Case) -> Cause | None:
    return nothing(case, "target", formats_of(case))


def nothing(case: Case, word: str, formats: list[str | None]) -> Cause | None:
    """Nothing is drawn to."""
    if case.call["depth"] is not None or any(format is not None for format in formats):
        return None
    given = f"{word}s is empty" if not formats else f"each {word} is null"
    return Cause(
        f"{given}, and depth is left out, so that nothing is drawn to",
        {f"{word}s": len(formats), "depth": False},
        f"Give a {word} or depth.",
    )


@rule(166)
def samples(case: Case) -> Cause | None:
    depth = case.call["depth"]
    return wrong_samples(case, "target", formats_of(case), depth and depth["format"])


def wrong_samples(case: Case, word: str, formats: list[str | None], depth: str | None) -> Cause | None:
    """What is wrong with a count of samples: it is none, or a format does not allow it."""
    count = case.call["samples"]
    if count not in (1, 4):
        return Cause(f"samples is {count}, and 1 or 4 is asked for", {"samples": count, "allowed": [1, 4]}, "Take 1 or 4.")
    drawn = [(f"{word} {place}", format) for place, format in enumerate(formats) if format is not None]
    drawn += [("depth", depth)] if depth is not None else []
    for where, format in drawn:
        if count == 4 and not case.second.formats.may_have_four_samples(format):
            allowed = [name for name in case.second.formats.FORMATS if case.second.formats.may_have_four_samples(name)]
            return Cause(
                f"samples is 4, and {where} is {format}, which has 1 sample alone",
                {"samples": 4, "where": where, "format": format, "allowed": allowed},
                f"Formats with 4 samples are {listed(allowed)}.",
            )
    return None
