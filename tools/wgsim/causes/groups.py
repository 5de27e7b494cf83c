"""The rules of createBindGroup."""

from __future__ import annotations

from typing import TYPE_CHECKING, Any

from .layouts import twice
from .making import Cause, Values, first, fits, lacks, limited, listed, multiple, rule, with_left_out

if TYPE_CHECKING:
    from model.history import Played
    from wgsim.causes.cases import Case

# In words, what an entry of a bind group may hold.
HOLDS = {"buffer": "a buffer", "view": "a view", "sampler": "a sampler"}
TEXTURE_BINDING, STORAGE_BINDING = 4, 8


class Bound:
    """An entry of a bind group: its number, the layout's entry of its binding, what it holds, and words for it."""

    def __init__(self, number: int, asked: dict[str, Any], entry: dict[str, Any], thing: Played) -> None:
        self.number = number
        self.asked = asked
        self.entry = entry
        self.thing = thing
        self.words = f"entry {number} (binding {entry['binding']}): "
        self.values = {"entry": number, "binding": entry["binding"]}

    def cause(self, condition: str, values: Values, remedy: str | None) -> Cause:
        return Cause(self.words + condition, {**self.values, **values}, remedy)


def bound(case: Case, *kinds: str) -> list[Bound]:
    """The entries of a bind group whose layout asks for some kinds, or all."""
    asked = {entry["binding"]: entry for entry in case.uses["layout"].entries}
    pairs = zip(case.call["entries"], case.uses["entries"])
    found = [Bound(number, asked[entry["binding"]], entry, thing) for number, (entry, thing) in enumerate(pairs)]
    return [each for each in found if not kinds or each.asked["kind"] in kinds]


def with_values(cause: Cause | None, one: Bound) -> Cause | None:
    """A cause with the numbers of its entry."""
    if cause is not None:
        cause.values = {**one.values, **cause.values}
    return cause


@rule(150)
def bindings(case: Case) -> Cause | None:
    layout = case.uses["layout"]
    asked, given = [entry["binding"] for entry in layout.entries], [entry["binding"] for entry in case.call["entries"]]
    missing = [binding for binding in asked if binding not in given]
    if missing:
        many = f"the binding {missing[0]}" if len(missing) == 1 else f"the bindings {listed(missing)}"
        return Cause(
            f"{case.named(layout)} has {many}, and no entry has {'it' if len(missing) == 1 else 'them'}",
            {"layout": layout.call["as"], "missing": missing, "given": given},
            f"Add {'an entry for it' if len(missing) == 1 else 'entries for them'}.",
        )
    pair = twice(given)
    if pair:
        return Cause(
            f"entries {pair[0]} and {pair[1]} both have the binding {given[pair[0]]}",
            {"entries": list(pair), "binding": given[pair[0]]},
            "Leave one of them out.",
        )
    for number, binding in enumerate(given):
        if binding not in asked:
            return Cause(
                f"entry {number} has the binding {binding}, and {case.named(layout)} has {listed(asked)}",
                {"entry": number, "binding": binding, "layout": layout.call["as"], "has": asked},
                "Leave it out: no shader of the pipeline that derived the layout uses it."
                if layout.owner
                else "Leave it out, or add it to the layout.",
            )
    return None


@rule(151)
def holds(case: Case) -> Cause | None:
    for one in bound(case):
        key, wanted = case.second.calls.bound_by(one.entry), case.second.groups.WANTED[one.asked["kind"]]
        if key != wanted:
            layout = case.uses["layout"]
            asks = HOLDS[wanted] + (f" as {one.asked['kind']}" if one.asked["kind"] != wanted else "")
            said = f"it holds {HOLDS[key]}, {case.named(one.thing)}, and {case.named(layout)} asks for {asks}"
            values = {"holds": key, "object": one.entry[key], "asked": wanted, "kind": one.asked["kind"]}
            return one.cause(said, values, f"Give it {HOLDS[wanted]}, or another binding.")
    return None


@rule(152)
def buffer_usage(case: Case) -> Cause | None:
    kinds = case.second.groups.BUFFER_KINDS
    return first(with_values(lacks(case, one.thing, kinds[one.asked["kind"]][0], one.words), one) for one in bound(case, *kinds))


def ranges(case: Case) -> list[tuple[Bound, int, int, bool]]:
    """The entries that bind buffers, each with its offset, size, and whether the size is left out."""
    groups = case.second.groups
    found = [(one, groups.range_of(one.entry, one.thing)) for one in bound(case, *groups.BUFFER_KINDS)]
    return [(one, offset, size, one.entry["size"] is None) for one, (offset, size, _) in found]


@rule(153)
def buffer_range(case: Case) -> Cause | None:
    for one, offset, size, is_left_out in ranges(case):
        cause = multiple("offset", offset, 256, one.words)
        if cause is None and size == 0:
            cause = one.cause(
                (
                    f"{with_left_out('size', 0, is_left_out)} is nothing to bind, at offset {offset} of {case.named(one.thing)}, which has"
                    f" {one.thing.call['size']} bytes"
                ),
                {"offset": offset, "size": 0, "bytes": one.thing.call["size"]},
                f"Take an offset below {one.thing.call['size']}, or make the buffer larger." if is_left_out else "Leave the size out.",
            )
        cause = cause or fits(case, one.thing, offset, size, is_left_out=is_left_out, where=one.words)
        if cause:
            return with_values(cause, one)
    return None


@rule(154)
def buffer_size(case: Case) -> Cause | None:
    groups, layout = case.second.groups, case.uses["layout"]
    for one, offset, size, is_left_out in ranges(case):
        kind, limit = one.asked["kind"], groups.BUFFER_KINDS[one.asked["kind"]][1]
        most = case.history.limits[limit]
        told, values = with_left_out("size", size, is_left_out), {"size": size, "kind": kind}
        if size > most:
            cause = one.cause(
                f"{told} is above {most}, the most of a {kind} binding",
                {**values, "most": most},
                f"Give a size of at most {most}." if is_left_out else None,
            )
            return limited(limit, size, cause)
        if kind in groups.STORAGE_KINDS and size % 4:
            return one.cause(
                f"{told} is no multiple of 4, as {kind} asks",
                {**values, "multipleOf": 4},
                f"The nearest multiples are {size - size % 4} and {size - size % 4 + 4}.",
            )
        if size < one.asked["minSize"]:
            return one.cause(
                f"{told} is below the minSize {one.asked['minSize']} of {case.named(layout)}",
                {**values, "least": one.asked["minSize"], "layout": layout.call["as"]},
                to_be_large(case, one, offset),
            )
    return None


def to_be_large(case: Case, one: Bound, offset: int) -> str:
    """What to do where fewer bytes are bound than the shader reads: the buffer may have them, or has to be made with them."""
    least = one.asked["minSize"]
    if offset + least <= one.thing.call["size"]:
        return f"Bind at least {least} bytes."
    return f"Make {case.name(one.thing)} with at least {offset + least} bytes."


@rule(155)
def sampled(case: Case) -> Cause | None:
    return first(sampled_one(case, one) for one in bound(case, "texture"))


def sampled_one(case: Case, one: Bound) -> Cause | None:
    """What is wrong with a view that is to be sampled."""
    formats, layout = case.second.formats, case.uses["layout"]
    texture, view = one.thing.uses["texture"], case.second.textures.told(one.thing)
    lacking = lacks(case, texture, TEXTURE_BINDING, one.words)
    if lacking:
        return with_values(lacking, one)
    format, name = texture.call["format"], case.named(one.thing)
    aspects = formats.named_aspects(format, view["aspect"])
    if len(aspects) != 1:
        return one.cause(
            f"{name} has the aspects {listed(aspects)} of {format}, and one is asked for",
            {"view": one.thing.call["as"], "format": format, "aspects": list(aspects)},
            "Make a view with the aspect depth-only or stencil-only.",
        )
    has = formats.sampled_as(format, aspects[0])
    asks = f"{case.named(layout)} asks for"
    if not case.second.groups.takes_sample(one.asked["sample"], has):
        return one.cause(
            f"{name} of {format} is sampled as {has}, and {asks} {one.asked['sample']}",
            {"view": one.thing.call["as"], "format": format, "sampled": has, "asked": one.asked["sample"]},
            f"Take the sample {has} in the layout, or a texture of a format that is sampled as {one.asked['sample']}.",
        )
    if view["dim"] != one.asked["dim"]:
        return one.cause(
            f"{name} has the dim {view['dim']}, and {asks} {one.asked['dim']}",
            {"view": one.thing.call["as"], "dim": view["dim"], "asked": one.asked["dim"]},
            f"Make a view with the dim {one.asked['dim']}.",
        )
    samples = texture.call["samples"]
    if (samples == 4) != one.asked["multi"]:
        told, told_other = ("true", "false") if one.asked["multi"] else ("false", "true")
        return one.cause(
            f"{case.named(texture)} has {samples} sample{'s' * (samples != 1)}, and {case.named(layout)} has multi {told}",
            {"object": texture.call["as"], "samples": samples, "multi": one.asked["multi"]},
            f"Make the texture with samples {4 if one.asked['multi'] else 1}, or the layout with multi {told_other}.",
        )
    return None


@rule(156)
def stored(case: Case) -> Cause | None:
    layout = case.uses["layout"]
    for one in bound(case, "storage-texture"):
        texture, view, name = one.thing.uses["texture"], case.second.textures.told(one.thing), case.named(one.thing)
        lacking = lacks(case, texture, STORAGE_BINDING, one.words)
        if lacking:
            return with_values(lacking, one)
        if view["mips"] != 1:
            return one.cause(
                f"{name} has {view['mips']} mip levels, and one is asked for",
                {"view": one.thing.call["as"], "mips": view["mips"], "asked": 1},
                "Make a view with mips 1.",
            )
        for key, has in (("format", texture.call["format"]), ("dim", view["dim"])):
            if has != one.asked[key]:
                return one.cause(
                    f"{name} has the {key} {has}, and {case.named(layout)} asks for {one.asked[key]}",
                    {"view": one.thing.call["as"], key: has, "asked": one.asked[key]},
                    f"Make the {'texture' if key == 'format' else 'view'} with the {key} {one.asked[key]}.",
                )
    return None


@rule(157)
def samplers(case: Case) -> Cause | None:
    for one in bound(case, "sampler"):
        kind, asked = case.second.fixed_function.kind_of_sampler(one.thing.call), one.asked["type"]
        if not case.second.groups.takes_sampler(asked, kind):
            will = "filtering or non-filtering" if asked == "filtering" else asked
            return one.cause(
                f"{case.named(one.thing)} is a {kind} sampler, and {case.named(case.uses['layout'])} asks for {asked}",
                {"object": one.thing.call["as"], "kind": kind, "asked": asked},
                f"A {will} sampler will do.",
            )
    return None
