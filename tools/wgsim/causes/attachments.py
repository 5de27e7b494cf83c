"""The rules of what is attached to a render pass, and of a pipeline that is set in one."""

from __future__ import annotations

from typing import TYPE_CHECKING, Any

from .making import Cause, first, lacks, plural, rule

if TYPE_CHECKING:
    from model.forms import Cell
    from model.history import Played
    from wgsim.causes.cases import Case

RENDER_ATTACHMENT = 16
FLAT = ("2d", "2d-array")
ASPECT_KEYS = {"depth": ("depthLoad", "depthStore", "depthReadOnly"), "stencil": ("stencilLoad", "stencilStore", "stencilReadOnly")}


def colors(case: Case) -> list[tuple[int, dict[str, Any], Played, Played | None]]:
    """The colors that are not null, each with its place, itself, its view and its resolve view or None."""
    places = [place for place, color in enumerate(case.call["colors"]) if color is not None]
    found = case.second.attachments.colors_of(case.played)
    return [(place, color, view, resolve) for place, (color, view, resolve) in zip(places, found)]


def depth_view(case: Case) -> Played | None:
    return next(iter(case.second.attachments.depth_of(case.played)), None)


def attached(case: Case) -> list[tuple[str, Played]]:
    """All that is attached but resolve views: words and view."""
    views = [(f"color {place}", view) for place, _, view, _ in colors(case)]
    return views + [("depth", view) for view in case.second.attachments.depth_of(case.played)]


@rule(300)
def most_colors(case: Case) -> Cause | None:
    count = len(case.call["colors"])
    if count <= 8:
        return None
    return Cause(
        f"colors has {count} items, and at most 8 are allowed", {"colors": count, "most": 8}, "Attach the others in a pass of their own."
    )


@rule(301)
def something(case: Case) -> Cause | None:
    if colors(case) or depth_view(case):
        return None
    given = "colors is empty" if not case.call["colors"] else "each color is null"
    return Cause(
        f"{given}, and depth is left out, so that nothing is attached",
        {"colors": len(case.call["colors"]), "depth": False},
        "Attach a color or depth.",
    )


def color_view(case: Case, where: str, view: Played, dims: tuple[str, ...]) -> Cause | None:
    """What rule 302 asks of the view of a color, and rule 307, of fewer dimensions, of a resolve view."""
    texture = view.uses["texture"]
    lacking = lacks(case, texture, RENDER_ATTACHMENT, f"{where}: ")
    if lacking:
        return lacking
    format = texture.call["format"]
    if not case.second.formats.is_color(format):
        return Cause(
            f"{where}: {case.named(view)} has the format {format}, which has {case.aspects(format)} and no color",
            {"view": view.call["as"], "format": format},
            "Attach it as depth." if where.startswith("color") else "Resolve to a view of a format that has color.",
        )
    return flat(case, where, view, dims)


def flat(case: Case, where: str, view: Played, dims: tuple[str, ...]) -> Cause | None:
    """A view that is attached is of one of some dimensions, with one mip level and one layer."""
    told = case.second.textures.told(view)
    if told["dim"] not in dims:
        asked = " or ".join([", ".join(dims[:-1]), dims[-1]])
        return Cause(
            f"{where}: {case.named(view)} has the dim {told['dim']}, and {asked} is asked for",
            {"view": view.call["as"], "dim": told["dim"], "allowed": list(dims)},
            f"Attach a view with the dim {dims[0]}.",
        )
    for key, word in (("mips", "mip level"), ("layers", "layer")):
        if told[key] != 1:
            return Cause(
                f"{where}: {case.named(view)} has {plural(told[key], word)}, and 1 is asked for",
                {"view": view.call["as"], key: told[key], "asked": 1},
                f"Make a view with {key} 1.",
            )
    return None


@rule(302)
def color_views(case: Case) -> Cause | None:
    return first(color_view(case, f"color {place}", view, ("2d", "2d-array", "3d")) for place, _, view, _ in colors(case))


@rule(308)
def slices(case: Case) -> Cause | None:
    return first(slice_of(case, place, color["depthSlice"], view) for place, color, view, _ in colors(case))


def slice_of(case: Case, place: int, number: int | None, view: Played) -> Cause | None:
    """A slice is given of a 3d view alone, and the mip level has it."""
    told = case.second.textures.told(view)
    dim, depth = told["dim"], case.second.attachments.depth_of_level(view)
    values = {"color": place, "view": view.call["as"], "dim": dim, "depthSlice": number}
    if dim != "3d":
        said = f"color {place}: {case.named(view)} has the dim {dim}, which has no slices, and depthSlice is {number}"
        return None if number is None else Cause(said, values, "Leave depthSlice out; a layer is chosen by baseLayer of the view.")
    values = {**values, "mip": told["baseMip"], "slices": depth}
    if number is None:
        said = f"color {place}: {case.named(view)} has the dim 3d, and depthSlice is left out"
        return Cause(said, values, f"Give one from 0 to {depth - 1}." if depth > 1 else "Give 0, which is the only slice.")
    if number >= depth:
        said = (
            f"color {place}: depthSlice is {number}, and mip level {told['baseMip']} of {case.named(view.uses['texture'])}, to which"
            f" {case.named(view)} looks, has {plural(depth, 'slice')}"
        )
        return Cause(said, {**values, "most": depth - 1}, f"The greatest is {depth - 1}.")
    return None


@rule(303)
def depth_views(case: Case) -> Cause | None:
    view = depth_view(case)
    if view is None:
        return None
    texture, formats = view.uses["texture"], case.second.formats
    lacking = lacks(case, texture, RENDER_ATTACHMENT, "depth: ")
    if lacking:
        return lacking
    format, aspect = texture.call["format"], case.second.textures.told(view)["aspect"]
    if formats.is_color(format):
        return Cause(
            f"depth: {case.named(view)} has the format {format}, which has color, and neither depth nor stencil",
            {"view": view.call["as"], "format": format},
            "Attach it as a color.",
        )
    if formats.named_aspects(format, aspect) != formats.aspects_of(format):
        return Cause(
            f"depth: {case.named(view)} has the aspect {aspect}, and all aspects of {format} are asked for, {case.aspects(format)}",
            {"view": view.call["as"], "aspect": aspect, "format": format},
            "Make a view with the aspect all.",
        )
    return flat(case, "depth", view, FLAT)


@rule(304)
def load_and_store(case: Case) -> Cause | None:
    view = depth_view(case)
    if view is None:
        return None
    state, format = case.call["depth"], view.uses["texture"].call["format"]
    for aspect, (load, store, read_only) in ASPECT_KEYS.items():
        has = aspect in case.second.formats.aspects_of(format)
        for key in (load, store):
            is_given = state[key] is not None
            if is_given == (has and not state[read_only]):
                continue
            values = {
                "view": view.call["as"],
                "format": format,
                "key": key,
                "given": state[key],
                "hasAspect": has,
                "readOnly": state[read_only],
            }
            if not is_given:
                return Cause(
                    f"{key} is left out, and {format} of {case.named(view)} has {aspect}, with {read_only} false",
                    values,
                    f"Give {load} and {store}, or {read_only} true.",
                )
            why = f"{read_only} is true" if has else f"{format} of {case.named(view)} has no {aspect}"
            return Cause(f"{key} is {state[key]}, and {why}", values, "Leave it out.")
    return None


@rule(305)
def alike(case: Case) -> Cause | None:
    views = attached(case)
    width_and_height = case.second.attachments.width_and_height
    for where, view in views[1:]:
        pairs = list(zip(("width", "height"), width_and_height(views[0][1]), width_and_height(view)))
        samples, others = (each.uses["texture"].call["samples"] for each in (views[0][1], view))
        pairs.append(("samples", samples, others))
        for what, one, other in pairs:
            if one != other:
                said = (
                    f"{views[0][0]} ({case.named(views[0][1])}) has {the(what)} {one}, and {where} ({case.named(view)}) has"
                    f" {the(what)} {other}"
                )
                values = {"first": views[0][1].call["as"], "other": view.call["as"], "what": what, "firstHas": one, "otherHas": other}
                return Cause(said, values, to_be_alike(case, what, views[0][1], view))
    return None


def to_be_alike(case: Case, what: str, one: Played, other: Played) -> str:
    """What to do where two views that are attached differ: what stands beside a canvas has to change its size with that."""
    if what == "samples":
        return "Make both textures with the same samples."
    for each, its in ((one, other), (other, one)):
        if case.play.call_of(each.uses["texture"]).frame is not None:
            return f"Make the texture of {case.name(its)} anew with {the(what)} of the canvas, whenever that changes its size."
    return f"Make both with the same {what}."


def the(what: str) -> str:
    return "samples" if what == "samples" else f"the {what}"


@rule(306)
def apart(case: Case) -> Cause | None:
    """No cell is attached twice, be it a subresource or a slice: colors come first, then resolve views, then depth."""
    found, cells_of = colors(case), case.second.attachments.cells_of
    views = [(f"color {place}", view, cells_of(view, color["depthSlice"])) for place, color, view, _ in found]
    views += [(f"the resolve view of color {place}", resolve, cells_of(resolve)) for place, _, _, resolve in found if resolve is not None]
    views += [("depth", view, cells_of(view)) for view in case.second.attachments.depth_of(case.played)]
    for number, (one, view, cells) in enumerate(views):
        for other, second, others in views[number + 1 :]:
            both = first(common(case, cell, another) for cell in cells for another in others)
            if both:
                values = {"first": view.call["as"], "other": second.call["as"], **case.part_values(both)}
                remedy = (
                    "Give each a slice of its own."
                    if both[0] == "s" and one.startswith("color") and other.startswith("color")
                    else "Attach it once, and another texture, level or layer in its other place."
                )
                return Cause(f"{one} ({case.named(view)}) and {other} ({case.named(second)}) both attach {case.part(both)}", values, remedy)
    return None


def common(case: Case, one: Cell, other: Cell) -> Cell | None:
    """What two attached cells have in common: the subresource that they both are, or the slices that are in both; or None."""
    if not case.second.cells.do_meet(one, other):
        return None
    return one if one[0] == "t" else (*one[:-2], max(one[-2], other[-2]), min(one[-1], other[-1]))


@rule(307)
def resolves(case: Case) -> Cause | None:
    return first(resolve_of(case, place, view, resolve) for place, _, view, resolve in colors(case) if resolve is not None)


def resolve_of(case: Case, place: int, view: Played, resolve: Played) -> Cause | None:
    """What is wrong with the resolve view of a color."""
    where, color, target = f"the resolve view of color {place}", view.uses["texture"].call, resolve.uses["texture"].call
    values = {"color": place, "view": view.call["as"], "resolve": resolve.call["as"]}
    if color["samples"] != 4:
        return Cause(
            f"color {place} ({case.named(view)}) has {plural(color['samples'], 'sample')} and a resolve view, and 4 are asked for",
            {**values, "samples": color["samples"]},
            "Leave resolve out.",
        )
    wrong = color_view(case, where, resolve, FLAT)
    if wrong:
        return wrong
    if target["samples"] != 1:
        return Cause(
            f"{where} ({case.named(resolve)}) has {target['samples']} samples, and 1 is asked for",
            {**values, "samples": target["samples"]},
            "Resolve to a texture of 1 sample.",
        )
    pairs = [("format", color["format"], target["format"])]
    pairs += zip(("width", "height"), case.second.attachments.width_and_height(view), case.second.attachments.width_and_height(resolve))
    for what, one, other in pairs:
        if one != other:
            return Cause(
                f"{where} ({case.named(resolve)}) has the {what} {other}, and color {place} ({case.named(view)}) has {one}",
                {**values, "what": what, "colorHas": one, "resolveHas": other},
                f"Make both with the same {what}.",
            )
    return None
