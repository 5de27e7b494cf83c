"""The rules of createView."""

from __future__ import annotations

from typing import TYPE_CHECKING, Any

from .making import Cause, plural, rule

if TYPE_CHECKING:
    from model.history import Played
    from wgsim.causes.cases import Case

# How many layers a dimension of a view has, where that is fixed.
LAYERS = {"1d": 1, "2d": 1, "3d": 1, "cube": 6}


def known(case: Case) -> tuple[Played, dict[str, Any], dict[str, Any]]:
    """The texture, its call, and the view with the keys that were left out."""
    texture = case.uses["texture"]
    return texture, texture.call, case.second.textures.view_of(case.call, texture.call, texture.is_valid)


def told(case: Case, view: dict[str, Any], key: str) -> str:
    return f"{key} {view[key]}" + (" (left out)" if case.call[key] is None else "")


def that_is(case: Case, view: dict[str, Any], key: str) -> str:
    return f"{key} is {view[key]}" if case.call[key] is not None else f"{key}, which is left out, is {view[key]}"


@rule(120)
def aspect(case: Case) -> Cause | None:
    texture, call, view = known(case)
    if case.second.formats.named_aspects(call["format"], view["aspect"]):
        return None
    said = (
        f"aspect is {view['aspect']}, and {case.named(texture)} has the format {call['format']}, which has"
        f" {case.aspects(call['format'])} alone"
    )
    return Cause(
        said,
        {"aspect": view["aspect"], "object": call["as"], "format": call["format"]},
        f"Take the aspect all{'' if case.second.formats.is_color(call['format']) else ' or the one that is there'}.",
    )


def run_of(case: Case, key: str, base: str, count: str, of: str) -> Cause | None:
    """A run of mip levels or layers is empty, or ends past those of the texture."""
    texture, call, view = known(case)
    have = call["mips"] if key == "mips" else case.second.formats.layer_count(call)
    if view[count] < 1:
        return Cause(
            (
                f"{that_is(case, view, count)}, which is less than 1, at {base} {view[base]} of {case.named(texture)}, which has"
                f" {plural(have, of)}"
            ),
            {count: view[count], base: view[base], "object": call["as"], "has": have},
            "Give at least 1." if view[base] < have else f"The greatest {base} is {have - 1}.",
        )
    if view[base] + view[count] > have:
        said = (
            f"{base} {view[base]} and {told(case, view, count)} end at {view[base] + view[count]}, and {case.named(texture)} has"
            f" {plural(have, of)}"
        )
        values = {base: view[base], count: view[count], "end": view[base] + view[count], "object": call["as"], "has": have}
        remedy = f"Give {count} of at most {have - view[base]}." if view[base] < have else f"The greatest {base} is {have - 1}."
        return Cause(said, values, remedy)
    return None


@rule(121)
def mips(case: Case) -> Cause | None:
    return run_of(case, "mips", "baseMip", "mips", "mip level")


@rule(122)
def layers(case: Case) -> Cause | None:
    return run_of(case, "layers", "baseLayer", "layers", "layer")


@rule(123)
def dimension(case: Case) -> Cause | None:
    texture, call, view = known(case)
    wanted = view["dim"] if view["dim"] in ("1d", "3d") else "2d"
    if call["dim"] == wanted:
        return None
    takes = {"1d": "1d", "2d": "2d, 2d-array, cube or cube-array", "3d": "3d"}[call["dim"]]
    return Cause(
        f"dim is {view['dim']}, and {case.named(texture)} is a {call['dim']} texture",
        {"dim": view["dim"], "object": call["as"], "textureDim": call["dim"]},
        f"A view of it is {takes}.",
    )


@rule(124)
def layers_of_dimension(case: Case) -> Cause | None:
    _, _, view = known(case)
    asked = LAYERS.get(view["dim"])
    if view["dim"] == "cube-array" and view["layers"] % 6:
        return Cause(
            f"a cube-array has a multiple of 6 layers, and {that_is(case, view, 'layers')}",
            {"dim": "cube-array", "layers": view["layers"], "multipleOf": 6},
            "Give layers that are 6 for each cube.",
        )
    if asked is None or view["layers"] == asked:
        return None
    remedy = "Take the dim 2d-array." if view["dim"] == "2d" else f"Give layers {asked}."
    return Cause(
        f"a view of the dim {view['dim']} has {plural(asked, 'layer')}, and {that_is(case, view, 'layers')}",
        {"dim": view["dim"], "layers": view["layers"], "asked": asked},
        remedy,
    )


@rule(125)
def square(case: Case) -> Cause | None:
    texture, call, view = known(case)
    width, height = call["size"][:2]
    if view["dim"] not in ("cube", "cube-array") or width == height:
        return None
    return Cause(
        f"a {view['dim']} is square, and {case.named(texture)} is {width} by {height}",
        {"dim": view["dim"], "object": call["as"], "width": width, "height": height},
        "Make the texture as wide as it is high.",
    )


@rule(126)
def four_samples(case: Case) -> Cause | None:
    texture, call, view = known(case)
    if call["samples"] != 4 or view["dim"] == "2d":
        return None
    return Cause(
        f"{case.named(texture)} has 4 samples, and dim is {view['dim']}, where 2d is asked for",
        {"object": call["as"], "samples": 4, "dim": view["dim"], "asked": "2d"},
        "Take the dim 2d.",
    )
