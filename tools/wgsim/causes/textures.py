"""The rules of createTexture."""

from __future__ import annotations

from typing import TYPE_CHECKING

from wgsim.reading import bits

from .making import Cause, first, known_usage, limited, listed, rule

if TYPE_CHECKING:
    from wgsim.causes.cases import Case

# What the three numbers of a size are called, by the dimension.
EXTENTS = {"1d": ("width", "height", "depth"), "2d": ("width", "height", "layers"), "3d": ("width", "height", "depth")}
# The limit of each of the three, by the dimension; None where it is 1.
WIDE_1D, WIDE_2D, WIDE_3D = "maxTextureDimension1D", "maxTextureDimension2D", "maxTextureDimension3D"
LIMITS = {"1d": (WIDE_1D, None, None), "2d": (WIDE_2D, WIDE_2D, "maxTextureArrayLayers"), "3d": (WIDE_3D, WIDE_3D, WIDE_3D)}
STORAGE_BINDING, RENDER_ATTACHMENT = 8, 16


@rule(110)
def usage(case: Case) -> Cause | None:
    return known_usage(case, bits.TEXTURE, "a texture")


def extents(case: Case) -> list[tuple[str, int, str | None]]:
    return list(zip(EXTENTS[case.call["dim"]], case.call["size"], LIMITS[case.call["dim"]]))


@rule(111)
def no_extent(case: Case) -> Cause | None:
    for name, length, _ in extents(case):
        if length < 1:
            said = f"{name} is 0 in the size {case.call['size']}, and at least 1 is asked for"
            return Cause(said, {"extent": name, "is": 0, "least": 1}, "Give at least 1.")
    return None


@rule(112)
def extent_limits(case: Case) -> Cause | None:
    dim = case.call["dim"]
    for name, length, limit in extents(case):
        most = case.history.limits[limit] if limit else 1
        if length > most:
            asked = f"has at most {most}" if limit else f"has a {name} of 1"
            cause = Cause(
                f"{name} is {length} in the size {case.call['size']}, and a {dim} texture {asked}",
                {"extent": name, "is": length, "most": most, "dim": dim},
                None if limit else "Give 1.",
            )
            return limited(limit, length, cause) if limit else cause
    return None


@rule(113)
def mips(case: Case) -> Cause | None:
    count, dim, size = case.call["mips"], case.call["dim"], case.call["size"]
    counted = size if dim == "3d" else size[:2]
    most = 1 if dim == "1d" else max(counted).bit_length()
    if count < 1:
        return Cause("mips is 0, and at least 1 is asked for", {"mips": 0, "least": 1, "most": most}, f"Give 1 to {most}.")
    if count > most:
        why = "a 1d texture has 1" if dim == "1d" else f"a {dim} texture of {' by '.join(map(str, counted))} has at most {most}"
        return Cause(f"mips is {count}, and {why}", {"mips": count, "most": most, "dim": dim}, f"Give at most {most}.")
    return None


@rule(114)
def samples(case: Case) -> Cause | None:
    count = case.call["samples"]
    if count in (1, 4):
        return None
    return Cause(f"samples is {count}, and 1 or 4 is asked for", {"samples": count, "allowed": [1, 4]}, "Take 1 or 4.")


def four(key: str, value: object, asked: object, is_met: bool) -> Cause | None:
    said = f"with 4 samples {key} is to be {asked}, and it is {value}"
    return None if is_met else Cause(said, {"samples": 4, key: value, "asked": asked}, f"Give {key} {asked}, or samples 1.")


@rule(115)
def four_samples(case: Case) -> Cause | None:
    call, has = case.call, case.call["usage"]
    allowed = [name for name, (_, _, may) in case.second.formats.FORMATS.items() if may]
    usage = {"usage": has, "usageWords": bits.words(has, bits.TEXTURE)}
    return first(
        [
            four("dim", call["dim"], "2d", call["dim"] == "2d"),
            four("mips", call["mips"], 1, call["mips"] == 1),
            four("layers", call["size"][2], 1, call["size"][2] == 1),
            None
            if has & RENDER_ATTACHMENT
            else Cause(
                f"with 4 samples usage is to have RENDER_ATTACHMENT (16), and it is {bits.said(has, bits.TEXTURE)}",
                {"samples": 4, **usage, "missing": 16},
                "Add it.",
            ),
            None
            if not has & STORAGE_BINDING
            else Cause(
                f"with 4 samples usage may not have STORAGE_BINDING (8), and it is {bits.said(has, bits.TEXTURE)}",
                {"samples": 4, **usage, "notAllowed": 8},
                "Take it away.",
            ),
            None
            if call["format"] in allowed
            else Cause(
                f"the format {call['format']} has 1 sample alone, and samples is 4",
                {"samples": 4, "format": call["format"], "allowed": allowed},
                f"Formats with 4 samples are {listed(allowed)}.",
            ),
        ]
    )


@rule(116)
def color_alone(case: Case) -> Cause | None:
    format, dim = case.call["format"], case.call["dim"]
    if dim == "2d" or case.second.formats.is_color(format):
        return None
    return Cause(
        f"a {dim} texture has a color format, and {format} has {case.aspects(format)}",
        {"dim": dim, "format": format},
        'Take a 2d texture, or a color format.',
    )


@rule(117)
def attached_1d(case: Case) -> Cause | None:
    has = case.call["usage"]
    if case.call["dim"] != "1d" or not has & RENDER_ATTACHMENT:
        return None
    said = f"a 1d texture may not have RENDER_ATTACHMENT (16), and its usage is {bits.said(has, bits.TEXTURE)}"
    return Cause(
        said,
        {"dim": "1d", "usage": has, "usageWords": bits.words(has, bits.TEXTURE), "notAllowed": 16},
        "Take it away, or take a 2d texture.",
    )


@rule(118)
def storage_format(case: Case) -> Cause | None:
    format, has = case.call["format"], case.call["usage"]
    allowed = [name for name in case.second.formats.FORMATS if case.second.formats.has_storage_access(name)]
    if not has & STORAGE_BINDING or format in allowed:
        return None
    said = f"usage is {bits.said(has, bits.TEXTURE)}, with STORAGE_BINDING (8), and {format} cannot be accessed as storage"
    return Cause(said, {"usage": has, "format": format, "allowed": allowed}, f"Formats that can are {listed(allowed)}.")
