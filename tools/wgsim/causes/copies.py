"""The rules of copies and clears, and what writeTexture has in common with them: places in textures, and layouts of texels."""

from __future__ import annotations

from typing import TYPE_CHECKING, Any

from .making import Cause, Values, first, fits, lacks, listed, multiple, plural, rule
from .textures import EXTENTS

if TYPE_CHECKING:
    from model.history import Played
    from wgsim.causes.cases import Case

COPY_SRC, COPY_DST = 4, 8
TEXTURE_SRC, TEXTURE_DST = 1, 2


@rule(250)
def source_buffer(case: Case) -> Cause | None:
    return lacks(case, case.uses["source"], COPY_SRC)


@rule(251)
def target_buffer(case: Case) -> Cause | None:
    return lacks(case, case.uses["target"], COPY_DST)


@rule(252)
def aligned(case: Case) -> Cause | None:
    return first(multiple(key, case.call[key], 4) for key in ("sourceOffset", "targetOffset", "size"))


@rule(253)
def ranges(case: Case) -> Cause | None:
    size = case.call["size"]
    return first(fits(case, case.uses[key], case.call[f"{key}Offset"], size, (f"{key}Offset", "size")) for key in ("source", "target"))


@rule(254)
def two_buffers(case: Case) -> Cause | None:
    source = case.uses["source"]
    if source is not case.uses["target"]:
        return None
    return Cause(
        f"source and target are both {case.named(source)}", {"object": source.call["as"]}, "Copy to another buffer, and from there back."
    )


@rule(255)
def read_buffer(case: Case) -> Cause | None:
    return lacks(case, case.uses["buffer"], COPY_SRC)


@rule(256)
def written_texture(case: Case) -> Cause | None:
    return lacks(case, case.uses["texture"], TEXTURE_DST)


@rule(265)
def read_texture(case: Case) -> Cause | None:
    return lacks(case, case.uses["texture"], TEXTURE_SRC)


@rule(266)
def written_buffer(case: Case) -> Cause | None:
    return lacks(case, case.uses["buffer"], COPY_DST)


@rule(275)
def cleared_buffer(case: Case) -> Cause | None:
    return lacks(case, case.uses["buffer"], COPY_DST)


@rule(257, 206)
def one_sample(case: Case) -> Cause | None:
    texture = case.uses["texture"]
    if texture.call["samples"] == 1:
        return None
    said = f"{case.named(texture)} has {texture.call['samples']} samples, and 1 is asked for"
    return Cause(
        said,
        {"object": texture.call["as"], "samples": texture.call["samples"], "asked": 1},
        "Resolve it in a render pass to a texture of 1 sample.",
    )


@rule(258, 207)
def spots(case: Case) -> Cause | None:
    """The place of a copy in its texture; of two textures the source comes first."""
    call = case.call
    if case.do != "copyTextureToTexture":
        return spot(case, case.uses["texture"], ("mip", call["mip"]), ("origin", call["origin"]))
    return first(
        spot(case, case.uses[key], (f"{key}Mip", call[f"{key}Mip"]), (f"{key}Origin", call[f"{key}Origin"])) for key in ("source", "target")
    )


def spot(case: Case, texture: Played, mip: tuple[str, int], origin: tuple[str, list[int]]) -> Cause | None:
    """The place of a copy is not in its texture: the level, or an extent of it; or it covers only some of what is copied whole."""
    call, size = texture.call, case.call["size"]
    (mip_key, level), (_, start) = mip, origin
    named, values = case.named(texture), {"object": call["as"], mip_key: level}
    if level >= call["mips"]:
        return Cause(
            f"{mip_key} is {level}, and {named} has {plural(call['mips'], 'mip level')}, counted from 0",
            {**values, "mips": call["mips"]},
            f"The greatest is {call['mips'] - 1}; make the texture with more where that is wanted.",
        )
    whole = case.second.formats.extent(call, level)
    for name, low, length, there in zip(EXTENTS[call["dim"]], start, size, whole):
        if low + length > there:
            said = f"{name} {length} from {low} on ends at {low + length}, and mip level {level} of {named} has {name} {there}"
            values = {**values, "extent": name, "origin": low, "size": length, "end": low + length, "has": there}
            return Cause(said, values, f"Take at most {there - low} from {low} on." if low < there else f"Nothing is there from {low} on.")
    if case.second.formats.is_color(call["format"]) and call["samples"] == 1:
        return None
    why = "4 samples" if call["samples"] == 4 else f"the format {call['format']}"
    for name, low, length, there in list(zip(EXTENTS[call["dim"]], start, size, whole))[:2]:
        if (low, length) != (0, there):
            said = (
                f"{named} has {why}, so that the whole {name} is copied, which is {there} at mip level {level}, and here it is"
                f" {length} from {low} on"
            )
            return Cause(
                said, {**values, "extent": name, "origin": low, "size": length, "has": there}, f"Copy from 0 on, with the {name} {there}."
            )
    return None


def texel(case: Case) -> int | None:
    """The bytes of a texel in a copy between bytes and a texture, or None."""
    texture, formats = case.uses["texture"].call, case.second.formats
    by = formats.texel_from if case.do == "copyTextureToBuffer" else formats.texel_to
    return by(texture["format"], case.call["aspect"])


def texel_bytes(case: Case) -> int:
    """The same where there are such."""
    found = texel(case)
    assert found is not None
    return found


@rule(259, 267, 208)
def aspect(case: Case) -> Cause | None:
    """The aspect is none that can be copied: it is not one alone, or not there, or its texels have no bytes of a copy."""
    if texel(case) is not None:
        return None
    texture, formats, word = case.uses["texture"], case.second.formats, case.call["aspect"]
    format = texture.call["format"]
    aspects = formats.named_aspects(format, word)
    values = {"object": texture.call["as"], "format": format, "aspect": word, "aspects": list(aspects)}
    where = "copied from" if case.do == "copyTextureToBuffer" else "copied to"
    if len(aspects) > 1:
        return Cause(
            f"aspect is {word}, which is {listed(aspects)} of {format} of {case.named(texture)}, and one is asked for",
            values,
            "Copy one aspect, with the aspect stencil-only.",
        )
    if not aspects:
        return Cause(
            f"aspect is {word}, and {case.named(texture)} has the format {format}, which has {case.aspects(format)} alone",
            values,
            "Leave aspect out.",
        )
    instead = "Copy it to another texture, or read it in a shader" if where == "copied from" else "Draw it in a render pass"
    return Cause(f"the {aspects[0]} of {format} of {case.named(texture)} cannot be {where}", values, f"{instead}.")


@rule(260)
def row_alignment(case: Case) -> Cause | None:
    row = case.call["bytesPerRow"]
    return multiple("bytesPerRow", row, 256) if row is not None else None


@rule(261)
def offset_alignment(case: Case) -> Cause | None:
    texture, formats = case.uses["texture"].call, case.second.formats
    if formats.is_color(texture["format"]):
        return multiple("offset", case.call["offset"], texel_bytes(case), why=f", the bytes of a texel of {texture['format']}")
    return multiple("offset", case.call["offset"], 4, why=f", as {texture['format']} asks")


@rule(262, 209)
def texel_layout(case: Case) -> Cause | None:
    """The layout of texels is not right, or takes more bytes than are there."""
    call, size = case.call, texel_bytes(case)
    (width, height, depth), row, rows = call["size"], call["bytesPerRow"], call["rowsPerImage"]
    values = {"size": list(call["size"]), "texel": size, "bytesPerRow": row, "rowsPerImage": rows}
    if row is None and (height > 1 or depth > 1):
        what = f"{height} rows" if height > 1 else f"{depth} images"
        return Cause(
            f"bytesPerRow is left out, and the copy has {what}",
            values,
            f"Give at least {width * size}: {plural(width, 'texel')} of {plural(size, 'byte')}.",
        )
    if row is not None and row < width * size:
        return Cause(
            f"bytesPerRow is {row}, and a row has {plural(width, 'texel')} of {plural(size, 'byte')}: {width * size}",
            {**values, "least": width * size},
            f"Give at least {width * size}.",
        )
    if rows is None and depth > 1:
        return Cause(f"rowsPerImage is left out, and the copy has {depth} images", values, f"Give at least the height, {height}.")
    if rows is not None and rows < height:
        return Cause(
            f"rowsPerImage is {rows}, and an image has {height} rows", {**values, "least": height}, f"Give at least {height}."
        )
    return too_few(case, values)


def too_few(case: Case, values: Values) -> Cause | None:
    """The bytes that a layout takes end past what is there: a buffer, or the data of a write."""
    call, size = case.call, values["texel"]
    taken, offset = case.second.copies.bytes_of(call, size), call["offset"]
    is_write = case.do == "writeTexture"
    there = call["dataSize"] if is_write else case.uses["buffer"].call["size"]
    if offset + taken <= there:
        return None
    has = f"dataSize is {there}" if is_write else f"{case.named(case.uses['buffer'])} has {plural(there, 'byte')}"
    said = f"offset {offset} and the {taken} bytes of the texels, {product(call, size)}, end at {offset + taken}, and {has}"
    remedy = f"Give at least {offset + taken} bytes." if is_write else f"Make the buffer with at least {offset + taken} bytes."
    return Cause(said, {**values, "offset": offset, "taken": taken, "end": offset + taken, "bytes": there}, remedy)


def product(call: dict[str, Any], size: int) -> str:
    """The bytes of a layout, spelled out."""
    (width, height, depth), row, rows = call["size"], call["bytesPerRow"] or 0, call["rowsPerImage"] or 0
    parts = [f"{row} * {rows} * {depth - 1}"] if depth > 1 else []
    if height > 0:
        parts += [f"{row} * {height - 1}"] * (height > 1) + [f"{width} * {size}"]
    return " + ".join(parts)


@rule(270)
def source_texture(case: Case) -> Cause | None:
    return lacks(case, case.uses["source"], TEXTURE_SRC)


@rule(271)
def target_texture(case: Case) -> Cause | None:
    return lacks(case, case.uses["target"], TEXTURE_DST)


def differ(case: Case, key: str, why: str) -> Cause:
    source, target = case.uses["source"], case.uses["target"]
    said = f"{case.named(source)} has {why} {source.call[key]}, and {case.named(target)} has {target.call[key]}"
    return Cause(
        said,
        {
            "source": source.call["as"],
            "target": target.call["as"],
            f"source{key.capitalize()}": source.call[key],
            f"target{key.capitalize()}": target.call[key],
        },
        f"Make both with the same {key}.",
    )


@rule(272)
def formats(case: Case) -> Cause | None:
    source, target = case.uses["source"].call["format"], case.uses["target"].call["format"]
    return None if case.second.formats.are_copy_compatible(source, target) else differ(case, "format", "the format")


@rule(273)
def samples(case: Case) -> Cause | None:
    return None if case.uses["source"].call["samples"] == case.uses["target"].call["samples"] else differ(case, "samples", "samples")


@rule(274)
def apart(case: Case) -> Cause | None:
    source, call, copies = case.uses["source"], case.call, case.second.copies
    if source is not case.uses["target"]:
        return None
    aspects = copies.aspects_of(source.call)
    taken = copies.subresources(source.call, aspects, call["sourceMip"], call["sourceOrigin"], call["size"])
    filled = copies.subresources(source.call, aspects, call["targetMip"], call["targetOrigin"], call["size"])
    both = [cell for cell in taken if cell in filled]
    if not both:
        return None
    aspect, mip, layer = both[0]
    said = f"{case.named(source)} {aspect} mip {mip} layer {layer} is both copied from and copied to"
    return Cause(
        said,
        {"object": source.call["as"], "aspect": aspect, "mip": mip, "layer": layer, "count": len(both)},
        "Copy by way of another texture.",
    )


@rule(276)
def clear_aligned(case: Case) -> Cause | None:
    cause = multiple("offset", case.call["offset"], 4)
    return cause or multiple(with_key(case), clear_size(case), 4)


def clear_size(case: Case) -> int:
    return case.second.recording.clear_size(case.played)


def with_key(case: Case) -> str:
    return "size" if case.call["size"] is not None else "size, left out,"


@rule(277)
def clear_range(case: Case) -> Cause | None:
    return fits(case, case.uses["buffer"], case.call["offset"], clear_size(case), is_left_out=case.call["size"] is None)
