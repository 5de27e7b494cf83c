"""The rules of what pipelines and samplers fix beside their shaders, and of what hangs on that in passes."""

from __future__ import annotations

from typing import TYPE_CHECKING, Any, Iterator

from wgsim.reading.calls import ONE

from .attachments import depth_view
from .making import Cause, first, limited, listed, plural, rule
from .viewports import fixed

if TYPE_CHECKING:
    from wgsim.causes.cases import Case

LIMIT = "maxColorAttachmentBytesPerSample"
ALL_CHANNELS = 15


@rule(405)
def lods(case: Case) -> Cause | None:
    least, most = case.call["lodMinClamp"], case.call["lodMaxClamp"]
    if least <= most:
        return None
    said = f"lodMinClamp is {fixed(least)}, and lodMaxClamp is {fixed(most)}, which is less"
    return Cause(said, {"lodMinClamp": least, "lodMaxClamp": most}, f"Give a lodMaxClamp of at least {least}, or a smaller lodMinClamp.")


@rule(406)
def anisotropy(case: Case) -> Cause | None:
    given = case.call["maxAnisotropy"]
    if given == 0:
        return Cause("maxAnisotropy is 0, and at least 1 is asked for", {"maxAnisotropy": 0, "least": 1}, "Leave it out, which is 1.")
    nearest = [key for key in case.second.fixed_function.FILTERS if case.call[key] != "linear"]
    if given == 1 or not nearest:
        return None
    said = f"maxAnisotropy is {given}, and {listed(nearest)} {'is' if len(nearest) == 1 else 'are'} nearest"
    return Cause(said, {"maxAnisotropy": given, "nearest": nearest}, "Make the three filters linear, or take a maxAnisotropy of 1.")


def topology(case: Case) -> str:
    word: str = case.call["primitive"]["topology"]
    return word


@rule(407)
def strip(case: Case) -> Cause | None:
    said = case.call["primitive"]["stripIndexFormat"]
    if said is None or case.second.fixed_function.is_strip(case.call["primitive"]):
        return None
    return Cause(
        f"stripIndexFormat is {said}, and the topology is {topology(case)}, which is no strip",
        {"stripIndexFormat": said, "topology": topology(case)},
        "Leave stripIndexFormat out, or take the topology line-strip or triangle-strip.",
    )


def targets(case: Case) -> Iterator[tuple[int, dict[str, Any]]]:
    """The targets that are not null, each with its place."""
    return ((place, target) for place, target in enumerate(case.call["targets"]) if target is not None)


@rule(408)
def blends(case: Case) -> Cause | None:
    blended = case.second.formats.BLENDED
    for place, target in targets(case):
        if target["blend"] is not None and target["format"] not in blended:
            return Cause(
                f"target {place} has blend, and its format {target['format']} does not blend",
                {"target": place, "format": target["format"], "allowed": list(blended)},
                f"Leave blend out. Formats that blend are {listed(blended)}.",
            )
    return None


@rule(409)
def factors(case: Case) -> Cause | None:
    return first(
        factors_of(place, channels, target["blend"][channels])
        for place, target in targets(case)
        if target["blend"] is not None
        for channels in ("color", "alpha")
    )


def factors_of(place: int, channels: str, blended: dict[str, Any]) -> Cause | None:
    """A factor that is not one, beside min or max."""
    operation = blended["operation"]
    for key in ("srcFactor", "dstFactor"):
        if operation in ("min", "max") and blended[key] != "one":
            return Cause(
                f"{channels} of the blend of target {place} has the operation {operation}, and its {key} is {blended[key]}",
                {"target": place, "of": channels, "operation": operation, key: blended[key]},
                f"Make both factors one, which {operation} does not look at.",
            )
    return None


@rule(410)
def masks(case: Case) -> Cause | None:
    for place, target in targets(case):
        mask = target["writeMask"]
        if mask > ALL_CHANNELS:
            return Cause(
                f"target {place} has the writeMask {mask}, and at most {ALL_CHANNELS} is allowed, which is all channels",
                {"target": place, "writeMask": mask, "most": ALL_CHANNELS},
                f"Take {mask - (mask & ALL_CHANNELS)} away.",
            )
    return None


@rule(411)
def sample_bytes(case: Case) -> Cause | None:
    """What is drawn to takes too many bytes, of a pipeline, of a bundle encoder or of a pass."""
    word, formats = formats_of(case)
    count, most = case.second.formats.bytes_per_sample(formats), case.history.limits[LIMIT]
    if most is None or count <= most:
        return None
    said = (
        f"the {word} {listed(format or 'null' for format in formats)} take {count} bytes of a sample together, and at most {most} are"
        " allowed"
    )
    return limited(LIMIT, count, Cause(said, {word: formats, "bytes": count, "most": most}, None))


def formats_of(case: Case) -> tuple[str, list[str | None]]:
    """The formats of what is drawn to, and what these are called."""
    if case.do == "beginRenderPass":
        return "colors", case.second.attachments.color_formats(case.played)
    if case.do == "createBundleEncoder":
        return "colors", case.call["colors"]
    return "targets", case.second.fixed_function.target_formats(case.call)


def depth_of(case: Case) -> tuple[dict[str, Any], str, tuple[str, ...]]:
    """What a pipeline has of depth, its format and the aspects of that."""
    depth = case.call["depth"]
    return depth, depth["format"], case.second.formats.aspects_of(depth["format"])


@rule(412)
def compares_depth(case: Case) -> Cause | None:
    depth, format, aspects = depth_of(case)
    word = depth["depthCompare"]
    if word in ("always", "none") or "depth" in aspects:
        return None
    said = f"depthCompare is {word}, and {format} has {case.aspects(format)} alone"
    return Cause(said, {"depthCompare": word, "format": format, "missing": "depth"}, "Leave it out, or take a format with depth.")


@rule(413)
def has_stencil(case: Case) -> Cause | None:
    depth, format, aspects = depth_of(case)
    for face in case.second.fixed_function.FACES if "stencil" not in aspects else ():
        for key, usual in case.second.calls.FACE.items():
            if depth[face][key] != usual:
                return Cause(
                    f"{key} of {face} is {depth[face][key]}, and {format} has {case.aspects(format)} alone",
                    {"of": face, key: depth[face][key], "format": format, "missing": "stencil"},
                    f"Leave {key} out, or take a format with stencil.",
                )
    return None


@rule(414)
def says_writes(case: Case) -> Cause | None:
    depth, format, aspects = depth_of(case)
    if depth["depthWrite"] != "none" or "depth" not in aspects:
        return None
    said = f"depthWrite is none, and {format} has depth"
    return Cause(said, {"depthWrite": "none", "format": format}, "Say whether the pipeline writes depth.")


@rule(415)
def says_compare(case: Case) -> Cause | None:
    depth, format, aspects = depth_of(case)
    if depth["depthCompare"] != "none" or "depth" not in aspects:
        return None
    faces = [face for face in case.second.fixed_function.FACES if depth[face]["depthFailOp"] != "keep"]
    if depth["depthWrite"] is True:
        why, values = "depthWrite is true", {"depthWrite": True}
    elif faces:
        operation = depth[faces[0]]["depthFailOp"]
        why, values = f"depthFailOp of {faces[0]} is {operation}", {"of": faces[0], "depthFailOp": operation}
    else:
        return None
    return Cause(
        f"depthCompare is none, and {why}, of {format}, which has depth",
        {"depthCompare": "none", "format": format, **values},
        "Say how depth is compared.",
    )


@rule(416)
def bias(case: Case) -> Cause | None:
    if not case.call["depth"]["bias"] or topology(case) in case.second.fixed_function.TRIANGLES:
        return None
    return Cause(
        f"bias is true, and the topology is {topology(case)}, which draws no triangles",
        {"bias": True, "topology": topology(case)},
        "Leave bias out, or take the topology triangle-list or triangle-strip.",
    )


@rule(417)
def coverage(case: Case) -> Cause | None:
    if not case.call["alphaToCoverage"]:
        return None
    values, samples = {"alphaToCoverage": True, "samples": case.call["samples"]}, case.call["samples"]
    if samples != 4:
        said = f"alphaToCoverage is true, and there {'is' if samples == 1 else 'are'} {plural(samples, 'sample')}, where 4 are asked for"
        return Cause(said, values, "Make the pipeline with samples 4.")
    if not case.call["targets"] or case.call["targets"][0] is None:
        lacking = "the first target is null" if case.call["targets"] else "targets is empty"
        said = f"alphaToCoverage is true, and {lacking}, where one with alpha is asked for"
        return Cause(said, {**values, "targets": len(case.call["targets"])}, "Give a first target whose format has alpha.")
    format, formats = case.call["targets"][0]["format"], case.second.formats
    if format in formats.BLENDED and format in formats.WITH_ALPHA:
        return None
    said = f"alphaToCoverage is true, and the first target is {format}, which does not both blend and have alpha"
    return Cause(said, {**values, "format": format}, "Give a first target whose format has alpha.")


@rule(418)
def cleared_to(case: Case) -> Cause | None:
    depth = case.call["depth"]
    if depth is None or depth["depthLoad"] != "clear" or depth["depthClearValue"] is None:
        return None
    value, view = depth["depthClearValue"], depth_view(case)
    assert view is not None
    where = f"depthLoad of {case.named(view)} is clear"
    if value == "none":
        return Cause(f"{where}, and depthClearValue is none", {"depthClearValue": "none"}, f"Give a number from 0 to {fixed(ONE)}.")
    if value <= ONE:
        return None
    said = f"{where}, and depthClearValue is {fixed(value)}, where at most {fixed(ONE)} is allowed"
    return Cause(said, {"depthClearValue": value, "most": ONE}, f"Give a number from 0 to {fixed(ONE)}.")


@rule(419)
def indices_of_strips(case: Case) -> Cause | None:
    pipeline, setting = case.pipeline, case.settings.index_buffer
    assert setting is not None
    said, has = pipeline.call["primitive"]["stripIndexFormat"], setting.call["format"]
    if not case.second.fixed_function.is_strip(pipeline.call["primitive"]) or said == has:
        return None
    told = "no stripIndexFormat" if said is None else f"the stripIndexFormat {said}"
    return Cause(
        f"{case.named(pipeline)} has the topology {pipeline.call['primitive']['topology']} and {told}, and the index buffer at"
        f" {case.place(setting)} is of {has}",
        {"pipeline": pipeline.call["as"], "stripIndexFormat": said, "format": has},
        f"Make the pipeline with the stripIndexFormat {has}" + ("." if said is None else f", or set indices of {said}."),
    )
