"""The rules of bundle encoders, and those that ask that a pipeline, a pass and bundles draw to the same."""

from __future__ import annotations

from typing import TYPE_CHECKING

from .making import Cause, first, plural, rule
from .pipelines import nothing, wrong_colors, wrong_samples

if TYPE_CHECKING:
    from model.bundles import Targets
    from model.history import Played
    from wgsim.causes.cases import Case

READ_ONLY = {"depth": "depthReadOnly", "stencil": "stencilReadOnly"}
WRITES = {"depth": "depthWrite", "stencil": "stencilWrite"}


class Drawn:
    """To what a pipeline, a pass or a bundle draws, with its name, and what it is called in the values of a cause."""

    def __init__(self, case: Case, thing: Played, word: str, targets: Targets) -> None:
        self.name = case.named(thing)
        self.thing = thing
        self.word = word
        self.color = "target" if word == "pipeline" else "color"
        self.color_key = "bundleColor" if word == "bundle" else self.color
        self.colors, self.depth, self.samples = targets.colors, targets.depth, targets.samples
        self.read_only = targets.read_only


def place_drawn(case: Case) -> Drawn | None:
    """To what the place of a command draws, a render pass or a bundle encoder; None of a compute pass."""
    place = case.uses["on"]
    targets = case.second.bundles.targets_of(place)
    word = "pass" if place.do == "beginRenderPass" else "bundleEncoder"
    return Drawn(case, place, word, targets) if targets is not None else None


def pass_drawn(case: Case) -> Drawn:
    """The same of a render pass or a bundle encoder."""
    drawn = place_drawn(case)
    assert drawn is not None
    return drawn


def pipeline_drawn(case: Case, pipeline: Played) -> Drawn:
    call = pipeline.call
    formats = case.second.fixed_function.target_formats(call)
    targets = case.second.bundles.Targets(formats, call["depth"] and call["depth"]["format"], call["samples"], set())
    return Drawn(case, pipeline, "pipeline", targets)


def bundle_drawn(case: Case, bundle: Played) -> Drawn:
    return Drawn(case, bundle, "bundle", case.second.bundles.targets_of(bundle.uses["on"]))


def difference(one: Drawn, other: Drawn, made: str) -> Cause | None:
    """In what two things do not draw to the same, as a cause, or None. `made` is what is to be made otherwise, in words."""
    values = {one.word: one.thing.call["as"], other.word: other.thing.call["as"]}
    for place, (mine, theirs) in enumerate(zip(one.colors, other.colors)):
        if mine != theirs:
            said = f"{one.color} {place} of {one.name} is {mine or 'null'}, and {other.color} {place} of {other.name} is {theirs or 'null'}"
            remedy = f"Make {made} with the {one.color} {place} {theirs or 'null'}."
            return Cause(said, {**values, "at": place, one.color_key: mine, other.color_key: theirs}, remedy)
    if len(one.colors) != len(other.colors):
        said = (
            f"{one.name} has {plural(len(one.colors), one.color)}, and {other.name} has {plural(len(other.colors), other.color)}, without"
            " nulls at the end"
        )
        remedy = f"Make {made} with {plural(len(other.colors), one.color)}."
        return Cause(said, {**values, f"{one.color_key}s": len(one.colors), f"{other.color_key}s": len(other.colors)}, remedy)
    if one.depth != other.depth:
        told = [f"the depth {format}" if format else "no depth" for format in (one.depth, other.depth)]
        return Cause(
            f"{one.name} has {told[0]}, and {other.name} has {told[1]}",
            {**values, f"{one.word}Depth": one.depth, f"{other.word}Depth": other.depth},
            f"Make {made} with {told[1]}.",
        )
    if one.samples != other.samples:
        said = f"{one.name} has {plural(one.samples, 'sample')}, and {other.name} has {other.samples}"
        return Cause(
            said,
            {**values, f"{one.word}Samples": one.samples, f"{other.word}Samples": other.samples},
            f"Make {made} with samples {other.samples}.",
        )
    return None


@rule(175)
def colors(case: Case) -> Cause | None:
    depth = case.call["depth"]
    wrong = wrong_colors(case, "color", case.call["colors"])
    if wrong is None and depth is not None and case.second.formats.is_color(depth):
        return Cause(
            f"depth is {depth}, which has color, and neither depth nor stencil", {"format": depth}, "Give it among the colors."
        )
    return wrong


@rule(176)
def something(case: Case) -> Cause | None:
    return nothing(case, "color", case.call["colors"])


@rule(177)
def samples(case: Case) -> Cause | None:
    return wrong_samples(case, "color", case.call["colors"], case.call["depth"])


@rule(320)
def pipeline_fits(case: Case) -> Cause | None:
    """A pipeline draws to what the pass has attached, or to what the bundle encoder was made with."""
    place = place_drawn(case)
    return difference(pipeline_drawn(case, case.uses["pipeline"]), place, "the pipeline") if place else None


@rule(321)
def pipeline_spares(case: Case) -> Cause | None:
    pipeline, place = case.uses["pipeline"], place_drawn(case)
    state = pipeline.call["depth"]
    if place is None or not state:
        return None
    for aspect, write in WRITES.items():
        key = READ_ONLY[aspect]
        if write not in state and case.second.fixed_function.writes_aspect(pipeline.call, aspect) and aspect in place.read_only:
            return spares_stencil(case, pipeline, place)
        if case.second.fixed_function.writes_aspect(pipeline.call, aspect) and aspect in place.read_only:
            return Cause(
                f"{write} of {case.named(pipeline)} is true, and so is {key} of {place.name}",
                {"pipeline": pipeline.call["as"], place.word: place.thing.call["as"], write: True, key: True},
                f"Leave {write} out, or {key}.",
            )
    return None


def spares_stencil(case: Case, pipeline: Played, place: Drawn) -> Cause:
    """A pipeline writes stencil, as its operations say, that is only read."""
    fixed_function, state = case.second.fixed_function, pipeline.call["depth"]
    drawn = fixed_function.DRAWN_FACES[pipeline.call["primitive"]["cullMode"]]
    face, key = next((face, key) for face in drawn for key in case.second.calls.OPERATION_KEYS if state[face][key] != "keep")
    operation = state[face][key]
    said = f"{case.named(pipeline)} writes stencil, since {key} of {face} is {operation}, and stencilReadOnly of {place.name} is true"
    values = {"pipeline": pipeline.call["as"], place.word: place.thing.call["as"], "of": face, key: operation, "stencilReadOnly": True}
    return Cause(said, values, "Leave stencilReadOnly out, or make the pipeline with the stencilWriteMask 0.")


@rule(370)
def bundles_fit(case: Case) -> Cause | None:
    place = pass_drawn(case)
    return first(difference(bundle_drawn(case, bundle), place, "the bundle encoder") for bundle in case.uses["bundles"])


@rule(371)
def bundles_spare(case: Case) -> Cause | None:
    """What a pass only reads a bundle only reads, by the keys as they are given."""
    place = pass_drawn(case)
    for bundle in case.uses["bundles"]:
        encoder, own = bundle.uses["on"], bundle_drawn(case, bundle)
        for aspect, key in READ_ONLY.items():
            if aspect in place.read_only and aspect not in own.read_only:
                lacks = "" if aspect in case.second.formats.aspects_of(place.depth) else f", though {place.depth} has no {aspect}"
                return Cause(
                    f"{key} of {place.name} is true, and that of {case.named(encoder)}, of which {own.name} was made, is false{lacks}",
                    {"pass": place.thing.call["as"], "bundle": bundle.call["as"], "bundleEncoder": encoder.call["as"], "key": key},
                    f"Give the bundle encoder {key} true.",
                )
    return None
