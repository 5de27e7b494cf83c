"""Render bundles: the rules of bundle encoders, what a pass or a bundle draws to, and the rules that ask that this agrees."""

from __future__ import annotations

from typing import TYPE_CHECKING, Any, Iterator

from . import attachments, fixed_function, formats
from .limits import of_all as limits_of_all
from .rules import at_most

if TYPE_CHECKING:
    from model.forms import Rules
    from model.history import Played

MOST_COLORS = limits_of_all("maxColorAttachments")
ASPECTS = ("depth", "stencil")


class Targets:
    """What is drawn to: the formats of the colors, each or None; the format of the depth or None; the samples; and which aspects are only
    read, as the keys say that were given, be it of an aspect that the format does not have."""

    def __init__(self, colors: list[Any], depth: str | None, samples: int, read_only: set[Any]) -> None:
        self.colors = attachments.without_last_nulls(colors)
        self.depth = depth
        self.samples = samples
        self.read_only = read_only


def targets_of(place: Played) -> Targets | None:
    """What is drawn to by commands on a place: a valid bundle encoder, or a render pass that was begun without a fault; of a compute pass
    None."""
    call = place.call
    if place.do == "createBundleEncoder":
        return Targets(call["colors"], call["depth"], call["samples"], {aspect for aspect in ASPECTS if call[f"{aspect}ReadOnly"]})
    if place.do != "beginRenderPass":
        return None
    depth = next((attachments.texture_of(view)["format"] for view in attachments.depth_of(place)), None)
    samples = attachments.texture_of(attachments.attached_views(place)[0])["samples"]
    read_only = {aspect for aspect in ASPECTS if call["depth"] is not None and call["depth"][f"{aspect}ReadOnly"]}
    return Targets(attachments.color_formats(place), depth, samples, read_only)


def drawn_in(place: Played) -> Targets:
    """The same of a bundle encoder or a render pass."""
    targets = targets_of(place)
    assert targets is not None
    return targets


def create_rules(call: dict[str, Any], limits: dict[str, Any]) -> Iterator[tuple[int, str, bool]]:
    """The rules of createBundleEncoder."""
    colors, depth = [format for format in call["colors"] if format is not None], call["depth"]
    yield at_most(175, "colors", len(call["colors"]), MOST_COLORS)
    for format in colors:
        yield 175, "color", formats.is_color(format)
    drawn = list(colors)
    if depth is not None:
        yield 175, "depth or stencil", not formats.is_color(depth)
        drawn.append(depth)
    yield 176, "something is drawn to", drawn != []
    yield 177, "samples", call["samples"] in (1, 4)
    if call["samples"] == 4:
        for format in drawn:
            yield 177, "format", formats.may_have_four_samples(format)
    yield from fixed_function.bytes_rules(colors, limits)


def pipeline_rules(pipeline: dict[Any, Any], place: Played) -> Iterator[tuple[int, str, bool]]:
    """Rules 320 and 321, on a pipeline that is set on a place; a compute pass asks for nothing."""
    targets = targets_of(place)
    if targets is not None:
        asked = pipeline["depth"]
        yield 320, "targets", attachments.without_last_nulls(fixed_function.target_formats(pipeline)) == targets.colors
        yield 320, "has depth", (asked is not None) == (targets.depth is not None)
        if asked is not None:
            yield 320, "depth format", asked["format"] == targets.depth
        yield 320, "samples", pipeline["samples"] == targets.samples
        if asked is not None:
            for aspect in ASPECTS:
                yield 321, aspect, not (fixed_function.writes_aspect(pipeline, aspect) and aspect in targets.read_only)


def execute_rules(bundles: list[Played], begin: Played) -> Rules:
    """The own rules of executeBundles in a render pass: the first is asked of all bundles, and then the second."""
    targets, each = drawn_in(begin), [drawn_in(bundle.uses["on"]) for bundle in bundles]
    for own in each:
        yield 370, "colors", own.colors == targets.colors
        yield 370, "has depth", (own.depth is not None) == (targets.depth is not None)
        yield 370, "depth format", own.depth == targets.depth
        yield 370, "samples", own.samples == targets.samples
    for own in each:
        for aspect in ASPECTS:
            has_aspect = targets.depth is not None and aspect in formats.aspects_of(targets.depth)
            what = f"{aspect}, of a format {'that has it' if has_aspect else 'without it'}"
            yield 371, what, aspect in own.read_only or aspect not in targets.read_only
