"""The rules of viewports and scissor rectangles."""

from __future__ import annotations

from typing import TYPE_CHECKING

from wgsim.reading.calls import ONE, decimal

from .making import Cause, first, limited, plural, rule

if TYPE_CHECKING:
    from wgsim.causes.cases import Case

LIMIT = "maxTextureDimension2D"
# Of each direction its keys, those that tell where a viewport begins, and how much of the direction there is of a texture.
AXES = {"x": ("left", "width", "to the left of the left edge"), "y": ("above", "height", "above the upper edge")}


def fixed(number: int) -> str:
    """A fixed number with what it stands for."""
    return f"{number} ({decimal(number)})"


def up(number: int, over: int) -> int:
    """A quotient, rounded up."""
    return -(-number // over)


@rule(400)
def extents(case: Case) -> Cause | None:
    return first(extent(case, key) for _, key, _ in AXES.values())


def extent(case: Case, key: str) -> Cause | None:
    """A viewport is wider or higher than a texture may be."""
    given, most = case.call[key], case.history.limits[LIMIT]
    if given <= most * ONE:
        return None
    cause = Cause(
        f"{key} is {fixed(given)}, and at most {fixed(most * ONE)} is allowed, the most that a texture may have",
        {key: given, "stands": decimal(given), "most": most * ONE},
        None,
    )
    return limited(LIMIT, up(given, ONE), cause)


@rule(401)
def places(case: Case) -> Cause | None:
    return first(place for key in AXES for place in (begin(case, key), end(case, key)))


def begin(case: Case, key: str) -> Cause | None:
    """A viewport begins too far to the left, or too far above."""
    before, _, where = AXES[key]
    given, most = case.call[key], 2 * case.history.limits[LIMIT] * ONE
    if not case.call[before] or given <= most:
        return None
    cause = Cause(
        f"{key} is {fixed(given)} {where}, and at most {fixed(most)} is allowed, twice the most that a texture may have",
        {key: given, before: True, "stands": decimal(-given), "most": most},
        None,
    )
    return limited(LIMIT, up(given, 2 * ONE), cause)


def end(case: Case, key: str) -> Cause | None:
    """A viewport ends too far to the right, or too far below."""
    before, extent, _ = AXES[key]
    start = -case.call[key] if case.call[before] else case.call[key]
    ends, most = start + case.call[extent], (2 * case.history.limits[LIMIT] - 1) * ONE
    if ends <= most:
        return None
    said = (
        f"{key} {fixed(start)} and {extent} {fixed(case.call[extent])} end at {fixed(ends)}, and at most {fixed(most)} is allowed, twice"
        " the most that a texture may have, less 1"
    )
    values = {key: case.call[key], before: case.call[before], extent: case.call[extent]}
    cause = Cause(said, {**values, "end": ends, "stands": decimal(ends), "most": most}, None)
    return limited(LIMIT, up(ends + ONE, 2 * ONE), cause)


@rule(402)
def depths(case: Case) -> Cause | None:
    least, most = case.call["minDepth"], case.call["maxDepth"]
    values = {"minDepth": least, "maxDepth": most, "most": ONE}
    if least > most:
        said = f"minDepth is {fixed(least)}, and maxDepth is {fixed(most)}, which is less"
        return Cause(said, values, f"Both are from 0 to {fixed(ONE)}, and minDepth may not be the greater.")
    if most > ONE:
        return Cause(f"maxDepth is {fixed(most)}, and at most {fixed(ONE)} is allowed", values, f"Both are from 0 to {fixed(ONE)}.")
    return None


@rule(403)
def scissor(case: Case) -> Cause | None:
    attachments, begin = case.second.attachments, case.uses["on"]
    has = attachments.width_and_height(attachments.attached_views(begin)[0])
    return first(side(case, key, there) for key, there in zip(AXES, has))


def side(case: Case, key: str, there: int) -> Cause | None:
    """A scissor rectangle ends past what is attached to its pass."""
    _, extent, _ = AXES[key]
    start, given = case.call[key], case.call[extent]
    if start + given <= there:
        return None
    left = max(there - start, 0)
    said = (
        f"{key} {start} and {extent} {given} end at {start + given}, and what is attached to {case.named(case.uses['on'])} has the {extent}"
        f" {there}"
    )
    return Cause(
        said,
        {key: start, extent: given, "end": start + given, "pass": case.uses["on"].call["as"], "has": there},
        f"From {start} on {plural(left, 'pixel')} {'is' if left == 1 else 'are'} there.",
    )
