"""Viewports and scissor rectangles: the rules of setViewport and setScissorRect.

The numbers of a viewport are fixed: each stands for itself over `ONE`.
"""

from __future__ import annotations

from typing import TYPE_CHECKING, Iterator

from . import attachments
from .calls import ONE
from .rules import at_most

if TYPE_CHECKING:
    from model.forms import Call
    from model.history import Played

# How many extents of the greatest texture a viewport may reach to either side, less a pixel on the far one.
REACH = 2


def viewport_rules(call: Call, limits: dict[str, int]) -> Iterator[tuple[int, str, bool]]:
    """The own rules of setViewport."""
    greatest = limits["maxTextureDimension2D"]
    for extent in ("width", "height"):
        yield at_most(400, extent, call[extent], greatest * ONE)
    for start, is_before, extent in ((call["x"], call["left"], "width"), (call["y"], call["above"], "height")):
        side = "left or top" if is_before else "right or bottom"
        if is_before:
            yield at_most(401, f"begin to the {side}, {extent}", start, REACH * greatest * ONE)
        end = (-start if is_before else start) + call[extent]
        yield at_most(401, f"end of {extent}, from the {side}", end, (REACH * greatest - 1) * ONE)
    yield at_most(402, "minDepth", call["minDepth"], call["maxDepth"])
    yield at_most(402, "maxDepth", call["maxDepth"], ONE)


def scissor_rules(call: Call, begin: Played) -> Iterator[tuple[int, str, bool]]:
    """The own rule of setScissorRect, in a render pass that was begun without a fault: all that is attached is of one extent."""
    width, height = attachments.width_and_height(attachments.attached_views(begin)[0])
    yield at_most(403, "width", call["x"] + call["width"], width)
    yield at_most(403, "height", call["y"] + call["height"], height)
