"""What is attached to a render pass: the rules of its begin, what it draws to by that, and what it touches of it.

The colors of a pass are the dictionaries that the script has, with all of their keys, or None where they are null.
"""

from __future__ import annotations

from typing import TYPE_CHECKING, Any, Iterator

from . import fixed_function, formats, textures
from .calls import ONE
from .cells import do_meet, in_slices, in_texture
from .limits import of_all as limits_of_all
from .rules import at_most

if TYPE_CHECKING:
    from model.forms import Call, Touch
    from model.history import Played

MOST_COLORS = limits_of_all("maxColorAttachments")
FLAT_DIMS = ("2d", "2d-array")
COLOR_DIMS = ("2d", "2d-array", "3d")

# How an attachment is accessed, by its load and its store.
ACCESSES = {("load", "store"): "both", ("load", "discard"): "readdrop", ("clear", "store"): "write", ("clear", "discard"): "drop"}

# Of each aspect the keys of `depth` that tell of it: load, store, and whether it is read-only.
ASPECT_KEYS = {"depth": ("depthLoad", "depthStore", "depthReadOnly"), "stencil": ("stencilLoad", "stencilStore", "stencilReadOnly")}


def colors_of(begin: Played) -> list[tuple[Call, Played, Played | None]]:
    """The colors of a pass that are not null, each with its view, and its resolve view or None."""
    views = iter(begin.uses["colors"])
    colors = [color for color in begin.call["colors"] if color is not None]
    return [(color, next(views), None if color["resolve"] is None else next(views)) for color in colors]


def depth_of(begin: Played) -> list[Any]:
    """The view of `depth` in a list, or none."""
    return begin.uses["depth"]


def texture_of(view: Played) -> dict[str, Any]:
    return view.uses["texture"].call


def begin_rules(begin: Played, limits: dict[str, Any]) -> Iterator[tuple[int, str, bool]]:
    """The own rules of beginRenderPass, after those on the views that it names."""
    colors, depth = colors_of(begin), depth_of(begin)
    views = [view for _, view, _ in colors]
    yield at_most(300, "colors", len(begin.call["colors"]), MOST_COLORS)
    yield 301, "something is attached", colors != [] or depth != []
    for view in views:
        yield from color_rules(302, "color", view, COLOR_DIMS)
    for color, view, _ in colors:
        yield from slice_rules(color["depthSlice"], view)
    for view in depth:
        yield from depth_rules(view)
        yield from load_rules(begin.call["depth"], texture_of(view)["format"])
        yield from clear_rules(begin.call["depth"])
    yield from alike_rules(views + depth)
    yield from apart_rules(colors, depth)
    for _, view, resolve in colors:
        if resolve is not None:
            yield from resolve_rules(view, resolve)
    yield from fixed_function.bytes_rules(color_formats(begin), limits)


def color_rules(number: int, which: str, view: Played, dims: Any) -> Iterator[tuple[int, str, bool]]:
    """Rule 302, which is asked of a resolve view by rule 307, of fewer dimensions."""
    yield number, f"RENDER_ATTACHMENT, {which}", texture_of(view)["usage"] & textures.RENDER_ATTACHMENT != 0
    yield number, f"format, {which}", formats.is_color(texture_of(view)["format"])
    yield from flat_rules(number, which, view, dims)


def slice_rules(depth_slice: Any, view: Played) -> Iterator[tuple[int, str, bool]]:
    """Rule 308, on the slice of a color, or None, and its view."""
    is_3d = textures.told(view)["dim"] == "3d"
    yield 308, f"depthSlice, {'3d' if is_3d else '2d or 2d-array'}", (depth_slice is not None) == is_3d
    if is_3d:
        yield at_most(308, "depthSlice", depth_slice, depth_of_level(view) - 1)


def depth_of_level(view: Any) -> Any:
    return formats.extent(texture_of(view), textures.told(view)["baseMip"])[2]


def flat_rules(number: int, which: str, view: Played, dims: Any) -> Iterator[tuple[int, str, bool]]:
    told = textures.told(view)
    yield number, f"dimension {told['dim']}, {which}", told["dim"] in dims
    yield number, f"one mip, {which}", told["mips"] == 1
    yield number, f"one layer, {which}", told["layers"] == 1


def depth_rules(view: Played) -> Iterator[Any]:
    """Rule 303."""
    format = texture_of(view)["format"]
    yield 303, "RENDER_ATTACHMENT", texture_of(view)["usage"] & textures.RENDER_ATTACHMENT != 0
    yield 303, "format", not formats.is_color(format)
    yield 303, "all aspects", formats.named_aspects(format, textures.told(view)["aspect"]) == formats.aspects_of(format)
    yield from flat_rules(303, "depth", view, FLAT_DIMS)


def load_rules(depth: dict[str, Any], format: str) -> Iterator[tuple[int, str, bool]]:
    """Rule 304, of each aspect and each of its two keys."""
    for aspect, (load, store, read_only) in ASPECT_KEYS.items():
        has_aspect = aspect in formats.aspects_of(format)
        why = "read-only" if depth[read_only] else "not read-only"
        how = f"{why}, of a format that has it" if has_aspect else f"{why}, of a format without it"
        for key in (load, store):
            yield 304, f"{key}, {how}", (depth[key] is not None) == (has_aspect and not depth[read_only])


def clear_rules(depth: dict[str, Any]) -> Iterator[tuple[int, str, bool]]:
    """Rule 418, on what the depth is cleared to where it is. It is in range where it is left out; `none` says that a page has left it
    out."""
    value = depth["depthClearValue"]
    if depth["depthLoad"] == "clear" and value is not None:
        yield 418, "a depth to clear to", value != "none"
        yield at_most(418, "depth to clear to", value, ONE)


def width_and_height(view: Played) -> tuple[Any, ...]:
    return formats.extent(texture_of(view), textures.told(view)["baseMip"])[:2]


def alike_rules(views: list[Played]) -> Iterator[Any]:
    """Rule 305. Each view is held against the first."""
    for other in views[1:]:
        for name, one, two in zip(("width", "height"), width_and_height(views[0]), width_and_height(other)):
            yield 305, name, one == two
        yield 305, "samples", texture_of(views[0])["samples"] == texture_of(other)["samples"]


def apart_rules(colors: Any, depth: Any) -> Iterator[Any]:
    """Rule 306, on each two that are attached. A resolve view attaches all cells that it has."""
    attached = [("color" if color["depthSlice"] is None else "slice", cells_of(view, color["depthSlice"])) for color, view, _ in colors]
    attached += [(f"resolve view {textures.told(resolve)['dim']}", cells_of(resolve)) for _, _, resolve in colors if resolve is not None]
    attached += [("depth", cells_of(view)) for view in depth]
    for number, (one, cells) in enumerate(attached):
        for other, others in attached[number + 1:]:
            yield 306, f"{one} and {other}", not any(do_meet(cell, found) for cell in cells for found in others)


def cells_of(view: Played, depth_slice: Any = None) -> list[tuple[Any, ...]]:
    """The cells that a view attaches: all that it has, or the one slice that is given."""
    return [cell for cell, _, _ in touches_of_view(view, None, None, depth_slice)]


def resolve_rules(view: Played, resolve: Played) -> Iterator[tuple[int, str, bool]]:
    """Rule 307, on the view of a color and its resolve view."""
    yield 307, "samples of the color", texture_of(view)["samples"] == 4
    yield from color_rules(307, "resolve view", resolve, FLAT_DIMS)
    yield 307, "samples", texture_of(resolve)["samples"] == 1
    yield 307, "same format", texture_of(resolve)["format"] == texture_of(view)["format"]
    for name, one, two in zip(("width", "height"), width_and_height(view), width_and_height(resolve)):
        yield 307, name, one == two


def attached_views(begin: Played) -> list[Played]:
    """The views of the colors and of `depth`, of which there is one at least."""
    return [view for _, view, _ in colors_of(begin)] + depth_of(begin)


def color_formats(begin: Played) -> list[Any]:
    """Of each color of a pass the format, or None where it is null."""
    found = iter([texture_of(view)["format"] for _, view, _ in colors_of(begin)])
    return [None if color is None else next(found) for color in begin.call["colors"]]


def without_last_nulls(items: list[Any] | tuple[()]) -> list[Any]:
    items = list(items)
    while items and items[-1] is None:
        items.pop()
    return items


def touches(begin: Played) -> list[Touch]:
    """What a pass touches of what is attached to it."""
    found = []
    for color, view, resolve in colors_of(begin):
        found += touches_of_view(view, "attachment", ACCESSES[color["load"], color["store"]], color["depthSlice"])
        if resolve is not None:
            found += touches_of_view(resolve, "attachment", "write")
    for view in depth_of(begin):
        found += touches_of_depth(begin.call["depth"], view)
    return found


def touches_of_depth(depth: dict[str, Any], view: Played) -> list[tuple[tuple[Any, ...], str, str]]:
    """Each aspect goes by its own keys."""
    found = []
    for aspect, mip, layer in textures.subresources_of_view(view):
        load, store, read_only = ASPECT_KEYS[aspect]
        usage, kind = ("attachment-read", "read") if depth[read_only] else ("attachment", ACCESSES[depth[load], depth[store]])
        found += in_texture(view.uses["texture"], [(aspect, mip, layer)], usage, kind)
    return found


def touches_of_view(view: Any, usage: Any, kind: Any, depth_slice: Any = None) -> list[Any]:
    """The subresources of a view, or of a 3d one the slice of its mip level that is given."""
    texture, subresources = view.uses["texture"], textures.subresources_of_view(view)
    if depth_slice is None:
        return in_texture(texture, subresources, usage, kind)
    return [touch for aspect, mip, _ in subresources for touch in in_slices(texture, aspect, mip, depth_slice, 1, usage, kind)]
