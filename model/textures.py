"""The rules of createTexture and createView, and what a view is of which keys are left out."""

from __future__ import annotations

from typing import TYPE_CHECKING, Any, Iterator

from . import formats
from .rules import at_most

if TYPE_CHECKING:
    from model.forms import Call, Rules
    from model.history import Played

COPY_SRC, COPY_DST, TEXTURE_BINDING, STORAGE_BINDING, RENDER_ATTACHMENT = 1, 2, 4, 8, 16
ALL_USAGES = 31


def create_rules(call: Call, limits: dict[str, int]) -> Rules:
    usage = call["usage"]
    yield 110, "some usage", usage != 0
    yield 110, "known usages", usage <= ALL_USAGES
    for name, length in zip(("width", "height", "depth"), call["size"]):
        yield 111, name, length >= 1
    width, height, depth = call["size"]
    yield from limit_rules(call["dim"], width, height, depth, limits)
    yield from mip_rules(call)
    yield 114, "samples", call["samples"] in (1, 4)
    if call["samples"] == 4:
        yield from four_sample_rules(call)
    if call["dim"] != "2d":
        yield 116, f"color of {call['dim']}", formats.is_color(call["format"])
    yield 117, "RENDER_ATTACHMENT", not (call["dim"] == "1d" and usage & RENDER_ATTACHMENT)
    if usage & STORAGE_BINDING:
        yield 118, "storage access", formats.has_storage_access(call["format"])


def limit_rules(dim: str, width: int, height: int, depth: int, limits: dict[str, int]) -> Iterator[tuple[int, str, bool]]:
    """Rule 112, on a size of three numbers, which each dimension takes in another way."""
    if dim == "1d":
        yield at_most(112, "1d width", width, limits["maxTextureDimension1D"])
        yield 112, "1d height", height == 1
        yield 112, "1d depth", depth == 1
    elif dim == "2d":
        yield at_most(112, "2d width", width, limits["maxTextureDimension2D"])
        yield at_most(112, "2d height", height, limits["maxTextureDimension2D"])
        yield at_most(112, "2d layers", depth, limits["maxTextureArrayLayers"])
    else:
        for name, length in (("width", width), ("height", height), ("depth", depth)):
            yield at_most(112, f"3d {name}", length, limits["maxTextureDimension3D"])


def mip_rules(call: dict[str, Any]) -> Iterator[tuple[int, str, bool]]:
    """Rule 113. A number has as many bits as it can be halved until it is 0."""
    extents = call["size"] if call["dim"] == "3d" else call["size"][:2]
    yield 113, "no mips", call["mips"] >= 1
    if call["dim"] == "1d":
        yield 113, "1d mips", call["mips"] == 1
    else:
        yield 113, f"{call['dim']} mips", call["mips"] <= max(extents).bit_length()


def four_sample_rules(call: dict[str, Any]) -> Iterator[tuple[int, str, bool]]:
    """Rule 115, on a texture with 4 samples."""
    yield 115, "2d", call["dim"] == "2d"
    yield 115, "one mip", call["mips"] == 1
    yield 115, "one layer", call["size"][2] == 1
    yield 115, "RENDER_ATTACHMENT", call["usage"] & RENDER_ATTACHMENT != 0
    yield 115, "STORAGE_BINDING", call["usage"] & STORAGE_BINDING == 0
    yield 115, "format", formats.may_have_four_samples(call["format"])


def view_of(call: dict[str, Any], texture: dict[str, Any], is_valid: bool) -> dict[str, int | str]:
    """A createView with the keys that were left out.

    The dimension is that of the texture, and of a 2D texture with several layers an array. The mip levels are those that
    remain. The layers are those that remain in an array, six in a cube, and else one. Of an invalid texture nothing is
    known: the dimension is 2d, and nothing remains.
    """
    dim = call["dim"] or (dim_by(texture) if is_valid else "2d")
    mips = max(texture["mips"] - call["baseMip"], 0) if is_valid else 0
    layers = max(formats.layer_count(texture) - call["baseLayer"], 0) if is_valid else 0
    fixed = {"1d": 1, "2d": 1, "3d": 1, "cube": 6}
    left_out = {"dim": dim, "mips": mips, "layers": fixed.get(dim, layers)}
    return {**call, **{key: value for key, value in left_out.items() if call[key] is None}}


def told(view: Played) -> Call:
    """What a valid view is, with the keys that were left out."""
    return view_of(view.call, view.uses["texture"].call, True)


def subresources_of_view(view: Played) -> list[tuple[str, int, int]]:
    """The subresources of a valid view, as triples of aspect, mip level and layer. One of a 3D texture has the layer 0."""
    known = told(view)
    aspects = formats.named_aspects(view.uses["texture"].call["format"], known["aspect"])
    mips = range(known["baseMip"], known["baseMip"] + known["mips"])
    layers = range(known["baseLayer"], known["baseLayer"] + known["layers"])
    return [(aspect, mip, layer) for aspect in aspects for mip in mips for layer in layers]


def dim_by(texture: dict[str, Any]) -> str:
    if texture["dim"] == "2d" and formats.layer_count(texture) > 1:
        return "2d-array"
    return texture["dim"]


def view_rules(view: Any, texture: dict[Any, Any]) -> Iterator[Any]:
    """The rules of createView, after those that the texture is of this device, not dropped, and valid."""
    dim, layers = view["dim"], view["layers"]
    yield 120, view["aspect"], formats.named_aspects(texture["format"], view["aspect"]) != ()
    yield 121, "no mips", view["mips"] >= 1
    yield 121, "mips", view["baseMip"] + view["mips"] <= texture["mips"]
    yield 122, "no layers", layers >= 1
    yield 122, f"layers of {texture['dim']}", view["baseLayer"] + layers <= formats.layer_count(texture)
    yield 123, f"{dim} on {texture['dim']}", texture["dim"] == (dim if dim in ("1d", "3d") else "2d")
    yield from layers_of_dim_rules(dim, layers)
    if dim in ("cube", "cube-array"):
        yield 125, f"square {dim}", texture["size"][0] == texture["size"][1]
    if texture["samples"] == 4:
        yield 126, "samples", dim == "2d"


def layers_of_dim_rules(dim: Any, layers: Any) -> Iterator[tuple[int, str, bool]]:
    """Rule 124. That there is a layer is asked before, by rule 122."""
    if dim in ("1d", "2d", "3d"):
        yield 124, f"{dim} layer", layers == 1
    if dim == "cube":
        yield 124, "cube layers", layers == 6
    if dim == "cube-array":
        yield 124, "cube-array layers", layers % 6 == 0
