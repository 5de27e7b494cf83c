"""The rules of what is bound: bind group layouts, pipeline layouts and bind groups.

An entry of a layout or of a bind group is the dictionary that the script has, with all of its keys. An entry
of a bind group goes with the object that it binds.
"""

from __future__ import annotations

from typing import TYPE_CHECKING, Any, Iterator

from . import buffers, formats, textures
from .calls import bound_by
from .fixed_function import kind_of_sampler
from .limits import of_all as limits_of_all
from .rules import at_most

if TYPE_CHECKING:
    from model.history import Played

VERTEX, FRAGMENT, COMPUTE = 1, 2, 4
STAGES = {"vertex": VERTEX, "fragment": FRAGMENT, "compute": COMPUTE}
ALL_STAGES = VERTEX | FRAGMENT | COMPUTE
UNIFORM, STORAGE = 64, 128

MOST_LAYOUTS = limits_of_all("maxBindGroups")
STORAGE_KINDS = ("storage", "read-only-storage")

# What a stage may see: the kinds that are counted together, and the limit that says how many there may be.
SEEN_LIMITS = {
    "textures": (("texture",), "maxSampledTexturesPerShaderStage"),
    "samplers": (("sampler",), "maxSamplersPerShaderStage"),
    "storage buffers": (STORAGE_KINDS, "maxStorageBuffersPerShaderStage"),
    "storage textures": (("storage-texture",), "maxStorageTexturesPerShaderStage"),
    "uniform buffers": (("uniform",), "maxUniformBuffersPerShaderStage"),
}

# The limits that say how many buffers may be dynamic, whatever stages see them.
DYNAMIC_LIMITS = {
    "uniform buffers": (("uniform",), "maxDynamicUniformBuffersPerPipelineLayout"),
    "storage buffers": (STORAGE_KINDS, "maxDynamicStorageBuffersPerPipelineLayout"),
}

# Of each kind of buffer the usage that is asked for, and the limit that says how many bytes may be bound.
BUFFER_KINDS = {
    "uniform": (UNIFORM, "maxUniformBufferBindingSize"),
    "storage": (STORAGE, "maxStorageBufferBindingSize"),
    "read-only-storage": (STORAGE, "maxStorageBufferBindingSize"),
}

# Of each kind of buffer of what offsets have to be multiples, as what is bound begins.
ALIGNMENTS = {
    "uniform": limits_of_all("minUniformBufferOffsetAlignment"),
    "storage": limits_of_all("minStorageBufferOffsetAlignment"),
    "read-only-storage": limits_of_all("minStorageBufferOffsetAlignment"),
}

# What has to be bound for each kind.
WANTED = {
    "uniform": "buffer", "storage": "buffer", "read-only-storage": "buffer", "sampler": "sampler", "texture": "view",
    "storage-texture": "view",
}

# What is sampled as one of these will also do for another sample type than its own.
ALSO_SAMPLED = {("float", "unfilterable-float"), ("depth", "unfilterable-float")}


def layout_rules(entries: list[Any], limits: dict[str, int]) -> Iterator[tuple[int, str, bool]]:
    """The rules of createBindGroupLayout."""
    bindings = [entry["binding"] for entry in entries]
    yield 130, "bindings", len(set(bindings)) == len(bindings)
    for binding in bindings:
        yield at_most(131, "binding", binding, limits["maxBindingsPerBindGroup"] - 1)
    for entry in entries:
        yield at_most(132, "visibility", entry["visibility"], ALL_STAGES)
    for entry in entries:
        if entry["visibility"] & VERTEX:
            yield 133, written_what(entry), not is_written(entry)
    for entry in entries:
        if entry["kind"] == "texture" and entry["multi"]:
            yield 134, f"dimension {entry['dim']}", entry["dim"] == "2d"
            yield 134, f"sample type {entry['sample']}", entry["sample"] != "float"
    for entry in entries:
        if entry["kind"] == "storage-texture":
            yield 135, "dimension of a storage texture" if is_flat(entry) else entry["dim"], is_flat(entry)
            yield 135, f"{entry['access']} access", formats.has_access(entry["format"], entry["access"])
    yield from seen_rules(136, entries, limits)
    yield from dynamic_rules(137, entries, limits)


def is_written(entry: dict[Any, Any]) -> bool:
    """Shaders may write a storage buffer that is not only read, and a storage texture that is not only read."""
    return entry["kind"] == "storage" or entry["kind"] == "storage-texture" and entry["access"] != "read-only"


def written_what(entry: Any) -> Any:
    """What the vertex stage sees, for the counts: those kinds of which some may not be seen there, or any other."""
    if entry["kind"] == "storage-texture":
        return f"storage texture, {entry['access']}"
    return entry["kind"] if entry["kind"] in STORAGE_KINDS else "any of the others"


def is_flat(entry: dict[str, int | str]) -> bool:
    return entry["dim"] not in ("cube", "cube-array")


def seen_rules(number: Any, entries: Any, limits: Any) -> Iterator[tuple[int, str, bool]]:
    """Rules 136 and 141: what each stage sees of each sort."""
    for stage, bit in STAGES.items():
        for sort, (kinds, limit) in SEEN_LIMITS.items():
            count = sum(entry["kind"] in kinds and entry["visibility"] & bit != 0 for entry in entries)
            yield at_most(number, f"{stage} {sort}", count, limits[limit])


def dynamic_rules(number: Any, entries: Any, limits: Any) -> Iterator[tuple[int, str, bool]]:
    """Rules 137 and 142: what is dynamic of each sort."""
    for sort, (kinds, limit) in DYNAMIC_LIMITS.items():
        count = sum(entry["kind"] in kinds and entry["dynamic"] for entry in entries)
        yield at_most(number, f"dynamic {sort}", count, limits[limit])


def pipeline_layout_rules(layouts: list[Any], limits: dict[str, int]) -> Iterator[tuple[int, str, bool]]:
    """The rules of createPipelineLayout on the entries of its layouts, after those on each layout. A null has no entry, and counts."""
    yield at_most(140, "layouts", len(layouts), MOST_LAYOUTS)
    entries = [entry for layout in layouts for entry in layout]
    yield from seen_rules(141, entries, limits)
    yield from dynamic_rules(142, entries, limits)


def group_rules(layout: Any, bound: Any, limits: Any) -> Iterator[tuple[int, str, bool]]:
    """The rules of createBindGroup on the entries of its layout, and on pairs of an entry and what it binds, after those on each
    object."""
    wanted = {entry["binding"]: entry for entry in layout}
    bindings = [entry["binding"] for entry, _ in bound]
    yield 150, "each binding is there", set(wanted) <= set(bindings)
    yield 150, "no binding twice", len(set(bindings)) == len(bindings)
    yield 150, "bindings are the layout's", set(bindings) <= set(wanted)
    together = [(wanted[entry["binding"]], entry, thing) for entry, thing in bound]
    for asked, entry, _ in together:
        yield 151, asked["kind"], bound_by(entry) == WANTED[asked["kind"]]
    in_buffers = [(asked, thing.call, *range_of(entry, thing)) for asked, entry, thing in together if asked["kind"] in BUFFER_KINDS]
    yield from buffer_rules(in_buffers, limits)
    yield from view_rules([(asked, thing) for asked, _, thing in together if asked["kind"] in ("texture", "storage-texture")])
    for asked, _, thing in together:
        if asked["kind"] == "sampler":
            yield 157, f"{asked['type']}", takes_sampler(asked["type"], kind_of_sampler(thing.call))


def range_of(entry: dict[Any, Any], buffer: Played) -> tuple[int, int, str]:
    """The offset and the size of what is bound of a buffer; a size that is left out is what remains, and then has no number of
    its own."""
    if entry["size"] is None:
        return entry["offset"], buffers.rest(buffer.call, buffer.is_valid, entry["offset"]), "size left out"
    return entry["offset"], entry["size"], "size"


def buffer_rules(in_buffers: list[Any], limits: dict[str, int]) -> Iterator[tuple[int, str, bool]]:
    """Rules 152, 153 and 154, on what is asked, a buffer, an offset, a size, and a word for the size."""
    for asked, buffer, _, _, _ in in_buffers:
        yield 152, asked["kind"], buffer["usage"] & BUFFER_KINDS[asked["kind"]][0] != 0
    for asked, buffer, offset, size, word in in_buffers:
        yield 153, "offset", offset % ALIGNMENTS[asked["kind"]] == 0
        yield 153, f"{word} is not 0", size != 0
        yield 153, "just the end of the range" if offset + size == buffer["size"] else "range", buffers.fits(buffer, offset, size)
    for asked, _, _, size, word in in_buffers:
        yield at_most(154, f"{asked['kind']} {word}", size, limits[BUFFER_KINDS[asked["kind"]][1]])
        if asked["kind"] in STORAGE_KINDS:
            yield 154, f"{asked['kind']} {word}, a multiple of 4", size % 4 == 0
        if asked["minSize"] > 0:
            yield 154, f"just the least of {word}" if size == asked["minSize"] else f"least {word}", size >= asked["minSize"]


def view_rules(bound: Any) -> Iterator[tuple[int, str, bool]]:
    """Rules 155 and 156, on pairs of what is asked and a view."""
    told = [(asked, textures.told(view), view.uses["texture"].call) for asked, view in bound]
    for asked, view, texture in told:
        if asked["kind"] == "texture":
            yield from sampled_rules(asked, view, texture)
    for asked, view, texture in told:
        if asked["kind"] == "storage-texture":
            yield 156, "STORAGE_BINDING", texture["usage"] & textures.STORAGE_BINDING != 0
            yield 156, "one mip", view["mips"] == 1
            yield 156, "format", texture["format"] == asked["format"]
            yield 156, f"dimension {asked['dim']}", view["dim"] == asked["dim"]


def sampled_rules(asked: dict[Any, Any], view: Any, texture: dict[Any, Any]) -> Iterator[Any]:
    """Rule 155: what a view has to be that is sampled."""
    yield 155, "TEXTURE_BINDING", texture["usage"] & textures.TEXTURE_BINDING != 0
    aspects = formats.named_aspects(texture["format"], view["aspect"])
    yield 155, "one aspect", len(aspects) == 1
    sampled = formats.sampled_as(texture["format"], aspects[0])
    yield 155, f"{asked['sample']} of {sampled}", takes_sample(asked["sample"], sampled)
    yield 155, f"dimension {asked['dim']}", view["dim"] == asked["dim"]
    yield 155, "multi" if asked["multi"] else "not multi", (texture["samples"] == 4) == asked["multi"]


def takes_sample(asked: str, sampled: str) -> bool:
    return asked == sampled or (sampled, asked) in ALSO_SAMPLED


def takes_sampler(asked: Any, kind: Any) -> Any:
    """A sampler is of the kind that is asked for; one that does not filter will do for one that does."""
    return kind == asked or (kind, asked) == ("non-filtering", "filtering")
