"""Entries of bind group layouts and of interfaces: good ones, ones that come just up to a limit, and ways to leave one rule unmet.

Keys with their usual value are sometimes left out of an entry; `told` does that, when the call is added to the script.
"""

from __future__ import annotations

from typing import TYPE_CHECKING, Any

from .limiting import of as limit
from .resources import COLOR_FORMATS, DEPTH_FORMATS, STORAGE_FORMATS, VIEW_DIMS

if TYPE_CHECKING:
    from random import Random

    from .handed import Entry

GREATEST_32 = 2**32 - 1
VERTEX, COMPUTE = 1, 4
SAMPLERS = ["filtering", "non-filtering", "comparison"]
SAMPLES = ["float", "unfilterable-float", "depth", "sint", "uint"]
ACCESSES = ["read-only", "write-only", "read-write"]
BUFFER_KINDS = ["uniform", "storage", "read-only-storage"]
KINDS = [*BUFFER_KINDS, "sampler", "texture", "storage-texture"]
FLAT_DIMS = ["1d", "2d", "2d-array", "3d"]
READ_WRITE_FORMATS = ["r32uint", "r32float"]
SIZE_LIMITS = {
    "uniform": "maxUniformBufferBindingSize",
    "storage": "maxStorageBufferBindingSize",
    "read-only-storage": "maxStorageBufferBindingSize",
}

# The sorts of bindings that are counted together: their kinds, and the limits of how many a stage may see, and how many may be dynamic.
COUNTED = {
    "texture": (["texture"], "maxSampledTexturesPerShaderStage", None),
    "sampler": (["sampler"], "maxSamplersPerShaderStage", None),
    "storage buffer": (["storage", "read-only-storage"], "maxStorageBuffersPerShaderStage", "maxDynamicStorageBuffersPerPipelineLayout"),
    "storage texture": (["storage-texture"], "maxStorageTexturesPerShaderStage", None),
    "uniform buffer": (["uniform"], "maxUniformBuffersPerShaderStage", "maxDynamicUniformBuffersPerPipelineLayout"),
}


def most_size(kind: str) -> int:
    """How many bytes may be bound of a kind of buffer, or of one of a kind that may be of the default size."""
    return min(limit(SIZE_LIMITS[kind]), limit("maxBufferSize"))


def counted(sort: str) -> tuple[list[str], int, int | None]:
    """Of a sort of bindings its kinds, how many a stage may see, and how many may be dynamic, or None."""
    kinds, seen, dynamic = COUNTED[sort]
    return kinds, limit(seen), None if dynamic is None else limit(dynamic)


def most_dynamic(sort: str) -> int:
    """How many of a sort of buffers may be dynamic."""
    dynamic = counted(sort)[2]
    assert dynamic is not None
    return dynamic


USUAL = {
    "dynamic": False,
    "minSize": 0,
    "type": "filtering",
    "sample": "float",
    "dim": "2d",
    "multi": False,
    "access": "write-only",
    "offset": 0,
}


def told(random: Random, entry: Entry) -> Entry:
    """An entry as the script has it: keys that have their usual value are left out at times."""
    return {key: value for key, value in entry.items() if key not in USUAL or USUAL[key] != value or random.random() < 0.3}


def used_by(random: Random, group: int, entry: Entry) -> Entry:
    """An entry of an interface that a layout offers; what is dynamic and the least size make no difference."""
    used = {"group": group, **{key: value for key, value in entry.items() if key != "visibility"}}
    if "dynamic" in used and random.random() < 0.5:
        used["dynamic"] = random.random() < 0.5
        used["minSize"] = random.choice([0, 4, 2**53 - 1])
    return used


def some_kind(random: Random, word: str | None = None) -> Entry:
    """A good kind of a binding, with all of its keys."""
    word = word or random.choice(KINDS)
    if word in BUFFER_KINDS:
        least = random.choice([0, 0, 0, 0, 4, 16, 256, 257, most_size(word), most_size(word) - 4])
        return {"kind": word, "dynamic": random.random() < 0.2, "minSize": least}
    if word == "sampler":
        return {"kind": word, "type": random.choice(SAMPLERS)}
    if word == "storage-texture":
        access = random.choice(ACCESSES)
        format = random.choice(READ_WRITE_FORMATS if access == "read-write" else STORAGE_FORMATS)
        return {"kind": word, "access": access, "format": format, "dim": random.choice(["2d", "2d", *FLAT_DIMS])}
    if random.random() < 0.25:
        return {"kind": word, "sample": random.choice(["unfilterable-float", "depth", "uint", "uint"]), "dim": "2d", "multi": True}
    sample = random.choice(["float"] * 9 + ["unfilterable-float"] * 5 + ["depth"] * 5 + ["uint"] * 4 + ["sint"])
    dims = ["2d", "2d-array", "cube", "cube-array"] if sample == "depth" else ["2d", "2d", *VIEW_DIMS]
    return {"kind": word, "sample": sample, "dim": random.choice(dims), "multi": False}


def is_written(kind: Entry) -> bool:
    return kind["kind"] == "storage" or kind["kind"] == "storage-texture" and kind["access"] != "read-only"


def some_visibility(random: Random, kind: Entry) -> int:
    """Stages that may see a binding of a kind."""
    return random.choice([0, 2, 4, 4, 6] if is_written(kind) else [0, 1, 2, 3, 4, 4, 5, 6, 7, 7])


def with_binding(random: Random, kinds: list[Entry], first: int = 0) -> list[Entry]:
    """Entries of some kinds, each with a binding of its own, from a first one on, or at times at the limit."""
    bindings = list(range(first, first + len(kinds)))
    if random.random() < 0.1 and bindings:
        bindings[-1] = limit("maxBindingsPerBindGroup") - 1
    random.shuffle(bindings)
    return [{"binding": binding, "visibility": some_visibility(random, kind), **kind} for binding, kind in zip(bindings, kinds)]


def some_entries(random: Random, most: int = 5) -> list[Entry]:
    """The entries of a good layout."""
    return with_binding(random, [some_kind(random) for _ in range(random.randint(0, most))], random.choice([0, 0, 0, 1, 7]))


def of_sort(random: Random, sort: str, stage: int = 0) -> Entry:
    """A kind of a counted sort, that a stage may see."""
    while True:
        kind = some_kind(random, random.choice(COUNTED[sort][0]))
        if stage != VERTEX or not is_written(kind):
            return kind


def seen_entries(random: Random, sort: str, stage: int, count: int) -> list[Entry]:
    """So many entries of a sort that a stage sees, each seen by others too or not."""
    kinds = [of_sort(random, sort, stage) for _ in range(count)]
    for kind in kinds:
        if "dynamic" in kind:
            kind["dynamic"] = False
    entries = with_binding(random, kinds)
    for entry in entries:
        entry["visibility"] |= stage
    return entries


def unseen_entries(random: Random, sort: str, stage: int) -> list[Entry]:
    """A few entries of the same sort that the stage does not see, and of other sorts, that it may see."""
    entries = with_binding(random, [of_sort(random, sort) for _ in range(random.choice([0, 0, 1, 2]))], 40)
    for entry in entries:
        entry["visibility"] = random.choice([0, entry["visibility"] & ~stage])
        entry.update({"dynamic": False} if "dynamic" in entry else {})
    others = [other for other in COUNTED if other != sort]
    return entries + with_binding(random, [of_sort(random, random.choice(others)) for _ in range(random.choice([0, 1, 2]))], 50)


def border_of_stage(random: Random, more: int = 0) -> list[Entry]:
    """Entries of which a stage sees just as many as it may of one sort, or so many more."""
    sort, stage = random.choice(list(COUNTED)), random.choice([1, 2, 4])
    entries = seen_entries(random, sort, stage, counted(sort)[1] + more) + unseen_entries(random, sort, stage)
    random.shuffle(entries)
    return entries


def dynamic_entries(random: Random, sort: str, count: int) -> list[Entry]:
    """So many dynamic buffers of a sort, whatever sees them."""
    return with_binding(random, [{**of_sort(random, sort), "dynamic": True} for _ in range(count)])


def border_of_dynamic(random: Random, more: int = 0) -> list[Entry]:
    """Just as many dynamic buffers of one sort as there may be, or so many more, and others that are not dynamic."""
    sort = random.choice(["uniform buffer", "storage buffer"])
    others = [{**of_sort(random, sort), "dynamic": False} for _ in range(random.randint(0, 3))]
    entries = dynamic_entries(random, sort, most_dynamic(sort) + more) + with_binding(random, others, 30)
    random.shuffle(entries)
    return entries


def parts_of(random: Random, entries: list[Entry], most: int = 4) -> list[list[Entry]]:
    """The entries in two to so many lists, in order, with bindings from 0 on in each."""
    cuts = sorted(random.randint(0, len(entries)) for _ in range(random.randint(1, most - 1)))
    parts = [entries[low:high] for low, high in zip([0, *cuts], [*cuts, len(entries)])]
    return [[{**entry, "binding": place} for place, entry in enumerate(part)] for part in parts]


def entry_for(random: Random, entries: list[Entry], word: str | None) -> Entry:
    """A new entry of a kind in place of one of some entries, or beside them."""
    entry = with_binding(random, [some_kind(random, word)], 60)[0]
    if entries and random.random() < 0.5:
        at = random.randrange(len(entries))
        entries[at] = {**entry, "binding": entries[at]["binding"]}
        return entries[at]
    entries.insert(random.randint(0, len(entries)), entry)
    return entry


def binding_twice(random: Random, entries: list[Entry]) -> None:
    for _ in range(2 - len(entries)):
        entries.append(with_binding(random, [some_kind(random)], 20)[0])
    one, other = random.sample(entries, 2)
    other["binding"] = one["binding"]


def binding_past(random: Random, entries: list[Entry]) -> None:
    entry_for(random, entries, None)["binding"] = (
        limit("maxBindingsPerBindGroup") + random.choice([0, 0, 1, 1000]) if random.random() < 0.8 else GREATEST_32
    )


def unknown_stage(random: Random, entries: list[Entry]) -> None:
    entry = entry_for(random, entries, None)
    entry["visibility"] = random.choice([8, 8, 8, 9, 15, entry["visibility"] + 8, 2**31, GREATEST_32])


def written_at_vertex(random: Random, entries: list[Entry]) -> None:
    word = random.choice(["storage", "storage-texture", "storage-texture"])
    entry = entry_for(random, entries, word)
    if word == "storage-texture":
        entry["access"] = random.choice(["write-only", "read-write"])
        entry["format"] = random.choice(READ_WRITE_FORMATS)
    entry["visibility"] = random.choice([1, 3, 5, 7])


def multisampled_dim(random: Random, entries: list[Entry]) -> None:
    entry = entry_for(random, entries, "texture")
    entry.update(multi=True, dim=random.choice(["2d-array", *(dim for dim in VIEW_DIMS if dim != "2d")]), sample=random.choice(SAMPLES[1:]))


def multisampled_float(random: Random, entries: list[Entry]) -> None:
    entry_for(random, entries, "texture").update(multi=True, dim="2d", sample="float")


def multisampled_all(random: Random, entries: list[Entry]) -> None:
    entry_for(random, entries, "texture").update(multi=True, dim="2d", sample=random.choice(SAMPLES[1:]))


def storage_cube(random: Random, entries: list[Entry]) -> None:
    entry_for(random, entries, "storage-texture")["dim"] = random.choice(["cube", "cube-array"])


def no_access(random: Random, entries: list[Entry]) -> None:
    entry = entry_for(random, entries, "storage-texture")
    entry["access"] = random.choice(ACCESSES)
    fit = READ_WRITE_FORMATS if entry["access"] == "read-write" else STORAGE_FORMATS
    others = STORAGE_FORMATS if entry["access"] == "read-write" and random.random() < 0.6 else COLOR_FORMATS + DEPTH_FORMATS
    entry["format"] = random.choice([format for format in others if format not in fit])
    if entry["access"] != "read-only":
        entry["visibility"] &= ~VERTEX


def add(random: Random, entries: list[Entry], others: list[Entry], first: int) -> None:
    """Adds other entries, whose bindings are moved to stand apart."""
    entries += [{**entry, "binding": entry["binding"] + first if entry["binding"] < 900 else entry["binding"]} for entry in others]
    random.shuffle(entries)


def too_many_seen(random: Random, entries: list[Entry]) -> None:
    add(random, entries, border_of_stage(random, random.choice([1, 1, 1, 2])), 100)


def too_many_dynamic(random: Random, entries: list[Entry]) -> None:
    add(random, entries, border_of_dynamic(random, 1), 200)


# In the order of their rules.
LAYOUT_FAULTS = [
    binding_twice, binding_past, unknown_stage, written_at_vertex, written_at_vertex, multisampled_dim, multisampled_float,
    multisampled_all, storage_cube, no_access, no_access, too_many_seen, too_many_seen, too_many_dynamic, too_many_dynamic,
]


def spoil_entries(random: Random, entries: list[Entry]) -> None:
    """Leaves one rule of a layout unmet, or two that are near each other; what fills a layout comes last."""
    first = random.randrange(len(LAYOUT_FAULTS))
    faults = random.sample(LAYOUT_FAULTS[first:first + 4], min(random.choice([1, 2]), len(LAYOUT_FAULTS) - first))
    for fault in sorted(faults, key=lambda one: one in (too_many_seen, too_many_dynamic)):
        fault(random, entries)


def other_value(random: Random, key: str, value: Any) -> Any:
    """Another value of a key of a kind."""
    values: dict[str, list[Any]] = {
        "type": SAMPLERS, "sample": SAMPLES, "dim": VIEW_DIMS, "multi": [False, True], "access": ACCESSES, "format": COLOR_FORMATS,
        "kind": KINDS,
    }
    return random.choice([other for other in values[key] if other != value])
