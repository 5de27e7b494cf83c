"""WGSL that is written of what a pipeline declares: a shader that uses each binding of its interface, reads each attribute of its vertex
buffers, and writes each of its targets. It is written and never read."""

from __future__ import annotations

from typing import Any, Iterator

VALUES = {"float": "f32", "unfilterable-float": "f32", "sint": "i32", "uint": "u32"}
ACCESSES = {"read-only": "read", "write-only": "write", "read-write": "read_write"}
STORED = {"rgba8unorm", "bgra8unorm", "r32uint", "r32float", "rgba16float", "rgba32float"}
SPACES = {"uniform": "uniform", "storage": "storage, read_write", "read-only-storage": "storage, read"}
COORDINATES = {
    "1d": "0.0", "2d": "vec2f()", "2d-array": "vec2f(), 0", "cube": "vec3f(1.0)", "cube-array": "vec3f(1.0), 0", "3d": "vec3f()",
}
ATTRIBUTES = {
    "uint8x2": "vec2u", "uint8x4": "vec4u", "uint16x2": "vec2u", "uint32": "u32", "sint32": "i32", "unorm8x4": "vec4f",
    "float16x2": "vec2f", "float16x4": "vec4f", "float32": "f32", "float32x2": "vec2f", "float32x3": "vec3f", "float32x4": "vec4f",
}
# How many inputs and outputs a shader has at most: what a pipeline has more of is not used.
MOST_LOCATIONS, MOST_TARGETS = 16, 8
STAGES = {"vertex": "v", "fragment": "f", "compute": "c"}

Entry = dict  # Of an interface.


def can_say(call: dict[str, Any]) -> bool:
    """Whether WGSL can say what a pipeline declares, so that the pipeline has, or derives, just that."""
    is_auto = call["layout"] == "auto"
    kept: dict[Any, Any] = {}
    for entry in call.get("iface", []):
        at = (entry.get("stage"), entry["group"], entry["binding"])
        if kept.setdefault(at, kind_of(entry)) != kind_of(entry) or not is_word(entry, is_auto):
            return False
    return not is_auto or all(is_derived(entry, call["iface"]) for entry in call.get("iface", []))


def kind_of(entry: dict[str, Any]) -> tuple[Any, ...]:
    """What tells the type of a variable."""
    defaults = {"type": "filtering", "sample": "float", "dim": "2d", "multi": False, "access": "write-only"}
    return (entry["kind"], *(entry.get(key, value) for key, value in defaults.items()), entry.get("format"))


def is_word(entry: dict[str, Any], is_auto: bool) -> bool:
    """Whether there is a type of WGSL for what an entry has."""
    dim = entry.get("dim", "2d")
    if max(entry["group"], entry["binding"]) >= 2**31:
        return False
    if entry["kind"] == "storage":
        return entry.get("stage") != "vertex"
    if entry["kind"] == "storage-texture":
        if entry.get("stage") == "vertex" and entry.get("access") != "read-only":
            return False
        return dim in ("1d", "2d", "2d-array", "3d") and entry["format"] in STORED
    if entry["kind"] == "texture":
        is_deep = entry.get("sample") == "depth"
        return (dim == "2d" if entry.get("multi") else True) and not (is_deep and dim in ("1d", "3d"))
    return not (entry["kind"] == "sampler" and is_auto and entry.get("type") == "non-filtering")


def is_derived(entry: dict[str, Any], iface: list[dict[str, Any]]) -> bool:
    """Whether a layout that is derived of a shader has an entry as it is declared: floats can be filtered where they are sampled."""
    if entry["kind"] != "texture" or entry.get("sample", "float") != "float":
        return True
    is_sampled = sampler_for(entry, iface) is not None and not entry.get("multi")
    return is_sampled and (entry.get("dim", "2d") != "1d" or entry.get("stage") == "fragment")


def sampler_for(entry: dict[str, Any], iface: list[dict[str, Any]]) -> dict[str, Any] | None:
    """A sampler that filters, of the stage of a texture."""
    for other in iface:
        if other["kind"] == "sampler" and other.get("type", "filtering") == "filtering" and other.get("stage") == entry.get("stage"):
            return other
    return None


def type_of(entry: dict[str, Any]) -> str:
    """The type of a variable."""
    dim = entry.get("dim", "2d").replace("-", "_")
    if entry["kind"] == "sampler":
        return "sampler_comparison" if entry.get("type") == "comparison" else "sampler"
    if entry["kind"] == "storage-texture":
        return f"texture_storage_{dim}<{entry['format']}, {ACCESSES[entry.get('access', 'write-only')]}>"
    if entry["kind"] == "texture":
        sample, many = entry.get("sample", "float"), "multisampled_" if entry.get("multi") else ""
        return f"texture_depth_{many}{dim}" if sample == "depth" else f"texture_{many}{dim}<{VALUES[sample]}>"
    return "u32"


def name_of(entry: dict[str, Any]) -> str:
    return f"{STAGES[entry.get('stage', 'compute')]}{entry['group']}_{entry['binding']}"


def distinct(iface: list[dict[str, Any]]) -> list[dict[str, Any]]:
    """The entries, each binding of a stage once."""
    return list({(entry.get("stage"), entry["group"], entry["binding"]): entry for entry in iface}.values())


def variables(iface: list[dict[str, Any]]) -> Iterator[str]:
    for entry in iface:
        space = f"<{SPACES[entry['kind']]}>" if entry["kind"] in SPACES else ""
        yield f"@group({entry['group']}) @binding({entry['binding']}) var{space} {name_of(entry)}: {type_of(entry)};"


def uses(iface: list[dict[str, Any]], stage: str | None, is_auto: bool) -> Iterator[str]:
    """A statement that uses each binding of a stage."""
    for entry in iface:
        if entry.get("stage") != stage:
            continue
        name, dim = name_of(entry), entry.get("dim", "2d")
        if is_auto and entry["kind"] == "texture" and entry.get("sample", "float") == "float":
            sampler = name_of(sampler_for(entry, iface) or {})
            level, what = ("", "textureSample") if dim == "1d" else (", 0.0", "textureSampleLevel")
            yield f"  _ = {what}({name}, {sampler}, {COORDINATES[dim]}{level});"
        else:
            yield f"  _ = {'&' if entry['kind'] in SPACES else ''}{name};"


def inputs(buffers: list[dict[str, Any] | None]) -> str:
    """The inputs of a vertex shader, each location once."""
    read = [buffer for buffer in buffers if buffer is not None]
    found = {attribute["location"]: attribute["format"] for buffer in read for attribute in buffer["attributes"]}
    return ", ".join(f"@location({at}) a{at}: {ATTRIBUTES[word]}" for at, word in found.items() if at < MOST_LOCATIONS)


def outputs(targets: list[dict[str, Any] | None]) -> list[str]:
    """The outputs of a fragment shader, with their types."""
    return [
        f"@location({at}) c{at}: {'vec4u' if target['format'] == 'r32uint' else 'vec4f'}"
        for at, target in enumerate(targets[:MOST_TARGETS])
        if target is not None
    ]


def compute(call: dict[str, Any]) -> str:
    """The shader of a compute pipeline."""
    iface = distinct(call.get("iface", []))
    body = uses(iface, None, call["layout"] == "auto")
    return "\n".join([*variables(iface), "@compute @workgroup_size(1) fn c() {", *body, "}", ""])


def has_fragment(call: dict[str, Any]) -> bool:
    """Whether a render pipeline has a fragment shader: where it has targets, or its interface one of that stage."""
    return bool(call.get("targets")) or any(entry["stage"] == "fragment" for entry in call.get("iface", []))


def render(call: dict[str, Any]) -> str:
    """The shaders of a render pipeline, in one text."""
    iface, is_auto = distinct(call.get("iface", [])), call["layout"] == "auto"
    lines = [*variables(iface), f"@vertex fn v({inputs(call.get('buffers', []))}) -> @builtin(position) vec4f {{"]
    lines += [*uses(iface, "vertex", is_auto), "  return vec4f();", "}"]
    if has_fragment(call):
        out = outputs(call.get("targets", []))
        lines += [f"struct Out {{ {', '.join(out)} }}"] if out else []
        lines += [f"@fragment fn f(){' -> Out' if out else ''} {{", *uses(iface, "fragment", is_auto)]
        lines += ["  return Out();", "}"] if out else ["}"]
    return "\n".join([*lines, ""])
