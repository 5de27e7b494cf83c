"""The differences that are known, tools/known.json: each with the browser, from which version on, why, the section of the standard, and a
script that shows it."""

from __future__ import annotations

import json
import re
from typing import Any

from wgsim import TOP

from . import shape
from .differences import GONE, SHORT, Difference
from .flat import as_float

FILE = TOP / "tools/known.json"


def read() -> list[dict[str, Any]]:
    """The rows of the table."""
    return json.loads(FILE.read_text(encoding="utf-8"))["known"]


class Known:
    """The differences that are known of a browser."""

    def __init__(self, browser: str) -> None:
        version = re.search(r"(Chrome|Firefox)/(\d+)", browser)
        family, number = (version[1], int(version[2])) if version else ("", 0)
        self.rows = [row for row in read() if is_of(row, family, number)]

    def row(self, difference: Difference) -> dict[str, Any] | None:
        """The row of a difference, or None where it is not known."""
        return next((row for row in self.rows if fits(row, difference)), None)

    def ends(self, script: list[dict[str, Any]]) -> set[int]:
        """The numbers of the calls by which the browser ends, as is known."""
        rows = [row for row in self.rows if "by" in row]
        return {number for number, call in enumerate(script) for row in rows if call["do"] in row["by"] and is_end(row, script, call)}


def is_of(row: dict[str, Any], family: str, number: int) -> bool:
    """Whether a row is of a browser: of every one, or of one of a name, from a version on."""
    wanted = row.get("browser")
    return wanted is None or (family == {"chromium": "Chrome", "firefox": "Firefox"}[wanted] and number >= row.get("from", 0))


def fits(row: dict[str, Any], difference: Difference) -> bool:
    """Whether a row has a difference: its kind, its call, its rule and the words of the browser, as far as the row has them."""
    return (
        SHORT[difference.kind] in row["kinds"]
        and ("calls" not in row or difference.word in row["calls"])
        and ("rules" not in row or difference.rule in row["rules"])
        and ("says" not in row or re.search(row["says"], difference.message) is not None)
        and all(difference.call.get(key) in values for key, values in row.get("has", {}).items())
        and ("test" not in row or TESTS[row["test"]](difference))
    )


def is_end(row: dict[str, Any], script: list[dict[str, Any]], call: dict[str, Any]) -> bool:
    """Whether a browser ends by a call, whatever others of its sort are in the script."""
    difference = Difference(GONE, None, "script", "", "")
    difference.script = [each for each in script if each is call or each["do"] not in row["by"]]
    return fits(row, difference)


# ---- what a row may ask of the script besides, by the name of its `test` ----
def is_served(difference: Difference) -> bool:
    """Whether each binding of a pipeline's interface is served by the entry of its layout, though the two are not of one kind."""
    return all(serves(difference.layouts(), entry) for entry in difference.call.get("iface", []))


def serves(layouts: list[Any], entry: dict[str, Any]) -> bool:
    """Whether some entry of the layouts serves one of an interface."""
    group = layouts[entry["group"]] if entry["group"] < len(layouts) else []
    seen_by = {"vertex": 1, "fragment": 2}.get(entry.get("stage", ""), 4)
    found = [each for each in group if each["binding"] == entry["binding"] and each["visibility"] & seen_by]
    return bool(found) and all(alike(found[0], entry, key) for key in ("kind", "type", "sample", "dim", "multi", "access", "format"))


def alike(entry: dict[str, Any], wanted: dict[str, Any], key: str) -> bool:
    """Whether a layout has what a shader asks of a binding in one respect, or what serves it as well."""
    one, other = entry.get(key), wanted.get(key)
    return one == other or (key, one, other) in SERVED


SERVED = {
    ("sample", "float", "unfilterable-float"), ("sample", "unfilterable-float", "float"), ("type", "filtering", "non-filtering"),
    ("type", "non-filtering", "filtering"), ("access", "read-write", "write-only"),
}


def is_texel_buffer(difference: Difference) -> bool:
    """Whether a usage has the bit 1024, and what it has besides may stand in one."""
    usage = difference.call.get("usage", 0)
    return bool(usage & 1024) and usage < 2048


def before(difference: Difference) -> list[dict[str, Any]]:
    """The calls before the one that differs."""
    return difference.script[: difference.number] if difference.number is not None else difference.script


def is_lost(difference: Difference) -> bool:
    """Whether the device is lost before the call."""
    return any(call["do"] == "lose" for call in before(difference))


def is_encoder_refused(difference: Difference) -> bool:
    """Whether what a finish ends could not be made."""
    return difference.call.get("on") in difference.refused


def names_destroyed(difference: Difference) -> bool:
    """Whether a command of the encoder that a finish ends names what is destroyed by then, or a view of it."""
    encoders, destroyed, named = {difference.call.get("on")}, set(), set()
    views = {call["as"]: call["texture"] for call in difference.script if call["do"] == "createView"}
    for call in before(difference):
        if call["do"] == "destroy":
            destroyed |= {call["object"], *(view for view, texture in views.items() if texture == call["object"])}
        elif call.get("on") in encoders:
            named |= shape.names_in(call)
            encoders |= {call["as"]} if "as" in call else set()
    return bool(destroyed & named)


def has_canvas(difference: Difference) -> bool:
    """Whether a canvas gave a texture before."""
    return any(call["do"] == "currentTexture" for call in before(difference))


def has_configured(difference: Difference) -> bool:
    """Whether a canvas was configured before."""
    return any(call["do"] == "configureCanvas" for call in before(difference))


def has_pass(difference: Difference) -> bool:
    """Whether what is submitted came of an encoder on which a pass was begun."""
    ended = {call["as"]: call["on"] for call in before(difference) if call["do"] == "finish"}
    begun = {call["on"] for call in before(difference) if call["do"] in ("beginComputePass", "beginRenderPass")}
    return any(ended.get(name) in begun for name in difference.call.get("buffers", []))


def follows_map(difference: Difference) -> bool:
    """Whether a map of the same buffer was asked for before."""
    return any(call["do"] == "mapAsync" and call["buffer"] == difference.call["buffer"] for call in before(difference))


def has_depth_color(difference: Difference) -> bool:
    """Whether a pass has a color attachment, and after it one of a format with depth or stencil."""
    formats = {call["as"]: call["format"] for call in difference.script if call["do"] == "createTexture"}
    views = {call["as"]: formats.get(call["texture"], "") for call in difference.script if call["do"] == "createView"}
    passes = [call["colors"] for call in difference.script if call["do"] == "beginRenderPass"]
    attached = [[views.get(color["view"], "") for color in colors if color is not None] for colors in passes]
    return any(re.match("depth|stencil", word) for words in attached for word in words[1:])


def has_deep_resolve(difference: Difference) -> bool:
    """Whether a pass has a color whose resolve view is of a 3D texture."""
    deep = {call["as"] for call in difference.script if call["do"] == "createTexture" and call["dim"] == "3d"}
    views = {call["as"] for call in difference.script if call["do"] == "createView" and call["texture"] in deep}
    passes = [call["colors"] for call in difference.script if call["do"] == "beginRenderPass"]
    return any(color["resolve"] in views for colors in passes for color in colors if color is not None)


def has_no_bundle(difference: Difference) -> bool:
    """Whether a pass executes a list of no bundle before."""
    return any(call["do"] == "executeBundles" and not call["bundles"] for call in before(difference))


def has_destroyed_queries(difference: Difference) -> bool:
    """Whether a query set was destroyed before."""
    sets = {call["as"] for call in difference.script if call["do"] == "createQuerySet"}
    return any(call["do"] == "destroy" and call["object"] in sets for call in before(difference))


def has_odd_index(difference: Difference) -> bool:
    """Whether indices are set from an offset that is no multiple of 4."""
    return any(call["offset"] % 4 for call in difference.script if call["do"] == "setIndexBuffer")


def has_empty_copy(difference: Difference) -> bool:
    """Whether something copies texels to or from a texture, and none of them."""
    copies = [call for call in before(difference) if re.match("copy.*Texture", call["do"])]
    return any(0 in call["size"] for call in copies)


def has_visibility(difference: Difference) -> bool:
    """Whether the visibility of an entry has a bit of 32 or more."""
    entries = [entry for call in difference.script if call["do"] == "createBindGroupLayout" for entry in call["entries"]]
    return any(entry["visibility"] >= 32 for entry in entries)


def has_null_targets(difference: Difference) -> bool:
    """Whether a pipeline has targets, of which each is null."""
    return bool(difference.call.get("targets")) and not any(difference.call["targets"])


def is_fewer(difference: Difference) -> bool:
    """Whether fewer errors of each kind reached a handler than none caught."""
    ours, theirs = counted(difference.core), counted(difference.other)
    return theirs != ours and all(ours.get(kind, 0) >= times for kind, times in theirs.items())


def is_more(difference: Difference) -> bool:
    """Whether more validation errors reached a handler than none caught, by one at most for each encoder that is finished while a pass of
    it is open."""
    ours, theirs = counted(difference.core), counted(difference.other)
    more = {kind: times - ours.get(kind, 0) for kind, times in theirs.items() if times > ours.get(kind, 0)}
    return list(more) == ["validation"] and more["validation"] <= left_open(difference.script)


def left_open(script: list[dict[str, Any]]) -> int:
    """How many encoders are finished while a pass of them is open."""
    passes: dict[str, str] = {}
    times = 0
    for call in script:
        if call["do"] in ("beginComputePass", "beginRenderPass"):
            passes[call["as"]] = call["on"]
        elif call["do"] == "end":
            passes.pop(call["on"], None)
        times += call["do"] == "finish" and call["on"] in passes.values()
    return times


def has_group_left(difference: Difference) -> bool:
    """Whether a compute pass of what is submitted sets a bind group that no dispatch uses, since none follows or its pipeline has fewer
    groups."""
    script = before(difference)
    ended = {call["on"] for call in script if call["do"] == "finish" and call["as"] in difference.call.get("buffers", [])}
    passes = {call["as"] for call in script if call["do"] == "beginComputePass" and call["on"] in ended}
    layouts = {call["as"]: len(call["layouts"]) for call in script if call["do"] == "createPipelineLayout"}
    pipelines = {call["as"]: call for call in script if call["do"] == "createComputePipeline"}
    count, waiting = dict.fromkeys(passes, 0), set()
    for call in script:
        on = call.get("on", "")
        if on not in passes:
            continue
        if call["do"] == "setPipeline" and call["pipeline"] in pipelines:
            count[on] = groups_of(pipelines[call["pipeline"]], layouts)
        elif call["do"] == "setBindGroup":
            if (on, call["index"]) in waiting:
                return True
            waiting |= {(on, call["index"])} if call["group"] is not None else set()
        elif call["do"] in ("dispatch", "dispatchIndirect"):
            waiting = {(each, index) for each, index in waiting if each != on or index >= count[on]}
    return bool(waiting)


def groups_of(pipeline: dict[str, Any], layouts: dict[str, int]) -> int:
    """How many groups the layout of a pipeline has."""
    declared = [entry["group"] + 1 for entry in pipeline["iface"]]
    return layouts.get(pipeline["layout"], max(declared, default=0))


def lacks_aspect(difference: Difference) -> bool:
    """Whether a bundle encoder has a format of depth alone, or of stencil alone."""
    formats = [call["depth"] for call in difference.script if call["do"] == "createBundleEncoder"]
    return any(word is not None and ("depth" in word) != ("stencil" in word) for word in formats)


def has_one_aspect(difference: Difference) -> bool:
    """Whether a pass of the encoder that a finish ends has a depth attachment of which one aspect is read-only and the other is not."""
    passes = [call for call in before(difference) if call["do"] == "beginRenderPass" and call["on"] == difference.call["on"]]
    depths = [call["depth"] for call in passes if call.get("depth")]
    return any(depth.get("depthReadOnly", False) != depth.get("stencilReadOnly", False) for depth in depths)


def has_rounded_end(difference: Difference) -> bool:
    """Whether a viewport that is set in a pass of the encoder that a finish ends has an end which as a sum of floats is less than it is."""
    script = before(difference)
    passes = {call["as"] for call in script if call["do"] == "beginRenderPass" and call["on"] == difference.call["on"]}
    viewports = [call for call in script if call["do"] == "setViewport" and call["on"] in passes]
    sides = (("x", "left", "width"), ("y", "above", "height"))
    ends = [(-call[at] if call[before_it] else call[at]) + call[size] for call in viewports for at, before_it, size in sides]
    return any(as_float(end) < end for end in ends if end > 0)


def counted(text: str) -> dict[str, int]:
    """How many errors of which kinds are told in a line (differences.told_of)."""
    return {kind: int(times) for times, kind in re.findall(r"(\d+) ([a-z-]+)", text)}


TESTS = {
    each.__name__: each
    for each in (
        is_served, is_texel_buffer, is_lost, is_encoder_refused, names_destroyed, has_canvas, has_pass, follows_map,
        has_depth_color, has_deep_resolve, has_null_targets, has_visibility, has_no_bundle, is_fewer,
        has_destroyed_queries, has_empty_copy, has_odd_index, has_configured,
        is_more, has_one_aspect, has_group_left, lacks_aspect, has_rounded_end,
    )
}
