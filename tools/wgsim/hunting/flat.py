"""Makes of a script one of a single lane that a browser can play: in the order in which the core took its calls, and without what cannot be
played. What is left out is counted under a name, and with it goes what names it. Labels are left out too: no answer hangs on them. Fixed
numbers become those of floats, which is all that a page can give. """

from __future__ import annotations

import collections
import copy
import json
import random
import struct
from typing import Any

from . import shaders, shape
from .core import MOST, Answered, Core, Flat

# The memory that a script may take, and how many bytes one write has at most.
MEMORY = 2**24
# How many threads or vertices a command may have that is carried out: more take a driver on a processor too long.
MOST_RUNS = 2**16
# The usages by which a buffer is mapped, and from what size on a page has no memory for one that may be; below that it takes the memory
# when the buffer is made, also of one that is refused.
MAPS, MOST_MAPPED = 3, 2**31
# How many pixels a canvas has on a side at most: browsers take no more, or none of that.
MOST_PIXELS = 2**31 - 1
# The greatest fixed number that is a float's.
MOST_FLOAT = 2**53 - 2**29
DROP, OUT_OF_MEMORY, LARGE, LONG, INTERFACE, FRAME, CANVAS = (
    "drops, which no page can make", "what takes much memory", "writes of many bytes", "dispatches and draws that take long",
    "interfaces that WGSL cannot say", "what is waited for while a canvas has a texture, which then expires",
    "canvases that no page can make",
)
ROUNDS = 8


def flattened(core: Core, top: dict[str, Any], chance: random.Random) -> Flat | None:
    """A script in one lane, in the order in which a device took its calls; None where it is refused."""
    limits = top.get("limits")
    lanes = [lane for lanes in top["phases"] for lane in lanes]
    if all(len(lanes) < 2 for lanes in top["phases"]):
        return Flat([call for lane in lanes for call in lane], limits)
    from wgsim.matching.beside import Beside
    from wgsim.reading import report, script
    from wgsim.reading.places import Text

    text = core.report(top, chance)
    if text is None:
        return None
    read = script.read(Text(json.dumps(top).encode(), "script"))
    taken = Beside(report.Report(text), read).turns
    return Flat([top["phases"][call.place[0]][call.place[1]][call.place[2]] for call in taken], limits)


def playable(core: Core, flat: Flat, left: collections.Counter[str]) -> Answered | None:
    """What the core answers to as much of a script as can be played; None where that is refused."""
    gone = unplayable(flat.calls)
    left.update(gone.values())
    calls = shape.without([with_floats(without_label(call)) for call in flat.calls], set(gone))
    for _ in range(ROUNDS):
        answered = core.answered(Flat(calls, flat.limits, MEMORY))
        if answered is None:
            return None
        gone = not_played(answered)
        left.update(gone.values())
        if not gone:
            # Nothing was out of memory, so that the same is answered where there is all the memory that a script can have.
            answered.flat.budget = MOST
            return answered
        calls = shape.without(answered.flat.calls, set(gone))
    return None


def without_label(call: dict[str, Any]) -> dict[str, Any]:
    return {key: value for key, value in call.items() if key != "label"}


def with_floats(call: dict[str, Any]) -> dict[str, Any]:
    """A call of which each fixed number is that of the float that a page makes of it."""
    if not any(is_fixed(slot) for slot in shape.slots(call)):
        return call
    made = copy.deepcopy(call)
    for slot in shape.slots(made):
        if is_fixed(slot):
            slot.put(as_float(slot.value))
    return made


def is_fixed(slot: shape.Slot) -> bool:
    """Whether a value is a fixed number."""
    return slot.key.is_fixed and isinstance(slot.value, int)


def as_float(value: int) -> int:
    """The nearest fixed number that is a float's, of two the even one."""
    return min(int(struct.unpack("f", struct.pack("f", value))[0]), MOST_FLOAT)


def unplayable(calls: list[dict[str, Any]]) -> dict[int, str]:
    """The calls that no page can make, whatever is answered to them, each with why."""
    found, open_frames = {}, set()
    for number, call in enumerate(calls):
        if call["do"] == "currentTexture":
            open_frames.add(call["canvas"])
        elif call["do"] in ("present", "configureCanvas"):
            open_frames.discard(call["canvas"])
        if open_frames and call["do"] in ("complete", "mapAsync"):
            found[number] = FRAME
        elif call["do"] == "drop":
            found[number] = DROP
        elif max(call.get("size", 0) if call["do"] == "writeBuffer" else 0, call.get("dataSize", 0)) > MEMORY:
            found[number] = LARGE
        elif call["do"] == "createBuffer" and (call.get("mapped") or call["usage"] & MAPS) and MEMORY < call["size"] < MOST_MAPPED:
            found[number] = OUT_OF_MEMORY
        elif call["do"] in ("createComputePipeline", "createRenderPipeline") and not shaders.can_say(call):
            found[number] = INTERFACE
        elif call["do"] == "createCanvas" and max(call["width"], call["height"]) > MOST_PIXELS:
            found[number] = CANVAS
    return found


def not_played(answered: Answered) -> dict[int, str]:
    """The calls that are left out by what the core answers: what takes too much memory, and what a driver would take too long for."""
    gone = {
        number: OUT_OF_MEMORY
        for number, entry in answered.entry_of.items()
        if entry.fault is not None and entry.fault[0] == "out-of-memory"
    }
    for number, call in enumerate(answered.whole):
        if runs_of(call) > MOST_RUNS:
            gone[number] = LONG
    return gone


def runs_of(call: dict[str, Any]) -> int:
    """How many threads or vertices a command has; none where there are so many that no device takes it."""
    if call["do"] == "dispatch":
        counts = [call["x"], call["y"], call["z"]]
        return 0 if max(counts) > 65535 else counts[0] * counts[1] * counts[2]
    return call.get("vertices", call.get("indices", 0)) * call["instances"] if call["do"] in ("draw", "drawIndexed") else 0
