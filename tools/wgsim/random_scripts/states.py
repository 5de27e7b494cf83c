"""What passes set beside what they dispatch or draw with: viewports, scissor rectangles, the blend constant, the stencil reference,
markers, nulls that unset, and how often a render pass may draw. Good ones, up to the edges, and ways to leave a rule of them unmet.

Calls are put among those of a pass or a bundle that are there. As in `pass_faults` these stand from the begin of a pass to its end, or from
the making of a bundle encoder to its finish.
"""

from __future__ import annotations

from typing import TYPE_CHECKING, Any

from . import labels
from .dispatching import named
from .limiting import of as limit
from .regions import extent

if TYPE_CHECKING:
    from random import Random

    from .handed import Call, Fault
    from .world import World

ONE = 65536
GREATEST_32, GREATEST_53 = 2**32 - 1, 2**53 - 1
DRAWS = ("draw", "drawIndexed", "drawIndirect", "drawIndexedIndirect")
WORK = ("dispatch", "dispatchIndirect", *DRAWS)
# The calls that unset by null, each with the key that is null, and the key of the place.
NULLS = {"setBindGroup": ("group", "index", 4), "setVertexBuffer": ("buffer", "slot", 8)}
USUAL = {"x": 0, "left": False, "y": 0, "above": False, "minDepth": 0, "maxDepth": ONE}


def is_null(call: Call) -> bool:
    """Whether a call unsets by null."""
    return call["do"] in NULLS and call[NULLS[call["do"]][0]] is None


def marker(random: Random, on: str) -> Call:
    return {"do": "insertDebugMarker", "on": on, **random.choice([{}, {}, {"label": labels.good(random)}])}


def reach() -> int:
    """How far a viewport may begin to the left or above, in the limits that the script asks for."""
    return 2 * limit("maxTextureDimension2D") * ONE


def side(random: Random) -> tuple[int, bool, int]:
    """Where a viewport begins in one direction, whether that is to the left or above, and how far it goes on; often just as far as may
    be."""
    most = reach() // 2
    length = random.choice([4 * ONE, 4 * ONE, ONE // 2, 0, 1, most, most, most - 1, random.randint(0, most)])
    if random.random() < 0.4:
        return random.choice([0, 1, ONE, length, reach(), reach(), random.randint(0, reach())]), True, length
    last = reach() - ONE - length
    return random.choice([0, 0, 0, 1, last, last, random.randint(0, last)]), False, length


def viewport(random: Random, on: str) -> Call:
    """A good viewport."""
    (x, left, width), (y, above, height) = side(random), side(random)
    low, high = random.choice([(0, ONE), (0, ONE), (0, 0), (ONE, ONE), (1, ONE - 1), (ONE // 2, ONE // 2), (0, random.randint(0, ONE))])
    call = {
        "do": "setViewport", "on": on, "x": x, "left": left, "y": y, "above": above, "width": width, "height": height, "minDepth": low,
        "maxDepth": high,
    }
    return {key: value for key, value in call.items() if USUAL.get(key, ...) != value or random.random() < 0.2}


def extent_of(world: World, begin: Call) -> tuple[int, int]:
    """Width and height of what a begin attaches first, as far as that is known."""
    items = [item for item in [*begin.get("colors", []), begin.get("depth")] if item is not None]
    view = named(world.views, items[0]["view"]) if items else None
    if view is None or not hasattr(view, "of"):
        return 1, 1
    width, height, _ = extent(view.of[0].call, view.of[1]["baseMip"])
    return width, height


def scissor(random: Random, on: str, most: tuple[int, int]) -> Call:
    """A good scissor rectangle, often one that ends where what is attached does."""
    call: Call = {"do": "setScissorRect", "on": on}
    for start, length, there in zip("xy", ("width", "height"), most):
        first = random.choice([0, 0, there, random.randint(0, there)])
        call.update({start: first, length: random.choice([there - first, there - first, 0, random.randint(0, there - first)])})
    return call


def reference(random: Random, on: str) -> Call:
    return {"do": "setStencilReference", "on": on, "reference": random.choice([0, 1, 7, 255, 256, 2**31, GREATEST_32])}


def null(random: Random, on: str, word: str, place: int) -> Call:
    """A call that unsets what is set at a place; at times with the keys that may stand beside it."""
    key, at, _ = NULLS[word]
    call = {"do": word, "on": on, at: place, key: None}
    if word == "setBindGroup":
        return {**call, **random.choice([{}, {}, {"offsets": []}])}
    return {**call, **random.choice([{}, {}, {}, {"offset": 0}, {"size": 0}, {"offset": 0, "size": 0}])}


def with_nulls(random: Random, on: str, calls: list[Call], words: tuple[str, ...]) -> None:
    """Puts nulls where none of the calls lacks what it unsets: before what is set anew there, at a place that is never set, or at the
    end."""
    for word in words:
        _, at, most = NULLS[word]
        settings = [place for place, call in enumerate(calls) if call["do"] == word]
        free = [place for place in range(most) if all(call.get(at) != place for call in calls if call["do"] == word)]
        kind = random.randrange(3)
        if kind == 0 and settings:
            place = random.choice(settings)
            calls.insert(place, null(random, on, word, calls[place][at]))
        elif kind == 1 and free:
            calls.insert(random.randint(0, len(calls)), null(random, on, word, random.choice(free)))
        elif kind == 2:
            last = max((place + 1 for place, call in enumerate(calls) if call["do"] in WORK), default=0)
            calls.insert(random.randint(last, len(calls)), null(random, on, word, random.randrange(most)))


def in_compute_pass(random: Random, on: str, calls: list[Call]) -> None:
    """Puts markers and nulls among the calls of a compute pass."""
    if random.random() < 0.1:
        calls.insert(random.randint(0, len(calls)), marker(random, on))
    if random.random() < 0.2:
        with_nulls(random, on, calls, ("setBindGroup",))


def in_bundle(random: Random, on: str, calls: list[Call]) -> None:
    """The same of the calls of a bundle."""
    if random.random() < 0.1:
        calls.insert(random.randint(0, len(calls)), marker(random, on))
    if random.random() < 0.2:
        with_nulls(random, on, calls, random.choice([("setBindGroup",), ("setVertexBuffer",), tuple(NULLS)]))


def in_render_pass(world: World, on: str, begin: Call, calls: list[Call]) -> None:
    """The same of the calls of a render pass between its begin and its end, and all else that it may set; at times the begin says how often
    it may draw."""
    random = world.random
    in_bundle(random, on, calls)
    if random.random() < 0.3:
        made = [viewport(random, on), scissor(random, on, extent_of(world, begin)), reference(random, on)]
        made += [{"do": "setBlendConstant", "on": on}, marker(random, on)]
        for call in random.sample(made, random.choice([1, 1, 2, 3, len(made)])):
            calls.insert(random.randint(0, len(calls)), call)
    if random.random() < 0.25:
        count = draws_in(world, calls)
        begin["maxDrawCount"] = random.choice([count, count, count, count + 1, 50_000_000, GREATEST_53])


def draws_in(world: World, calls: list[Call]) -> int:
    """How often some calls of a render pass or a bundle draw, with the draws of the bundles that they execute."""
    count = sum(call["do"] in DRAWS for call in calls)
    executed = [name for call in calls if call["do"] == "executeBundles" for name in call["bundles"]]
    found = [named(world.bundles, name) for name in executed]
    return count + sum(getattr(bundle, "draws", 0) for bundle in found)


def late(random: Random, is_render: bool) -> list[Call]:
    """Calls that are late on a pass that has ended, whatever they ask; each without what it is on."""
    calls: list[Call] = [{"do": "insertDebugMarker"}, {"do": "setBindGroup", "index": 9, "group": None, "offsets": [1]}]
    if is_render:
        calls += [{"do": "setVertexBuffer", "slot": 9, "buffer": None}, {"do": "setBlendConstant"}]
        calls += [{"do": "setViewport", "width": GREATEST_53, "height": 0, "minDepth": 2 * ONE}]
        calls += [{"do": "setScissorRect", "x": GREATEST_32, "y": 0, "width": GREATEST_32, "height": 0}]
        calls += [{"do": "setStencilReference", "reference": 0}]
    return random.sample(calls, 2)


def insert(random: Random, calls: list[Call], call: Call) -> None:
    """Puts a call somewhere between the first and the last, often at once, since what comes after a rule that is unmet shows nothing."""
    calls.insert(1 if random.random() < 0.4 else random.randint(1, len(calls) - 1), call)


def wide(random: Random, call: Call) -> None:
    """Rule 400, by the least or by more."""
    most = reach() // 2
    call[random.choice(["width", "height"])] = random.choice([most + 1, most + 1, most + ONE, 2 * most, 16_384 * ONE + 1, GREATEST_53])


def begins_far(random: Random, call: Call) -> None:
    """Rule 401: it begins too far to the left or above."""
    start, before = random.choice([("x", "left"), ("y", "above")])
    call.update({start: random.choice([reach() + 1, reach() + 1, reach() + ONE, 2 * reach(), GREATEST_53]), before: True})


def ends_far(random: Random, call: Call) -> None:
    """Rule 401: it ends too far to the right or below."""
    start, before, length = random.choice([("x", "left", "width"), ("y", "above", "height")])
    past = reach() - ONE - call[length] + random.choice([1, 1, ONE])
    call.update({start: random.choice([past, past, past, reach(), GREATEST_53]), before: False})


def wrong_depths(random: Random, call: Call) -> None:
    """Rule 402."""
    pairs = [(1, 0), (ONE, ONE - 1), (ONE + 1, ONE), (0, ONE + 1), (ONE + 1, ONE + 1), (GREATEST_53, 0), (0, GREATEST_53)]
    call["minDepth"], call["maxDepth"] = random.choice(pairs)


VIEWPORT_FAULTS = [wide, begins_far, ends_far, wrong_depths]


def wrong_viewport(world: World, encoder: str, on: str, calls: list[Call]) -> None:
    """A viewport with a fault, or two, so that their order shows."""
    random = world.random
    call = viewport(random, on)
    for fault in sorted(random.sample(VIEWPORT_FAULTS, random.choice([1, 1, 1, 2])), key=VIEWPORT_FAULTS.index, reverse=True):
        fault(random, call)
    insert(random, calls, call)


def wrong_scissor(world: World, encoder: str, on: str, calls: list[Call]) -> None:
    """A scissor rectangle past what is attached, by one or by far; at times past the extent of a smaller mip level alone."""
    random, most = world.random, extent_of(world, calls[0])
    call = scissor(random, on, most)
    at = random.randrange(2)
    start, length, there = "xy"[at], ("width", "height")[at], most[at]
    past = random.choice([there - call[start] + 1] * 3 + [2 * there - call[start] + 1, GREATEST_32])
    call.update(random.choice([{length: past}, {length: past}, {length: past}, {start: there + 1, length: 0}, {start: GREATEST_32}]))
    insert(random, calls, call)


def fewer_draws(world: World, encoder: str, on: str, calls: list[Call]) -> None:
    """The begin says that there are fewer draws than there are, where there is one; or a draw is gone, or there is one more."""
    random = world.random
    count = draws_in(world, calls)
    if count > 0:
        calls[0] = {**calls[0], "maxDrawCount": random.choice([count - 1, count - 1, count - 1, 0])}
    if random.random() < 0.1:
        insert(random, calls, {"do": "executeBundles", "on": on, "bundles": []})


def null_instead(world: World, encoder: str, on: str, calls: list[Call]) -> None:
    """A call that sets a group or a vertex buffer unsets it in place of that, as a rule without what stands beside the name; or one that
    does so stands before what needs it, which is seldom good."""
    random = world.random
    settings = [place for place, call in enumerate(calls) if call["do"] in NULLS and not is_null(call)]
    if not settings:
        return
    place = random.choice(settings)
    call = calls[place]
    key, at, _ = NULLS[call["do"]]
    if random.random() < 0.5:
        calls[place] = {**call, key: None} if random.random() < 0.3 else null(random, on, call["do"], call[at])
    else:
        work = [number for number, each in enumerate(calls) if each["do"] in WORK and number > place] or [len(calls) - 1]
        calls.insert(random.choice([work[0], random.choice(work)]), null(random, on, call["do"], call[at]))


def null_with_more(world: World, encoder: str, on: str, calls: list[Call]) -> None:
    """A null with what may not stand beside it, or at a place that there is none of."""
    random = world.random
    words = ["setBindGroup"] if calls[0]["do"] == "beginComputePass" else list(NULLS)
    word = random.choice(words)
    call = null(random, on, word, random.randrange(4))
    numbers = [4, 4, 8, 8, 2, 1, 6, GREATEST_53 - 3, GREATEST_53]
    more: list[dict[str, Any]] = [{"offset": random.choice(numbers)}, {"size": random.choice(numbers)}, {"offset": 4, "size": 0}]
    if word == "setBindGroup":
        more = [{"offsets": random.choice([[0], [256], [1, 2, 3, 4]])}]
    more.append({NULLS[word][1]: random.choice([NULLS[word][2], NULLS[word][2] + 1, GREATEST_32])})
    for one in random.sample(more, min(random.choice([1, 1, 2]), len(more))):
        call.update(one)
    insert(random, calls, call)


NULL_FAULTS: list[Fault] = [null_instead, null_instead, null_with_more, null_with_more]
STATE_FAULTS: list[Fault] = [wrong_viewport, wrong_viewport, wrong_viewport, wrong_scissor, wrong_scissor, fewer_draws, fewer_draws]
