"""`wgsim script N [L]`: the text of the script that the words `gen N L` have the program generate and play, as docs/script.md tells it.

The program makes the calls themselves and no text; each call here has the values of the call that it makes, in the same order.
"""

from __future__ import annotations

import json
from typing import Any, Iterator

BUDGET, BUFFERS, MOST, MOST_LANES = 1_000_000, 8, 8_000, 64


def fits(count: int, lanes: int) -> bool:
    """Whether the program generates a script of so many iterations in each of so many lanes."""
    return 1 <= count and 1 <= lanes <= MOST_LANES and count * lanes <= MOST


def number(word: str) -> int | None:
    """A number in decimal digits without leading zeros, or None."""
    return int(word) if word.isascii() and word.isdigit() and str(int(word)) == word else None


def spots(lane: int) -> Iterator[tuple[str, str, int]]:
    """Where the iterations of a lane write, and from which buffer to which they copy there."""
    state = lane + 1

    def draw() -> int:
        nonlocal state
        state = (state * 1_103_515_245 + 12_345) % 2**31
        return state // 65_536

    while True:
        source = draw() % 8
        target = (source + 1 + draw() % 7) % 8
        yield f"b{source}", f"b{target}", 4 * (draw() % 256)


def iteration(name: int, spot: tuple[str, str, int]) -> list[dict[str, Any]]:
    """The calls of an iteration, whose encoder and command buffer have names with a number of their own."""
    source, target, offset = spot
    return [
        {"do": "writeBuffer", "buffer": source, "offset": offset, "size": 64},
        {"do": "createEncoder", "as": f"e{name}"},
        {
            "do": "copyBufferToBuffer",
            "on": f"e{name}",
            "source": source,
            "sourceOffset": offset,
            "target": target,
            "targetOffset": offset,
            "size": 128,
        },
        {"do": "finish", "on": f"e{name}", "as": f"c{name}"},
        {"do": "submit", "buffers": [f"c{name}"]},
    ]


def phases(count: int, lanes: int) -> list[list[list[dict[str, Any]]]]:
    """The calls of each lane of each phase."""
    made = []
    for lane in range(lanes):
        drawn = spots(lane)
        made.append([call for n in range(count) for call in iteration(lane * count + n, next(drawn))])
    buffers = [f"b{n}" for n in range(BUFFERS)]
    first = [{"do": "createBuffer", "size": 4096, "usage": 12, "as": name} for name in buffers]
    last = [{"do": "complete", "op": 2 * count * lanes}] + [{"do": "destroy", "object": name} for name in buffers]
    return [[first], made, [last]]


def text(count: int, lanes: int) -> str:
    """The text of the script, with a line for each call."""
    lanes_of = [
        ",\n".join("[\n" + ",\n".join(json.dumps(call, separators=(",", ":")) for call in lane) + "\n]" for lane in phase)
        for phase in phases(count, lanes)
    ]
    return f'{{"budget":{BUDGET},"phases":[\n' + ",\n".join(f"[{lane}]" for lane in lanes_of) + "\n]}\n"
