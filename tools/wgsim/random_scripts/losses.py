"""Scripts whose device is lost before any of their calls: that of an example, or of a random one that is good."""

from __future__ import annotations

import json
from typing import TYPE_CHECKING, Any

from wgsim import TOP

if TYPE_CHECKING:
    from random import Random

EXAMPLES = sorted((TOP / "examples").glob("*.json"))


def example(random: Random) -> dict[str, Any]:
    return json.loads(random.choice(EXAMPLES).read_text(encoding="utf-8"))


def lost(random: Random, top: dict[str, Any]) -> dict[str, Any]:
    """The same with a loss before some call, or behind the last one of a lane."""
    lanes = [lane for lanes in top["phases"] for lane in lanes]
    if lanes:
        lane = random.choices(lanes, [len(lane) + 1 for lane in lanes])[0]
        lane.insert(random.randint(0, len(lane)), {"do": "lose"})
    return top
