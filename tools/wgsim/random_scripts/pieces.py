"""Two buffers that are set and read in many small pieces, so that what is set of them lies in many runs."""

from __future__ import annotations

from typing import TYPE_CHECKING

if TYPE_CHECKING:
    from random import Random

    from .handed import Call

SIZE = 256
WORDS = SIZE // 4


def pieces(random: Random) -> list[Call]:
    """Writes of a few words, and encoders of a few copies and clears, each submitted at once; good calls throughout."""
    calls = [{"do": "createBuffer", "as": name, "size": SIZE, "usage": 12} for name in "ab"]
    for number in range(random.randint(20, 60)):
        if random.random() < 0.6:
            offset, size = piece(random)
            calls.append({"do": "writeBuffer", "buffer": random.choice("ab"), "offset": offset, "size": size})
            continue
        calls.append({"do": "createEncoder", "as": f"e{number}"})
        calls += [command(random, f"e{number}") for _ in range(random.randint(1, 4))]
        calls.append({"do": "finish", "on": f"e{number}", "as": f"c{number}"})
        calls.append({"do": "submit", "buffers": [f"c{number}"]})
    return calls


def piece(random: Random) -> tuple[int, int]:
    """A place and a size, mostly of a few words."""
    first = random.randrange(WORDS)
    count = random.randint(1, min(WORDS - first, WORDS if random.random() < 0.1 else 6))
    return 4 * first, 4 * count


def command(random: Random, encoder: str) -> Call:
    offset, size = piece(random)
    if random.random() < 0.3:
        return {"do": "clearBuffer", "on": encoder, "buffer": random.choice("ab"), "offset": offset, "size": size}
    source, target = random.sample("ab", 2)
    place = 4 * random.randint(0, WORDS - size // 4)
    return {
        "do": "copyBufferToBuffer", "on": encoder, "source": source, "sourceOffset": offset,
        "target": target, "targetOffset": place, "size": size,
    }
