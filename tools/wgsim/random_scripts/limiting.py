"""The limits that a random script asks for, which its calls go up to and past.

What the script that is being made asks for is kept in `now`, as the device has it then: `of` tells a limit by its name.
"""

from __future__ import annotations

from typing import TYPE_CHECKING, Any

from .json_forms import Raw
from model.limits import ALIGNMENTS, BEST, DEFAULTS, LEAST, given

if TYPE_CHECKING:
    from random import Random

WHOLE_LIMIT = 2**53 - 1

now = dict(DEFAULTS)

# The limits of which more is given than the default.
RAISED = [name for name in DEFAULTS if BEST[name] != DEFAULTS[name]]


def of(name: str) -> Any:
    """A limit of the script that is made; None where it has none of that name."""
    return now[name]


def ask(random: Random, chance: float) -> dict[str, int] | None:
    """What a script asks for, now and then: of each name in it the best, the default, something between or something worse; or None, which
    asks for nothing. The limits are then what they are by that."""
    asked = None
    if random.random() < chance:
        names = random.choice([RAISED, RAISED, list(DEFAULTS)])
        asked = {name: good(random, name) for name in random.sample(names, random.choice([0, 1, 1, 2, 3, len(names)]))}
        asked.update({name: good(random, name) for name, default in DEFAULTS.items() if default is None and random.random() < 0.4})
    now.update(given(asked or {}))
    return asked


def good(random: Random, name: str) -> int:
    """A value that may be asked for."""
    if name in ALIGNMENTS:
        return random.choice([256, 512, 2**31, 2**random.randint(8, 31)])
    default, best = LEAST[name], BEST[name]
    return random.choice(
        [
            best,
            best,
            best - 1,
            random.randint(default, best),
            random.randint(default, best),
            default,
            default - 1,
            random.randint(0, default),
            0,
        ]
    )


def past(random: Random, name: str) -> Any:
    """A value that may not be asked for: one better than the best, or no whole number in range, or an alignment that is no power of two."""
    values = [
        WHOLE_LIMIT + 1,
        -1,
        1.5,
        2**64,
        None,
        True,
        "8",
        str(BEST[name]),
        [],
        {},
        Raw("1e3"),
        Raw("-0"),
        Raw(f"{BEST[name]}.0"),
        Raw(f"{BEST[name]}e0"),
    ]
    if name in ALIGNMENTS:
        return random.choice([*[128, 1, 0, 255, 257, 300, 384, 768, 2**32, 2**33, 2**32 - 1, 2**31 + 1, WHOLE_LIMIT] * 2, *values])
    return random.choice([*[BEST[name] + 1, BEST[name] + 1, BEST[name] + random.choice([4, 256]), 2**32, WHOLE_LIMIT] * 4, *values])


NO_NAMES = [
    "x", "", "maxBufferSize ", "MaxBufferSize", "maxbuffersize", "maxTextureDimension1d", "maxTextureDimension",
    "maxBindGroupsPlusVertexBuffers", "maxColorAttachmentBytes", "maxInterStageShaderVariables",
    "maxComputeInvocationsPerWorkgroup", "maxComputeWorkgroupSizeX", "maxComputeWorkgroupStorageSize",
    "minStorageBufferOffsetAlignment\0", "budget", "maxQueries", "maxTextureArrayLayer",
]


def faulty(random: Random) -> Any:
    """A value of the key `limits` that breaks a rule as a rule, with good limits beside what is wrong; at times it may do."""
    kind = random.randrange(10)
    if kind == 0:
        others: list[Any] = [None, [], [["maxBufferSize", 1]], "x", 0, 1, True, "maxBufferSize", {}, [{}]]
        return random.choice(others)
    asked: dict[str, Any] = {name: good(random, name) for name in random.sample(list(DEFAULTS), random.choice([0, 0, 1, 2, len(DEFAULTS)]))}
    for _ in range(random.choice([1, 1, 1, 2])):
        if kind in (1, 2, 3):
            asked[random.choice(NO_NAMES)] = random.choice([0, 1, 256, None])
        elif kind < 9:
            name = random.choice(list(DEFAULTS))
            asked[name] = past(random, name)
    pairs = list(asked.items())
    random.shuffle(pairs)
    return dict(pairs)
