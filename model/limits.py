"""The limits of a device: those that a script asks for, and else the defaults. The numbers stand in docs/limits.json alone."""

from __future__ import annotations

import json
import pathlib
from typing import Any

TABLE = json.loads((pathlib.Path(__file__).resolve().parents[1] / "docs/limits.json").read_text(encoding="utf-8"))["limits"]

# Where nothing is asked for; None of a limit that there is not as long as no script names it.
DEFAULTS = {row["name"]: row["default"] for row in TABLE}
# What is given where something worse is asked for.
LEAST = {row["name"]: row.get("least", row["default"]) for row in TABLE}
BEST = {row["name"]: row["best"] for row in TABLE}

# The alignments: of these a smaller one is better, and each is a power of two.
ALIGNMENTS = {row["name"] for row in TABLE if row.get("better") == "smaller"}
ALIGNMENTS_END = 2**32


def of_all(name: Any) -> Any:
    """A limit that is the same for every device, whatever is asked for: its best is its default."""
    if DEFAULTS[name] != BEST[name]:
        raise ValueError(f"{name} may be asked for")
    return DEFAULTS[name]


def is_better(name: str, one: int, other: int) -> bool:
    return one < other if name in ALIGNMENTS else one > other


def is_alignment(value: Any) -> Any:
    """A power of two that has 32 bits."""
    return 0 < value < ALIGNMENTS_END and value & (value - 1) == 0


def given(asked: dict[str, int]) -> dict[str, Any]:
    """The limits of a device for what was asked, which is at most the best. What is worse than the default gives the default, and of a
    limit that has none the least."""
    return {**DEFAULTS, **{name: value if is_better(name, value, LEAST[name]) else LEAST[name] for name, value in asked.items()}}
