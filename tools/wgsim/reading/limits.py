"""The limits that a script may ask for, by docs/limits.json, which docs/script.md shows."""

from __future__ import annotations

import json
from typing import Any

from wgsim import TOP

ROWS = json.loads((TOP / "docs/limits.json").read_text(encoding="utf-8"))["limits"]


class Limit:
    """A limit: its default, or None where there is none as long as no script names it, the least that is given, the best, and whether it is
    an alignment, of which the smaller is the better."""

    def __init__(self, row: dict[str, Any]) -> None:
        self.name, self.default, self.best = row["name"], row["default"], row["best"]
        self.least = row.get("least", self.default)
        self.is_alignment = row.get("better") == "smaller"

    def wrong(self, value: int) -> str | None:
        """The part of script rule 14 by which a script may not ask for a value, or None."""
        if self.is_alignment and (value >= 2**32 or bin(value).count("1") != 1):
            return "alignment"
        is_better = value < self.best if self.is_alignment else value > self.best
        return "best" if is_better else None

    def expected(self) -> str:
        if self.is_alignment:
            return f"a power of two from {self.best} to {2**31}; what is above {self.least} gives {self.least}"
        return f"at most {self.best}; what is below {self.least} gives {self.least}"

    def may_be_more(self) -> str | None:
        """What a script may do that needs more than the limit that it has."""
        return None if self.best == self.default else f'ask for more by "limits": {{"{self.name}": ..}}, up to {self.best}'


TABLE = {row["name"]: Limit(row) for row in ROWS}
