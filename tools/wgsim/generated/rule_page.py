"""docs/rules.md, which `wgsim rules --page` prints as well: every rule with what it asks, by docs/rules.json."""

from __future__ import annotations

import pathlib

from wgsim.reading import rules

PAGE = "docs/rules.md"


def write(top: pathlib.Path) -> None:
    """Writes the page."""
    (top / PAGE).write_text(rules.page(), encoding="utf-8")


def findings_of(top: pathlib.Path) -> list[str]:
    """Whether the page is another one."""
    return [] if (top / PAGE).read_text(encoding="utf-8") == rules.page() else [f"{PAGE}: it is not what is written of docs/rules.json"]
