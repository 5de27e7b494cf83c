"""The tables of the pages that are written from what stands elsewhere, between their marks.

- docs/map.md, how many files name a call: by a search. A file names a call where the name of its variant, as `CopyTextureToTexture`,
  stands in it as a word. Files are those of `src` and `specs` of all crates but those of tests and the one that measures memory.
- docs/script.md, what is refused: by docs/rules.json.
- docs/map.md, what a crate stands on, where its cell lists that and says no more: by crates.txt.
"""

from __future__ import annotations

import collections
import pathlib
import re
from typing import Callable, Match

from wgsim.reading import rules

STANDS_ON = re.compile(r"^(\| `(wg_\w+)` \| .* \| )(?:(?:`\w+`(?:, )?)+|nothing) \|$", re.M)
CALLS = (
    "copyTextureToTexture",
    "setBindGroup",
    "setVertexBuffer",
    "dispatchIndirect",
    "drawIndexed",
    "popDebugGroup",
    "beginRenderPass",
    "createBindGroup",
    "createRenderPipeline",
    "createQuerySet",
    "destroy",
    "complete",
)


def sources(top: pathlib.Path) -> list[tuple[str, set[str]]]:
    """The files that are searched, with the names of their crates and their words."""
    found = []
    for path in sorted(top.glob("crates/*/s*/**/*")):
        crate, folder = path.relative_to(top).parts[1:3]
        if path.suffix in (".rt", ".antt") and folder in ("src", "specs") and not crate.endswith("_tests"):
            found.append((crate, set(re.findall(r"\w+", path.read_text(encoding="utf-8")))))
    return found


def row(call: str, searched: list[tuple[str, set[str]]]) -> str:
    """The row of a call: how many files name it, in all and by crate."""
    variant = call[0].upper() + call[1:]
    counts = collections.Counter(crate for crate, words in searched if variant in words)
    return f"| {call} | {sum(counts.values())} | {', '.join(f'`{crate}` {count}' for crate, count in sorted(counts.items()))} |"


def calls_table(top: pathlib.Path) -> list[str]:
    """How many files name each call."""
    searched = sources(top)
    return ["| Call | Files | By crate |", "|---|--:|---|"] + [row(call, searched) for call in CALLS]


def refusals_table(top: pathlib.Path) -> list[str]:
    """What each rule of scripts refuses, and with which place."""
    lines = [f"| {row['rule']} | {rules.refused_by(row)} | {row['place']} |" for row in rules.TABLE["scripts"]]
    return ["| Rule | What is refused | Place |", "|---|---|---|", *lines]


TABLES = (("docs/map.md", "calls", calls_table), ("docs/script.md", "refusals", refusals_table))


def used(top: pathlib.Path) -> dict[str, list[str]]:
    """What each crate uses, by crates.txt."""
    rows = [line for line in (top / "crates.txt").read_text(encoding="utf-8").splitlines() if line and not line.startswith("#")]
    return {row.partition(":")[0].split()[0]: row.partition(":")[2].split() for row in rows}


def stood_on(top: pathlib.Path, text: str) -> str:
    """A text in whose rows of crates the last cell has what the crate uses."""
    known = used(top)

    def row(found: Match[str]) -> str:
        libraries = ", ".join(f"`{library}`" for library in known.get(found[2], [])) or "nothing"
        return f"{found[1]}{libraries} |"

    return STANDS_ON.sub(row, text)


def page(top: pathlib.Path, name: str, mark: str, table: Callable[[pathlib.Path], list[str]]) -> str | None:
    """A page with its table as that should be, or None where its marks are missing."""
    text = (top / name).read_text(encoding="utf-8")
    begin, end = f"<!-- {mark}: begin -->", f"<!-- {mark}: end -->"
    if text.count(begin) != 1 or text.count(end) != 1:
        return None
    lines = "\n".join(table(top))
    return stood_on(top, f"{text.partition(begin)[0]}{begin}\n\n{lines}\n\n{end}{text.partition(end)[2]}")


def write(top: pathlib.Path) -> None:
    """Writes the tables whose marks are there."""
    for name, mark, table in TABLES:
        wanted = page(top, name, mark, table)
        if wanted is not None:
            (top / name).write_text(wanted, encoding="utf-8")


def findings_of(top: pathlib.Path) -> list[str]:
    """The pages whose tables are others, or have no marks."""
    found = []
    for name, mark, table in TABLES:
        wanted = page(top, name, mark, table)
        if wanted is None:
            found.append(f"{name}: the marks of the table `{mark}` are not in it")
        elif wanted != (top / name).read_text(encoding="utf-8"):
            found.append(f"{name}: its tables are not what is written of them")
    return found
