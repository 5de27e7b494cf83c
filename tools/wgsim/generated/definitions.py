"""docs/definitions.md: each public definition of crates/*/specs with the sentence that stands above it as a comment.

What stands before the mark, how to read the page and its glossary, is kept by hand. Crates come in the order of crates.txt, and
definitions as they stand in their files. One that a clause of a public call names is bold.
"""

from __future__ import annotations

import pathlib
import re
import textwrap
from typing import TYPE_CHECKING, Collection

from wgsim.generated import cited

if TYPE_CHECKING:
    from wgsim.generated.cited import Definition

PAGE = "docs/definitions.md"
MARK = "<!-- What follows is written by `tools/python -m wgsim.generated --write`. -->"
DEFINITION = re.compile(r"^(?:(?:abbrev|unfoldable) pub|pub (?:record|data)|pub) (?!mod |use )([^\s:({]+)")
FLOOR = re.compile(r"^# (Floor \d+): (.*)$")
COMMENT = "--"
WIDTH = 140


def words_above(lines: list[str], number: int) -> str:
    """The comment that stands above a line, or above the notation of an operator there, as one line."""
    start = number
    while start and lines[start - 1].startswith((COMMENT, "infix")):
        start -= 1
    return " ".join(line[len(COMMENT) :].strip() for line in lines[start:number] if line.startswith(COMMENT))


def head_of(lines: list[str]) -> str:
    """The comment at the head of a file, as one line."""
    end = 0
    while end < len(lines) and lines[end].startswith(COMMENT):
        end += 1
    return words_above(lines, end)


def definitions_of(path: pathlib.Path) -> tuple[str, list[tuple[str, str]]]:
    """The head of a file of specs, and its public definitions in order, each with its sentence."""
    lines = path.read_text(encoding="utf-8").splitlines()
    found = []
    for number, line in enumerate(lines):
        named = DEFINITION.match(line)
        if named:
            found.append((named[1], words_above(lines, number)))
    return head_of(lines), found


def floors(top: pathlib.Path) -> list[tuple[str, list[str]]]:
    """The floors of crates.txt with what they have, and the crates of each, in order."""
    found = []
    for line in (top / "crates.txt").read_text(encoding="utf-8").splitlines():
        floor = FLOOR.match(line)
        if floor or line.startswith("# What") or line.startswith("# Tests"):
            found.append((f"{floor[1]}: {floor[2]}" if floor else line[2:], []))
        elif line and not line.startswith("#"):
            found[-1][1].append(re.split(r"[ :]", line, maxsplit=1)[0])
    return found


def files_of(top: pathlib.Path, crate: str) -> list[tuple[pathlib.Path, str, list[tuple[str, str]]]]:
    """The files of specs of a crate that define something."""
    paths = sorted((top / "crates" / crate / "specs").glob("*.antt"))
    return [(path, *definitions_of(path)) for path in paths if definitions_of(path)[1]]


def purpose_of(top: pathlib.Path, crate: str) -> str:
    """What a crate is, in the words at the head of its code."""
    roots = [top / "crates" / crate / "src" / name for name in ("lib.rt", "main.rt")]
    lines = [line for root in roots if root.is_file() for line in root.read_text(encoding="utf-8").splitlines()]
    return " ".join(line[3:].strip() for line in lines if line.startswith("//!"))


def told(text: str) -> str:
    """A sentence as a cell of a table."""
    return text.replace("|", "\\|")


def table_of(crate: str, path: pathlib.Path, found: list[tuple[str, str]], named: Collection[Definition]) -> list[str]:
    """The lines of the table of a file."""
    lines = ["| Definition | In words |", "|---|---|"]
    for name, words in found:
        mark = "**" if (crate, path.stem, name) in named else ""
        lines.append(f"| {mark}`{name}`{mark} | {told(words)} |")
    return lines


def wrapped(text: str, indent: str = "") -> list[str]:
    """A text in lines that are not too long, none of which ends inside of backticks."""
    whole = re.sub(r"`[^`]*`", lambda span: span[0].replace(" ", "\0"), text)
    lines = textwrap.wrap(whole, WIDTH, subsequent_indent=indent, break_long_words=False, break_on_hyphens=False)
    return [line.replace("\0", " ") for line in lines]


def part_of_crate(top: pathlib.Path, crate: str, named: Collection[Definition]) -> list[str]:
    """The lines of a crate."""
    lines = [f"### `{crate}`", "", *wrapped(purpose_of(top, crate)), ""]
    for path, head, found in files_of(top, crate):
        lines += [f"#### `{path.relative_to(top)}`", "", *wrapped(head), "", *table_of(crate, path, found, named), ""]
    return lines


def several(top: pathlib.Path, named: Collection[Definition]) -> list[tuple[str, list[str]]]:
    """The names that stand for several things, of which a public contract names one: each with its files and sentences."""
    uses, wanted = {}, {name for _, _, name in named}
    for _, crates in floors(top):
        for crate in crates:
            for path, _, found in files_of(top, crate):
                for name, words in found:
                    uses.setdefault(name, []).append(f"`{path.relative_to(top)}`: {told(words)}")
    return sorted((name, found) for name, found in uses.items() if name in wanted and len(found) > 1)


def written(top: pathlib.Path) -> str:
    """What stands behind the mark."""
    named = cited.cited(top)
    every = [(floor, [crate for crate in crates if files_of(top, crate)]) for floor, crates in floors(top)]
    lines = ["", "## Contents", ""]
    for floor, crates in every:
        if crates:
            lines += wrapped(f"- {floor} " + ", ".join(f"[`{crate}`](#{crate})" for crate in crates), "  ")
    lines += ["- [Names with several uses](#names-with-several-uses)", ""]
    for floor, crates in every:
        if crates:
            lines += [f"## {floor.rstrip('.')}", ""]
        for crate in crates:
            lines += part_of_crate(top, crate, named)
    lines += ["## Names with several uses", "", "Definitions of one name in several files, of which a public contract names one.", ""]
    lines += ["| Name | Its uses |", "|---|---|"]
    lines += [f"| `{name}` | {'; '.join(found)} |" for name, found in several(top, named)]
    return "\n".join(lines) + "\n"


def page(top: pathlib.Path) -> str:
    """The page as it should be: what is kept by hand, the mark, and what is written."""
    text = (top / PAGE).read_text(encoding="utf-8")
    return text.partition(MARK)[0] + MARK + "\n" + written(top)


def write(top: pathlib.Path) -> None:
    """Writes the part of the page behind its mark."""
    wanted = page(top)
    (top / PAGE).write_text(wanted, encoding="utf-8")


def findings_of(top: pathlib.Path) -> list[str]:
    """The definitions that have no sentence, and whether the page is another one."""
    found = []
    for path in sorted(top.glob("crates/*/specs/*.antt")):
        for name, words in definitions_of(path)[1]:
            if not words:
                found.append(f"{path.relative_to(top)}: {name} has no sentence above it")
    text = (top / PAGE).read_text(encoding="utf-8")
    if MARK not in text:
        found.append(f"{PAGE}: the mark is not in it: {MARK}")
    elif page(top) != text:
        found.append(f"{PAGE}: it is not what is written of the definitions")
    return found
