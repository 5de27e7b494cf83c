"""The places of a page whose scripts a build has put together: where a source map lies beside a script, by the lines of its sources.

A map is the one that the last `sourceMappingURL` of a script names, a file or the text itself. Its `mappings` are, of each line of the
script, pieces by the column at which they begin, each with a source and the line and column there. All but the columns count on from piece
to piece, and numbers are in base 64, five bits in a digit, the least first. """

from __future__ import annotations

import base64
import bisect
import json
import posixpath
import re
import urllib.parse
from typing import Any, Callable, Iterator, Optional

# What has the bytes of a file of the page by its name there, or None.
Has = Callable[[str], Optional[bytes]]
PLACE = re.compile(r"(?P<file>.+):(?P<line>\d+):(?P<column>\d+)(?: in .*)?", re.S)
NAMES_MAP = re.compile(rb"^[ \t]*(?://|/\*)[#@][ \t]*sourceMappingURL=([^\s*'\"]+)", re.M)
DIGITS = {letter: value for value, letter in enumerate("ABCDEFGHIJKLMNOPQRSTUVWXYZabcdefghijklmnopqrstuvwxyz0123456789+/")}
# What some bundlers put before the path of a source, and what some servers put before a map.
OF_BUNDLER = re.compile(r"^(?:webpack|rollup|vite|turbopack)[\w-]*://[^/]*/")
GUARD = re.compile(rb"^\)\]\}'[^\n]*\n")


def numbers_of(text: str) -> Iterator[int]:
    """The numbers of a piece. The lowest bit of each is its sign."""
    value, shift = 0, 0
    for letter in text:
        digit = DIGITS[letter]
        value |= (digit & 31) << shift
        shift += 5
        if not digit & 32:
            yield -(value >> 1) if value & 1 else value >> 1
            value, shift = 0, 0


def beside(file: str, address: str) -> str:
    """The name of a file that another one names."""
    if re.match(r"\w[\w+.-]*:", address):
        return address
    if "://" in file:
        return urllib.parse.urljoin(file, address)
    return posixpath.normpath(posixpath.join(posixpath.dirname(file.partition("?")[0]), urllib.parse.unquote(address)))


def source_of(file: str, root: str, path: str) -> str:
    """The name of a source that a map in a file has. What a bundler names by its own scheme is told from where it was built."""
    if OF_BUNDLER.match(path):
        return posixpath.normpath(OF_BUNDLER.sub("", path))
    is_whole = re.match(r"\w[\w+.-]*:|/", path)
    return beside(file, path if is_whole else posixpath.join(root, path))


class SourceMap:
    """A map of one script, which lies in a file: of each line the pieces by their columns, each with its place in a source, or None."""

    def __init__(self, told: dict[str, Any], file: str) -> None:
        self.lines: dict[int, list[tuple[int, tuple[str, int, int] | None]]] = {}
        for part in told.get("sections", [{"offset": {"line": 0, "column": 0}, "map": told}]):
            self.take(part["map"], file, part["offset"]["line"], part["offset"]["column"])

    def take(self, told: dict[str, Any], file: str, first: int, low: int) -> None:
        """Adds a part that begins at a line and a column of the script, both counted from 0."""
        sources = [source_of(file, told.get("sourceRoot") or "", path or "") for path in told["sources"]]
        source, line, column = 0, 0, 0
        for number, text in enumerate(told["mappings"].split(";"), first):
            at, pieces = low if number == first else 0, self.lines.setdefault(number, [])
            for piece in filter(None, text.split(",")):
                found = list(numbers_of(piece))
                at += found[0]
                if len(found) >= 4:
                    source, line, column = source + found[1], line + found[2], column + found[3]
                pieces.append((at, (sources[source], line, column) if len(found) >= 4 else None))
            pieces.sort(key=lambda piece: piece[0])

    def place(self, line: int, column: int) -> str | None:
        """The place in a source of one in the script, all lines and columns from 1; None of what is of no source."""
        pieces = self.lines.get(line - 1, [])
        at = bisect.bisect_right([piece[0] for piece in pieces], column - 1)
        found = pieces[at - 1][1] if at else None
        return f"{found[0]}:{found[1] + 1}:{found[2] + 1}" if found is not None else None


class Sources:
    """The places of a page, by its sources where maps tell them. `has` gives the files of the page."""

    def __init__(self, has: Has) -> None:
        self.has = has
        self.maps: dict[str, SourceMap | None] = {}

    def map_of(self, script: str) -> SourceMap | None:
        """The map of a script, or None where it names none, or none that can be read."""
        if script not in self.maps:
            try:
                self.maps[script] = self.read(script)
            except (ValueError, KeyError, TypeError, IndexError, AttributeError):
                self.maps[script] = None
        return self.maps[script]

    def read(self, script: str) -> SourceMap | None:
        named = NAMES_MAP.findall(self.has(script) or b"")
        if not named:
            return None
        address = named[-1].decode("utf-8")
        if not address.startswith("data:"):
            file = beside(script, address)
            data = self.has(file)
            return SourceMap(json.loads(GUARD.sub(b"", data)), file) if data is not None else None
        head, _, text = address.partition(",")
        data = base64.b64decode(text) if head.endswith(";base64") else urllib.parse.unquote_to_bytes(text)
        return SourceMap(json.loads(data), script)

    def place(self, told: str) -> str:
        """A place, by its source where a map tells that, and then without the name that the build gave the function. A page's own lines are
        its own."""
        found = PLACE.fullmatch(told)
        if found is None or re.search(r"\.html?$|^\(the page\)$", found["file"]):
            return told
        script = self.map_of(found["file"])
        place = script.place(int(found["line"]), int(found["column"])) if script is not None else None
        return place if place is not None else told

    def of(self, told: dict[str, Any]) -> dict[str, Any]:
        """What is told of a place: by its sources, and under `built` where that is in the script."""
        if "at" not in told:
            return told
        at = self.place(told["at"])
        by = {"by": [self.place(each) for each in told["by"]]} if "by" in told else {}
        return {**told, "at": at, **by, **({"built": told["at"]} if at != told["at"] else {})}

    def of_recordings(self, found: dict[str, Any]) -> None:
        """Has all places of the recordings of a page go by its sources."""
        for one in found["recordings"]:
            for key in {"calls", "passed", "notes"} & set(one):
                one[key] = [self.of(told) for told in one[key]]
