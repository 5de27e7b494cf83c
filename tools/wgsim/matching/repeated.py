"""Faults that come again, as those of each frame of a page that was recorded."""

from __future__ import annotations

import re
from typing import TYPE_CHECKING, Any

if TYPE_CHECKING:
    from wgsim.causes.cases import Causes
    from wgsim.matching.beside import Beside
    from wgsim.reading.browser_answers import Pages
    from wgsim.reading.report import Entry

# What a fault of the next frame says otherwise: names, labels, places and entries.
OF_FRAME = re.compile(r' ?"(?:[^"\\]|\\.)*"|\(?\b\d+:\d+\b\)?|\bentry \d+|\bframe \d+')
# Of a fault that comes again how many entries are told.
MOST = 3


def faults(beside: Beside, causes_of: Causes, pages: Pages) -> list[list[Entry]]:
    """The faults of a report, together those that the same lines of the page make for the same reason. The first of each comes first."""
    groups: dict[Any, list[Entry]] = {}
    for entry in beside.report.entries:
        if not entry.fault:
            continue
        told, call = causes_of.of(entry), beside.call_of.get(entry.number)
        at = pages.at(call) if call is not None else None
        by = pages.at(told.command) if told.command is not None else None
        reason = OF_FRAME.sub("", told.cause.condition) if told.cause else told.why_none
        groups.setdefault((at, by, entry.word, entry.fault, reason) if at is not None else entry.number, []).append(entry)
    return list(groups.values())


def said(others: list[Entry]) -> list[str]:
    """That a fault comes again, how often, and at which entries, in a line or none."""
    if not others:
        return []
    more = f" and {len(others) - MOST} more" if len(others) > MOST else ""
    entries = ", ".join(str(entry.number) for entry in others[:MOST])
    which = "entry" if len(others) == 1 else "entries"
    return [f"this is the first of {len(others) + 1} times at this place of the page; it comes again at {which} {entries}{more}"]
