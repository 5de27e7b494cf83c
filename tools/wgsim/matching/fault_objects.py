"""`wgsim explain --json`: the faults of a report with their causes, its promises and the status of each entry, for a machine.

The form is described in docs/tool.md, and is kept stable.
"""

from __future__ import annotations

import json
from typing import TYPE_CHECKING, Any

from wgsim import causes
from wgsim.exit_status import DIFFERENT, REFUSED
from wgsim.matching import browser_errors, culprit, refusal
from wgsim.matching.explained import answer, set_beside
from wgsim.matching.scopes import Scopes
from wgsim.reading import browser_answers
from wgsim.reading.script import string_of

if TYPE_CHECKING:
    from wgsim.matching.beside import Beside
    from wgsim.matching.given import Asked
    from wgsim.reading.places import Text
    from wgsim.reading.report import Entry
    from wgsim.reading.script import Call


def place(text: Text, call: Call | None) -> str | None:
    """The line and column of a call, or None."""
    return "{}:{}".format(*text.place(call.value.start)) if call is not None else None


def of_fault(text: Text, beside: Beside, scopes: Scopes, causes_of: causes.Causes, entry: Entry) -> dict[str, Any]:
    """A fault as an object; where the script was recorded with the places of its call and its command in the page."""
    kind, number, _ = entry.own_fault()
    told, call = causes_of.of(entry), beside.call_of.get(entry.number)
    cause = told.cause
    rule = culprit.broken(number, entry.word, culprit.told(beside, number, told))[0]
    pages = browser_answers.Pages(text.name)
    in_page = (
        {"page": pages.at(call), "commandPage": pages.at(told.command) if told.command else None}
        if pages.calls and call is not None
        else {}
    )
    return {
        "kind": "fault",
        "entry": entry.number,
        "call": place(text, call),
        "do": call.word if call else entry.word,
        "command": place(text, told.command),
        "commandDo": told.command.word if told.command else None,
        "rule": number,
        "error": kind,
        "section": rule.sections,
        "asks": rule.asks,
        "condition": cause.condition if cause else None,
        "values": cause.values if cause else {},
        "remedy": cause.remedy if cause else None,
        "scope": of_scope(scopes, entry),
        "follows_from": causes_of.root(entry),
        **in_page,
    }


def of_scope(scopes: Scopes, entry: Entry) -> Any:
    """The error scope that caught a fault: its place on the stack, the entry that opened it, and whether it keeps this fault; or None."""
    scope = scopes.caught.get(entry.number)
    return {"place": scope.place, "opened": scope.opened.number, "keeps": scope.first is entry} if scope else None


def of_promise(text: Text, beside: Beside, scopes: Scopes, entry: Entry) -> Any:
    """The promise that an entry made: by which entry it is settled and how, or null where nothing settles it."""
    by = scopes.settler.get(entry.number)
    how = next((how for promise, how in by.settled if promise == entry.number), None) if by else None
    call = beside.call_of.get(entry.number)
    return {
        "kind": "promise",
        "entry": entry.number,
        "call": place(text, call),
        "do": entry.word,
        "settled": how,
        "settledBy": by.number if by else None,
    }


def of_status(text: Text, beside: Beside, entry: Entry) -> dict[str, Any]:
    """What the device answered at an entry."""
    call, number = beside.call_of.get(entry.number), entry.object()
    words = {"made": entry.answer[-1], "op": "queued", "promise": "promise", "bad": "bad"}
    status = words.get(entry.answer[0]) or ("late" if entry.word == "late" else "refused" if entry.fault else "done")
    found = {
        "kind": "status",
        "entry": entry.number,
        "lane": entry.lane,
        "call": place(text, call),
        "do": call.word if call else entry.word,
        "status": status,
    }
    if number is not None:
        found.update(object=number, name=beside.names.get(number))
        label = string_of(call.value, "label") if call is not None else None
        found.update({"label": label} if label else {})
    if entry.operation() is not None:
        found["operation"] = entry.operation()
    if call is not None and call.frame is not None:
        found.update(canvas=call.frame.canvas.name, frame=call.frame.number)
    return found


def of_refusal(text: Text, line: str) -> dict[str, Any]:
    """A script that is refused, as an object."""
    found = refusal.find(text, line)
    where = dict(zip(refusal.PARTS, found.place))
    call = "{}:{}".format(*text.place(found.offset)) if found.offset is not None else None
    return {
        "kind": "refusal",
        "rule": found.rule,
        "at": call,
        "phase": where.get("phase"),
        "lane": where.get("lane"),
        "number": where.get("call"),
        "asks": found.refuses,
        "condition": found.found,
        "values": {"expected": found.expected},
        "remedy": found.more[0] if found.more else None,
    }


def listed(text: Text, data: bytes, program: Asked) -> tuple[list[dict[str, Any]], int]:
    """The objects of a script, and the status of its report."""
    status, said = answer(text, data, program)
    if status == REFUSED:
        return [of_refusal(text, said)], status
    beside = set_beside(text, said, lambda *lines: None)
    scopes, causes_of = Scopes(beside), causes.of_report(data, beside)
    entries = beside.report.entries
    found = [of_fault(text, beside, scopes, causes_of, entry) for entry in entries if entry.fault]
    found += [of_promise(text, beside, scopes, entry) for entry in entries if entry.answer == ["promise"]]
    browsers = [error.json(text) for error in browser_errors.found(text, data, said)]
    return found + browsers + [of_status(text, beside, entry) for entry in entries], DIFFERENT if browsers else status


def explained(text: Text, data: bytes, program: Asked) -> tuple[str, int]:
    """The JSON text of a script, an array with an object a line, and the status of its report."""
    found, status = listed(text, data, program)
    return "[" + ",".join("\n" + json.dumps(each, ensure_ascii=True) for each in found) + "\n]\n", status
