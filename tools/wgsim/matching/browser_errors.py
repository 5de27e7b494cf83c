"""What `explain` tells of the errors that a browser made where no rule of this core is broken: of a recorded script alone."""

from __future__ import annotations

import pathlib
from typing import TYPE_CHECKING, Any

from wgsim.matching import compared
from wgsim.reading import browser_answers
from wgsim.reading.report import count

if TYPE_CHECKING:
    from wgsim.reading.places import Text
    from wgsim.reading.script import Call, Script

OF_SHADERS = (
    "no rule of this core is broken: it does not look into shaders. What is made of a shader that is refused is invalid, and what names"
    " that fails too: mend this first."
)
WHY = {
    compared.OUTSIDE: "no rule of this core is broken: {}, and that may be why.",
    compared.KNOWN: "no rule of this core is broken: the two are known to differ here, {}.",
    compared.DIFFERS: "no rule of this core is broken, and no reason for that is known: core and browser differ here.",
}
# What can be done about an error that the browser alone made.
REMEDY = {
    compared.OUTSIDE: "Look at that there: the browser's words say what it wants.",
    compared.KNOWN: "Go by the browser's words: others may take it, and this one does not.",
    compared.DIFFERS: "One of the two is wrong. Go by the browser's words for now, and keep the recording: it shows the difference.",
}
ENLARGE = "Make the buffer, or the range of it that is bound, as large as the browser says."


class BrowserError:
    """An error of the browser: of a shader, of a call of the script, or of one that the script does not have. `why` says how it can be that
    no rule is broken, `is_first` that others may follow from it, and `follows` that it only follows from another."""

    def __init__(self, number: int, word: str, page: str | None, kind: str, message: str) -> None:
        self.number, self.word, self.page, self.kind, self.message = number, word, page, kind, message.strip()
        self.call: Call | None = None
        self.why: str | None = OF_SHADERS
        self.remedy: str | None = None
        self.is_first, self.follows = True, False

    def by(self, verdict: compared.Verdict) -> BrowserError:
        """The same with what `judge` says of its call."""
        self.call = verdict.call
        self.is_first = verdict.is_too_small()
        self.follows = verdict.how == compared.FOLLOWS or compared.PREVIOUS.search(self.message) is not None
        self.why = WHY[verdict.how].format(verdict.why) if verdict.how in WHY else verdict.why
        self.remedy = ENLARGE if self.is_first else REMEDY.get(verdict.how)
        return self

    def lines(self, script: Script, times: int = 1) -> list[str]:
        """The error in words, with how often it comes."""
        where = "before" if self.call is None else "at"
        place = f": {script.where(self.call)}" if self.call is not None else ""
        first = (self.message.splitlines() or ["it says nothing"])[0]
        if self.follows:
            often = f" (the first of {times} times)" if times > 1 else ""
            return ["", f"follows from an earlier error: call {self.number}{place}: {self.word}: the browser: {first}{often}"]
        page = f"in the page: {self.page}" if self.page else ""
        said = [f"    {script.said(self.call)}"] if self.call is not None else []
        head = f"BROWSER'S ERROR {where} call {self.number}{place}" + (f": {self.word}" if self.call is None else "")
        often = f"this is the first of {times} times at this place of the page" if times > 1 else ""
        return ["", head, *said, *[f"    {line}" for line in (page, often, *self.quoted(), self.reason()) if line]]

    def reason(self) -> str:
        """How it can be that no rule is broken, and what can be done."""
        return " ".join(filter(None, (self.why, self.remedy)))

    def quoted(self) -> list[str]:
        """The browser's words, as many lines as they have."""
        lines = [line.rstrip() for line in self.message.splitlines() if line.strip()] or ["it says nothing"]
        return [f"the browser ({self.kind}): {lines[0]}", *[f"    {line}" for line in lines[1:]]]

    def json(self, text: Text) -> dict[str, Any]:
        return {
            "kind": "browser",
            "number": self.number,
            "call": "{}:{}".format(*text.place(self.call.value.start)) if self.call is not None else None,
            "do": self.word,
            "error": self.kind,
            "message": self.message,
            "page": self.page,
            "why": self.why,
            "remedy": self.remedy,
            "follows": self.follows,
        }


def found(text: Text, data: bytes, said: str) -> list[BrowserError]:
    """The browser's own errors, of a script beside which NAME.answers.json lies: those of shaders first, then those from which others may
    follow, then by call."""
    path = pathlib.Path(text.name)
    if not browser_answers.is_recorded(path):
        return []
    judged = compared.Compared(path, data, said)
    shaders = [note for note in judged.answers.notes if "shader" in note]
    errors = [BrowserError(note["before"], "createShaderModule", note.get("at"), note["shader"], note["message"]) for note in shaders]
    alone = [verdict for verdict in judged.verdicts if verdict.is_alone]
    of_calls = [BrowserError(each.number, each.word, each.at, each.kind, each.message).by(each) for each in alone]
    errors += sorted(of_calls, key=lambda error: (not error.is_first, error.number))
    # Where all only follow, they follow from faults that are told by a rule.
    return errors if any(not error.follows for error in errors) else []


def alike(errors: list[BrowserError]) -> list[list[BrowserError]]:
    """Errors together that come at the same place of the page with the same words. The first of each comes first."""
    groups: dict[Any, list[BrowserError]] = {}
    for error in errors:
        groups.setdefault((error.page, error.word, error.message) if error.page else error, []).append(error)
    return list(groups.values())


def head(errors: list[BrowserError]) -> list[str]:
    """How many there are, in a line or none."""
    return [f"the browser made {count(len(errors), 'error')} where no rule of this core is broken"] if errors else []
