"""The faults of a report as a picture shows them, since a refused call leaves nothing in the trace. Where the script was recorded of a page
they are told by its lines, and the errors that the browser alone made beside them."""

from __future__ import annotations

import html
from typing import TYPE_CHECKING

from wgsim.matching import browser_errors, culprit, repeated
from wgsim.reading import browser_answers, rules
from wgsim.reading.report import count

if TYPE_CHECKING:
    from wgsim.causes.cases import Causes, Told
    from wgsim.matching.beside import Beside
    from wgsim.matching.browser_errors import BrowserError
    from wgsim.reading.report import Entry
    from wgsim.reading.script import Call

# Faults that are shown at once; the others open on a click.
MOST = 8


def escape(text: object) -> str:
    return html.escape(str(text), quote=True)


class Faults:
    """The faults of a report beside its script, with their causes, and the errors of the browser that played it."""

    def __init__(self, beside: Beside, causes_of: Causes, browsers: list[BrowserError]) -> None:
        self.beside, self.causes_of, self.browsers = beside, causes_of, browsers
        self.pages = browser_answers.Pages(beside.script.text.name)

    def text(self) -> str:
        """An item for each fault and each error, and one where the device was lost, since the calls after that leave no fault and no
        step."""
        found = repeated.faults(self.beside, self.causes_of, self.pages)
        items = [*self.of_browser(True), *[self.item(entry, others) for entry, *others in found], *self.of_browser(False)]
        more = items[MOST:] if len(items) > MOST + 1 else []
        lists = [items[: len(items) - len(more)]] + [more] * bool(more)
        texts = [f"<ul class='faults'>\n{''.join(each)}</ul>" for each in lists if each]
        if more:
            texts[1] = f"<details class='more'><summary>and {count(len(more), 'more fault')}</summary>\n{texts[1]}</details>"
        return "\n".join(texts + self.loss())

    def where(self, call: Call | None, number: int | None = None) -> str:
        """The place of a call, which is that in the page where there is one, or the number of its entry."""
        if call is None:
            return f"entry {number}"
        line, at = f"line {self.beside.script.line(call)}", self.pages.at(call)
        return line if at is None else f"{at} ({line} of the script)"

    def item(self, entry: Entry, others: list[Entry]) -> str:
        """A fault, or in short one that only follows from another, with how often it comes."""
        call, (_, number, _) = self.beside.call_of.get(entry.number), entry.own_fault()
        again, told = [small(line) for line in repeated.said(others)], self.causes_of.of(entry)
        if call is None or told.cause is None or not self.causes_of.follows(entry):
            return f"<li>{''.join(self.fault(entry, call, told, again))}</li>\n"
        root = next(each for each in self.beside.report.entries if each.number == self.causes_of.root(entry))
        by = self.where(self.beside.call_of.get(root.number), root.number)
        first = f"{self.where(call)}: {entry.word} only follows from {by}: {told.cause.condition} (rule {number})"
        return f"<li class='follows'><p>{escape(first)}</p>{''.join(again)}</li>\n"

    def fault(self, entry: Entry, call: Call | None, told: Told, again: list[str]) -> list[str]:
        """A fault: its cause, the rule's sentence, its call, and of a finish the command that it is about."""
        kind, number, scope = entry.own_fault()
        caught = "uncaptured" if scope == "uncaptured" else f"caught by error {scope}"
        where = self.where(call, entry.number)
        lines = [
            f"<p class='fault'><b>Fault at {escape(where)}: {escape(self.word(entry, call))} breaks rule {number}</b> <small>{kind} error,"
            f" {caught}</small></p>",
            *again,
        ]
        found = culprit.told(self.beside, number, told)
        lines += [f"<p>{escape(why)}</p>" for why in (told.cause.text() if told.cause else told.why_none,) if why]
        lines += [small(line) for line in self.pages.made(told.cause.text(), self.beside.script)] if told.cause else []
        for rule in culprit.broken(number, entry.word, found):
            asks = f"Rule {number} asks of {escape(rule.label)}: {escape(rule.asks)}"
            lines.append(f"<p>{asks} <small>{escape(rules.section(rule))}</small></p>")
        lines += self.called(call) if call is not None else []
        if found:
            at = self.where(found.call)
            lines.append(f"<p>The command that {escape(found.said)} is number {found.number} of {found.total}, at {escape(at)}:</p>")
            lines += self.called(found.call)
        return lines

    def word(self, entry: Entry, call: Call | None) -> str:
        """What was called, by the name that it has in the page."""
        word = self.pages.word(call) if call is not None else entry.word
        return word if call is not None and word != call.word else entry.word

    def called(self, call: Call) -> list[str]:
        """A call as the script has it, and from where in the page its line is reached."""
        by = self.pages.of(call)[1:]
        return [f"<code>{escape(self.beside.script.said(call))}</code>", *[small(f"called from {', '.join(by)}")] * bool(by)]

    def of_browser(self, is_first: bool) -> list[str]:
        """The errors that the browser alone made, those from which others may follow or the others, each once that comes again."""
        return [self.error(*group) for group in browser_errors.alike([one for one in self.browsers if one.is_first == is_first])]

    def error(self, error: BrowserError, *others: BrowserError) -> str:
        """An error of the browser in its words, and how it can be that no rule is broken."""
        often = f", the first of {len(others) + 1} times" if others else ""
        where = escape(self.where(error.call) if error.call is not None else error.page or f"call {error.number}")
        quoted = error.quoted()
        if error.follows:
            return f"<li class='follows'><p>{where}: {escape(error.word)} only follows: {escape(quoted[0])}{often}</p></li>\n"
        lines = [f"<p class='fault'><b>Browser's error at {where}: {escape(error.word)}</b>{small_in(often.lstrip(', '))}</p>"]
        lines += [f"<pre>{escape(chr(10).join(quoted))}</pre>", *[f"<p>{escape(error.reason())}</p>"] * bool(error.reason())]
        return f"<li>{''.join(lines + (self.called(error.call) if error.call is not None else []))}</li>\n"

    def loss(self) -> list[str]:
        """A line where the device was lost."""
        for entry in self.beside.report.entries:
            if entry.word == "lose":
                where = escape(self.where(self.beside.call_of.get(entry.number), entry.number))
                said = "<b>Lost: the device is lost from {} on</b>: no later submit or write does anything"
                return [f"<p class='fault'>{said.format(where)}</p>"]
        return []


def small(line: str) -> str:
    return f"<p><small>{escape(line)}</small></p>"


def small_in(words: str) -> str:
    """Some words behind others, or nothing."""
    return f" <small>{escape(words)}</small>" if words else ""
