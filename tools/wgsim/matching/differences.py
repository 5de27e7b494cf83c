"""`wgsim diff`: two reports, entry by entry and step by step, the first difference first."""

from __future__ import annotations

import difflib
from typing import TYPE_CHECKING, Callable

from wgsim import exit_status
from wgsim.matching.beside import Beside, DoNotMatch
from wgsim.program.program import Program
from wgsim.reading import places
from wgsim.reading import script as scripts
from wgsim.reading.places import NotJson
from wgsim.reading.report import NotReport, Release, Report, count

if TYPE_CHECKING:
    from wgsim.reading.places import Text
    from wgsim.reading.report import Entry


class Side:
    """One of the two reports, and the words for what is in it."""

    def __init__(self, given: tuple[bytes, str], program: Callable[[], Program]) -> None:
        data, self.name = given
        script = places.Text(data, self.name) if data.lstrip()[:1] == b"{" else None
        if script is not None:
            status, data = program().ask(data)
            if status not in (0, exit_status.REFUSED):
                raise exit_status.End(status, f"{self.name}: {exit_status.SILENT[status]}")
        self.refused = data.decode("utf-8", "replace").strip() if data.startswith(b"bad script ") else None
        self.script = script
        self.known = Beside(parsed(data, self.name)) if self.refused is None else None

    @property
    def beside(self) -> Beside:
        """The report, where the script is not refused."""
        assert self.known is not None
        return self.known

    def name_by(self, text: Text) -> bool:
        """Takes the names of a script, where the report is one of it."""
        if self.known is None:
            return True
        try:
            script = scripts.read(text)
            self.known = Beside(self.beside.report, script) if script else self.known
            return script is not None
        except (NotJson, DoNotMatch):
            return False

    def where(self, entry: Entry) -> str:
        call = self.beside.call_of.get(entry.number)
        return f" ({self.beside.script.where(call)})" if call else ""


def parsed(data: bytes, name: str) -> Report:
    try:
        return Report(data.decode("utf-8"))
    except (NotReport, UnicodeDecodeError) as error:
        raise exit_status.End(exit_status.UNREAD, f"{name} is no report, and no script either: {error}") from None


class Comparison:
    """The differences of two sides, as lines."""

    def __init__(self, one: Side, other: Side) -> None:
        self.one, self.other = one, other
        self.found = []
        if one.refused or other.refused:
            self.refusals()
            return
        self.entries()
        self.items()

    def refusals(self) -> None:
        if self.one.refused != self.other.refused:
            self.add("one of the two is a refusal", *[self.side(each, each.refused or "a report") for each in (self.one, self.other)])

    def add(self, head: str, *lines: str) -> None:
        self.found.append([head, *[f"    {line}" for line in lines]])

    def side(self, side: Side, text: str) -> str:
        return f"{'A' if side is self.one else 'B'}: {text}"

    def entries(self) -> None:
        ours, theirs = [[entry_text(side.beside, entry) for entry in side.beside.report.entries] for side in (self.one, self.other)]
        for way, a, b, c, d in difflib.SequenceMatcher(None, ours, theirs, False).get_opcodes():
            if way == "equal":
                continue
            together = min(b - a, d - c)
            for n in range(together):
                first = self.one.beside.report.entries[a + n]
                self.add(
                    f"{heading('entry', a + n, c + n)}{self.one.where(first)}",
                    self.side(self.one, ours[a + n]),
                    self.side(self.other, theirs[c + n]),
                )
            self.alone("entry", self.one, ours, a + together, b)
            self.alone("entry", self.other, theirs, c + together, d)

    def alone(self, what: str, side: Side, texts: list[str], start: int, end: int) -> None:
        for n in range(start, end):
            self.add(f"{what} {n} of {'A' if side is self.one else 'B'} alone", *texts[n].split("\n"))

    def items(self) -> None:
        ours, theirs = item_texts(self.one.beside), item_texts(self.other.beside)
        for way, a, b, c, d in difflib.SequenceMatcher(None, ours, theirs, False).get_opcodes():
            if way == "equal":
                continue
            pairs, left, right = paired(ours, theirs, range(a, b), range(c, d))
            for n, m in pairs:
                self.changed(ours, theirs, n, m)
            for n in left:
                self.add(f"{self.item(self.one, n)} of A alone", *ours[n].split("\n"))
            for m in right:
                self.add(f"{self.item(self.other, m)} of B alone", *theirs[m].split("\n"))

    def changed(self, ours: list[str], theirs: list[str], n: int, m: int) -> None:
        """A step that both have, and differ in: only the lines that differ."""
        first, second = ours[n].split("\n"), theirs[m].split("\n")
        lines = [self.side(self.one, line) for line in first if line not in second]
        lines += [self.side(self.other, line) for line in second if line not in first]
        if lines:
            one, other = self.item(self.one, n), self.item(self.other, m)
            self.add(f"{one}, {first_line(ours[n])}" if one == other else f"{one} of A and {other} of B, {first_line(ours[n])}", *lines)

    def item(self, side: Side, n: int) -> str:
        item = side.beside.report.items[n]
        return "release" if isinstance(item, Release) else f"step {item.number}"


def heading(what: str, one: int, other: int) -> str:
    return f"{what} {one}" if one == other else f"{what} {one} of A and {what} {other} of B"


def first_line(text: str) -> str:
    """The line of a step's text that says which step it is."""
    return next((line for line in text.split("\n") if not line.startswith("barrier ")), text)


def paired(ours: list[str], theirs: list[str], some: range, others: range) -> tuple[list[tuple[int, int]], list[int], list[int]]:
    """Brings together those steps of two runs that are of one name; the others are in one report alone."""
    our_names, their_names = ([first_line(texts[n]).split(",")[0] for n in run] for texts, run in ((ours, some), (theirs, others)))
    pairs = []
    for way, a, b, c, _ in difflib.SequenceMatcher(None, our_names, their_names, False).get_opcodes():
        if way == "equal":
            pairs += [(some[a + n], others[c + n]) for n in range(b - a)]
    met = [{pair[0] for pair in pairs}, {pair[1] for pair in pairs}]
    return pairs, [n for n in some if n not in met[0]], [n for n in others if n not in met[1]]


def entry_text(beside: Beside, entry: Entry) -> str:
    """An entry without its number, with names in the place of object numbers. Promises go by their number among the promises."""
    words = entry.line.split(" settle ")[0].split(" ")[1:]
    number = entry.object()
    if number is not None and number in beside.names:
        words[words.index("made") + 1] = beside.names[number]
    settled = [
        f", {'its promise' if made == entry.number else f'promise {beside.promises.get(made)}'} is {how}" for made, how in entry.settled
    ]
    return "lane " + " ".join(words) + "".join(settled)


def item_texts(beside: Beside) -> list[str]:
    """The steps, each with its barriers, and the releases, with names and without the numbers of steps."""
    texts = []
    for item in beside.report.items:
        if isinstance(item, Release):
            texts.append(f"release of {beside.named(item.sort, item.object)}")
            continue
        where = f"on the host at entry {item.at}" if item.is_host else f"operation {item.at}"
        lines = [f"barrier on {beside.part(part)}: {before} to {after}" for part, before, after in item.barriers]
        lines.append(f"{item.name}, {where}")
        lines += [f"uses {beside.part(part)} as {usages}" for part, usages in item.uses]
        lines += [f"{kind} of {beside.part(cells)}" for kind, cells in item.accesses]
        texts.append("\n".join(lines))
    return texts


def give_names(one: Side, other: Side, given: Text | None) -> list[str]:
    """Has both sides go by the names of the script that is given, or that one of them is. Returns a note where one is not of it."""
    text = given or one.script or other.script
    if text is None:
        return []
    fits = [side.name_by(text) for side in (one, other)]
    if not any(fits):
        raise exit_status.End(exit_status.UNREAD, f"neither is a report of the script {text.name}")
    for side, named, letter, does_fit in ((one, other, "A", fits[0]), (other, one, "B", fits[1])):
        if not does_fit and named.known:
            side.beside.names = named.beside.names
            return [f"({letter} does not fit the script {text.name}: its objects go by the names that their numbers have there)"]
    return []


def compare(inputs: list[tuple[bytes, str]], script: tuple[bytes, str] | None, is_unproved: bool) -> tuple[str, int]:
    """What two reports differ in, and the status."""
    kept: list[Program] = []

    def program() -> Program:
        kept[:] = kept or [Program(is_unproved)]
        return kept[0]

    one, other = (Side(given, program) for given in inputs)
    note = give_names(one, other, places.Text(*script) if script else None)
    found = Comparison(one, other).found
    head = [f"A: {one.name}", f"B: {other.name}", *note]
    if not found:
        return "\n".join([*head, "the two are the same"]) + "\n", exit_status.SAME
    lines = [*head, f"{count(len(found), 'difference')}; the first:", *found[0]]
    lines += ["", "the others:"] * (len(found) > 1)
    for each in found[1:]:
        lines += each
    return "\n".join(lines) + "\n", exit_status.DIFFERENT
