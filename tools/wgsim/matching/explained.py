"""`wgsim explain`: what the program says of a script, beside the script, and why each fault was made."""

from __future__ import annotations

import functools
from typing import TYPE_CHECKING, Callable, Iterable

from wgsim import causes
from wgsim.exit_status import DIFFERENT, REFUSED, SILENT, End
from wgsim.matching import browser_errors, culprit, refusal, repeated
from wgsim.matching.beside import Beside, DoNotMatch
from wgsim.matching.scopes import Scopes
from wgsim.reading import bits, browser_answers, calls, frames, rules
from wgsim.reading import script as scripts
from wgsim.reading.places import NotJson, escaped
from wgsim.reading.report import NotReport, Release, Report, count, summary

if TYPE_CHECKING:
    from wgsim.matching.culprit import Found as Culprit
    from wgsim.matching.given import Asked
    from wgsim.reading.places import Text
    from wgsim.reading.report import Entry, Step
    from wgsim.reading.script import Call

ANSWERS = {"plain": "done", "bad": "bad: what is complete already, or was never queued, was said to be complete", "promise": "a promise"}
# The rules that set a call beside the entries of layouts; and what is a layout or has one.
OF_LAYOUTS = {141, 142, 143, *range(150, 158), 160, 169, 326}
LAYOUTS = ("bind group layout", "pipeline layout")
WITH_LAYOUT = ("bind group", "compute pipeline", "render pipeline")
# The rules of a dispatch or a draw on what is set where it comes, and that of a command while a pass is open.
OF_SET = {culprit.SCOPE, 340, 341, 342, 350, 351, 352, 353}
LOCKED = 240
# The rules of a pipeline that is set, and of bundles that are executed, on what their pass or bundle draws to.
OF_TARGETS = {320, 321, 370, 371}
ACCESSES = {
    "read": "reads",
    "write": "writes",
    "both": "reads and writes",
    "drop": "leaves unset",
    "readdrop": "reads, and leaves unset,",
}


class Explained:
    """The lines that explain one script, and the status: that with which the program ended, or, where the browser that played it made
    errors of its own, that of a difference."""

    def __init__(self, text: Text, program: Asked, data: bytes) -> None:
        self.text = text
        self.program = program
        self.lines = []
        self.status, said = answer(text, data, program)
        self.say(f"{text.name}: the answer of {program.said}" if program.plays else f"{text.name}: {program.said}")
        if self.status == REFUSED:
            self.lines += refusal.explained(text, said)
            return
        self.beside = set_beside(text, said, self.say)
        self.pages = browser_answers.Pages(text.name)
        self.scopes = Scopes(self.beside)
        self.causes = causes.of_report(data, self.beside)
        self.browsers = browser_errors.found(text, data, said)
        self.status = DIFFERENT if self.browsers else self.status
        self.say(self.head(), *browser_errors.head(self.browsers))
        self.of_browser([error for error in self.browsers if error.is_first])
        self.faults()
        self.of_browser([error for error in self.browsers if not error.is_first])
        self.history()
        self.canvases()
        self.trace()

    def say(self, *lines: str) -> None:
        self.lines += lines

    def head(self) -> str:
        """How much of everything the report has. Of the faults those are counted that have a cause of their own, with what follows beside
        them."""
        entries = self.beside.report.entries
        follow = sum(self.causes.follows(entry) for entry in entries if entry.fault)
        faults = sum(entry.fault is not None for entry in entries)
        and_follow = f"{count(faults - follow, 'fault')} and {follow} that {'follows' if follow == 1 else 'follow'}"
        return summary(self.beside.report).replace(count(faults, "fault"), and_follow, 1) if follow else summary(self.beside.report)

    def faults(self) -> None:
        """The calls that were wrong, each with the rule that it breaks and why. What only follows from another fault has one line."""
        found = repeated.faults(self.beside, self.causes, self.pages)
        for entry, *others in found:
            call = self.beside.call_of.get(entry.number)
            again = [f"    {line}" for line in repeated.said(others)]
            if call is not None and self.causes.follows(entry):
                self.following(entry, call)
                self.say(*again)
                continue
            self.say("", f"FAULT at entry {entry.number}: " + (self.beside.script.where(call) if call else entry.word))
            if call is not None:
                more = bits.of_call(call) + frames.of_fault(self.beside.script, call) + self.pages.said(call)
                self.say(f"    {self.beside.script.said(call)}", *[f"    {line}" for line in more])
            self.say(*again)
            self.fault(entry, call)
        if not found:
            taken = "every call was taken" if self.scopes.lost is None else "every call before the loss was taken"
            self.say("", f"NO FAULT: {taken}" + (" by this core, and the browser's errors are its own" if self.browsers else ""))
        self.say(*self.scopes.loss())

    def of_browser(self, errors: list[browser_errors.BrowserError]) -> None:
        """The errors that the browser alone made, each once that comes again at the same place of the page."""
        for error, *others in browser_errors.alike(errors):
            self.say(*error.lines(self.beside.script, len(others) + 1))

    def following(self, entry: Entry, call: Call) -> None:
        """The line of a fault that only follows from another, and the error scope that caught it, if one did."""
        told = self.causes.of(entry)
        by = f" in the {told.command.word} at {self.place(told.command).strip()}" if told.command else ""
        where = f"entry {entry.number}, {self.beside.script.where(call)}"
        assert told.cause is not None
        why = f"{told.cause.condition} (rule {entry.own_fault().rule})"
        self.say("", f"follows from entry {self.causes.root(entry)}: {where}: {entry.word}{by}: {why}")
        self.say(*[f"    {line}" for line in self.pages.said(call)])
        self.say(*[f"    {line}" for line in self.scopes.of_fault(entry)])

    def history(self) -> None:
        self.say("", "HISTORY: what the device answered, with the line and column of each call", "")
        has_phases = len({call.place[0] for call in self.beside.call_of.values()}) > 1
        has_lanes = len({entry.lane for entry in self.beside.report.entries}) > 1
        for entry in self.beside.report.entries:
            call = self.beside.call_of.get(entry.number)
            turn = (f"phase {call.place[0]}  " if has_phases and call else "") + (f"lane {entry.lane}  " if has_lanes else "")
            self.say(f"{entry.number:4}  {self.place(call)}{turn}{self.beside.script.said(call) if call else entry.word}")
            self.say(*[f"      {line}" for line in bits.of_call(call)] if call else [])
            why = f", by rule {entry.fault[1]}" if entry.fault else ""
            self.say(f"      {self.answer(entry)}{why}")
            for promise, how in entry.settled:
                self.say(f"      {self.scopes.settled(entry, promise, how)}")

    def place(self, call: Call | None) -> str:
        """The line and column of a call."""
        return "{}:{}  ".format(*self.text.place(call.value.start)) if call is not None else ""

    def answer(self, entry: Entry) -> str:
        number = entry.object()
        frame = self.beside.call_of[entry.number].frame if entry.number in self.beside.call_of else None
        if number is not None:
            name = self.beside.names.get(number)
            made = f"makes {self.beside.script.labeled(name)}, object {number}" if name else f"makes object {number}"
            lost = ", since the device is lost" if self.scopes.is_lost_before(entry) else ""
            return f"{made}, {entry.answer[2]}{lost}" + (f": {frame.said()}" if frame is not None else "")
        if frame is not None:
            return f"ends {frame.said()}, and destroys its texture {frame.calls[0].gives}"
        if entry.operation() is not None:
            return f"queued as operation {entry.operation()}"
        more = self.scopes.answer(entry)
        if more is not None:
            return more
        if entry.fault and entry.answer[0] == "plain":
            return "refused" if entry.word != "late" else "late: what it is recorded on has ended"
        return ANSWERS.get(entry.answer[0], " ".join(entry.answer))

    def fault(self, entry: Entry, call: Call | None) -> None:
        kind, number, caught = entry.own_fault()
        uncaught = "uncaptured" if caught == "uncaptured" else f"caught by error {caught}"
        self.say(f"    breaks rule {number} ({kind} error, {uncaught})")
        told = self.causes.of(entry)
        self.say(*[f"    {line}" for line in ([told.cause.text()] if told.cause else [told.why_none] if told.why_none else [])])
        self.say(
            *[f"    {line}" for line in self.pages.made(told.cause.text(), self.beside.script)] if told.cause and self.pages.calls else []
        )
        self.say(*[f"    {line}" for line in self.scopes.of_fault(entry)])
        found = None
        if call is not None and calls.ends_encoder(call.word):
            found = culprit.find(self.beside, call, number, self.program) if self.program.plays else culprit.told(self.beside, number, told)
        for rule in culprit.broken(number, entry.word, found):
            self.say(f"    rule {number} asks of {rule.label}: {rule.asks}", f"    {rules.section(rule)}")
        if found:
            self.command(found, number)
            if number == culprit.DROPPED and call is not None:
                self.before(call, {name.what for _, name in found.call.names()}, ("drop",))
        elif call is not None:
            self.reasons(entry, call, number)

    def command(self, found: Culprit, number: int) -> None:
        script = self.beside.script
        self.say(f"    the command that {found.said} is number {found.number} of {found.total}: {script.where(found.call)}")
        self.say(f"        {script.said(found.call)}", *[f"        {line}" for line in self.pages.said(found.call)])
        if self.program.plays:
            self.say(
                f"    (found by asking the program about {count(found.asked, 'recording')} of the encoder, cut short at different commands)"
            )
        for _, name in found.call.names():
            self.invalid(name.what)
        if number == LOCKED and found.call.locked_by is not None:
            by = found.call.locked_by
            self.say(f"    {script.labeled(by.name)} is open there, from {script.where(by.call)} on")
        if number in OF_LAYOUTS:
            self.layouts([name.what for _, name in found.call.names()])
        if number in OF_TARGETS:
            self.attached_at(found.call)
            self.drawn_by(found.call)
            self.layouts([name.what for key, name in found.call.names() if key != "on"])
        if number in OF_SET:
            self.set_at(found.call, number == culprit.SCOPE)

    def attached_at(self, call: Call) -> None:
        """What is attached to the render pass of a call, or to what its bundle draws, if it is on one of these."""
        on = self.beside.script.drawn_on(call)
        if on is not None:
            how = "attached there" if on.word in calls.BEGINS else "to be drawn to there"
            self.say(f"    {how}, at {self.beside.script.where(on)}: {self.beside.script.said(on)}")

    def drawn_by(self, call: Call) -> None:
        """To what the bundles draw that a call executes, each once."""
        script, executed = self.beside.script, [name.what for _, name in call.names()] if calls.executes(call.word) else []
        for name in dict.fromkeys(executed):
            finish = script.made.get(name)
            place = script.places.get(scripts.string_of(finish.value, "on")) if finish is not None else None
            if finish is not None and place is not None and calls.ends_encoder(finish.word):
                self.say(f"    {script.labeled(name)}: made by {finish.word} at {script.where(finish)}, of {script.said(place.call)}")

    def set_at(self, call: Call, is_of_scope: bool) -> None:
        """What is set where a dispatch or a draw comes, with the layouts of it all; of the scope of a render pass or a bundle all that it
        has attached, set and executed."""
        is_whole = is_of_scope and self.beside.script.drawn_on(call) is not None
        if is_whole:
            self.attached_at(call)
        setters, names = self.beside.script.set_before(call) if is_whole else self.beside.script.set_at(call), []
        for setter in setters:
            how = "executed" if calls.executes(setter.word) else "set"
            self.say(f"    {how} there, at {self.beside.script.where(setter)}: {self.beside.script.said(setter)}")
            names += [name.what for key, name in setter.names() if key != "on"]
        if not setters:
            self.say("    nothing is set there")
        self.layouts(list(dict.fromkeys(names)))

    def reasons(self, entry: Entry, call: Call, number: int) -> None:
        """What the report itself tells of why a rule is broken."""
        if entry.word == "late":
            self.ended(call)
        names = list(dict.fromkeys(name.what for _, name in call.names()))
        if number == 12:
            for name in names:
                self.invalid(name)
        if number == culprit.DROPPED:
            self.before(call, set(names), ("drop",))
        if number in OF_LAYOUTS:
            self.layouts(names)
        if number in (180, 190, 192, 193, 203, 210, 225):
            reached = self.reached(call)
            self.before(call, reached, {180: ("finish", "finishBundle"), 190: ("submit",)}.get(number, ("destroy",)))
            self.say(*[f"    {line}" for line in self.scopes.maps.of_fault(entry, sorted(reached))])

    def layouts(self, names: Iterable[str]) -> None:
        """Where the layouts among some names were made, those that a pipeline layout has, and the bind groups and pipelines with theirs."""
        waiting, told = list(names), set()
        while waiting:
            name = waiting.pop(0)
            maker = self.beside.script.made.get(name)
            if name not in told and maker is not None and calls.makes(maker.word) in LAYOUTS + WITH_LAYOUT:
                self.say(f"    {self.beside.script.labeled(name)}: {maker.word} at {self.beside.script.where(maker)}")
                waiting = [inner.what for _, inner in maker.names()] + waiting
                told.add(name)

    def invalid(self, name: str) -> None:
        maker = self.beside.object_of(name)
        if maker is not None and not maker.is_valid():
            call = self.beside.call_of[maker.number]
            why = f", by rule {maker.fault[1]}" if maker.fault else ""
            told = self.beside.script.labeled(name)
            self.say(f"    {told} is invalid since it was made: entry {maker.number}{why}, {self.beside.script.where(call)}")

    def ended(self, call: Call) -> None:
        place = self.beside.script.places.get(scripts.string_of(call.value, "on"))
        if place is not None and place.end is not None:
            self.say(f"    {self.beside.script.labeled(place.name)} was ended at {self.beside.script.where(place.end)}")
            return
        place = place.encoder or place if place is not None else None
        if place is not None and place.finish is not None:
            self.say(f"    {self.beside.script.labeled(place.name)} was finished at {self.beside.script.where(place.finish)}")

    @functools.cached_property
    def first_with(self) -> dict[tuple[str, str], tuple[int, int, Call]]:
        """Of a word and a name the first call that has both, as the device took them, behind the number of its turn and the name's place in
        it."""
        found = {}
        for turn, call in enumerate(self.beside.turns):
            ended = call.frame.names() if call.event == "destroy" and call.frame is not None else []
            for at, name in enumerate([name.what for _, name in call.names()] + ended):
                found.setdefault((call.event or call.word, name), (turn, at, call))
        return found

    @functools.cached_property
    def turn_of(self) -> dict[Call, int]:
        return {call: turn for turn, call in enumerate(self.beside.turns)}

    def before(self, call: Call, names: Iterable[str], words: Iterable[str]) -> None:
        """The first calls that the device took before one, that have one of some words and name one of some names."""
        found = [(*self.first_with[word, name], name) for word in words for name in names if (word, name) in self.first_with]
        for turn, _, other, name in sorted(found, key=lambda each: each[:2]):
            if turn < self.turn_of[call]:
                self.say(f"    {self.beside.script.labeled(name)}: {other.word} at {self.beside.script.where(other)}")

    def reached(self, call: Call) -> set[str]:
        """The names that a call uses, those that the commands of the command buffers and bundles among them use, and what is bound in bind
        groups and of what views are; of the texture of a canvas all its names."""
        script, waiting, names = self.beside.script, [name.what for _, name in call.names()], set()
        while waiting:
            name = waiting.pop()
            maker = script.made.get(name)
            if name in names or maker is None:
                continue
            names.add(name)
            if maker.frame is not None:
                names.update(maker.frame.names())
            if calls.makes(maker.word) in ("bind group", "view"):
                waiting += [each.what for _, each in maker.names()]
            if maker.word != call.word:
                waiting += [each.what for command in script.recorded_in(maker) for _, each in command.names()]
        return names

    def canvases(self) -> None:
        """Which frame of which canvas each texture is, where the script has canvases."""
        found = frames.listed(self.beside) if self.beside.known is not None else []
        if found:
            self.say("", "CANVASES: which texture is which frame of which canvas")
        for head, lines in found:
            self.say("", head, *[f"   {line}" for line in lines])

    def trace(self) -> None:
        self.say("", "TRACE: what a driver has to do, in this order")
        if not self.beside.report.items:
            self.say("", "         nothing: no accepted work touches memory")
        for item in self.beside.report.items:
            if isinstance(item, Release):
                frame = self.beside.frame_of(item.object)
                self.say(
                    "",
                    f"release  the memory of {self.beside.named(item.sort, item.object)}"
                    + (f", {frame.said()}" if frame is not None else ""),
                )
                continue
            self.say("")
            for part, before, after in item.barriers:
                self.say(f"barrier  {self.beside.part(part)}: {before} -> {after}")
            self.say(self.step(item))
            self.say(*[f"         uses {self.beside.part(part)} as {usages}" for part, usages in item.uses])
            self.say(*[f"         {ACCESSES.get(kind, kind)} {self.beside.part(cells)}" for kind, cells in item.accesses])

    def step(self, step: Step) -> str:
        where = f"on the host, at entry {step.at}" if step.is_host else f"operation {step.at}"
        call = self.beside.command_of.get(step.number)
        what = "clear of fresh memory" if step.name == "clear" else step.name
        return f"step {step.number:<3} {what}, {where}" + (f", of the call at {self.place(call).strip()}" if call else "")


def answer(text: Text, data: bytes, program: Asked) -> tuple[int, str]:
    """The status of a script, and what the program says of it. The tool ends where that is nothing."""
    status, out = program.ask(data)
    if status in SILENT:
        raise End(status, f"{text.name}: {SILENT[status]}")
    return status, out.decode("utf-8", "replace")


def set_beside(text: Text, said: str, say: Callable[..., None]) -> Beside:
    """The report that the program gave, beside the script; alone where the two cannot be brought together."""
    try:
        report = Report(said)
    except NotReport as error:
        raise End(9, f"the program's answer is no report: {error}") from None
    try:
        script = scripts.read(text)
        if script is not None:
            return Beside(report, script)
        why = "the text has no phases and lanes"
    except (NotJson, DoNotMatch) as error:
        why = str(error)
    say(f"(the entries are shown without their calls, since this tool cannot match them: {why})", "")
    return Beside(report)


def explain(text: Text, data: bytes, program: Asked) -> tuple[str, int]:
    """The explanation of a script, and the program's status."""
    explained = Explained(text, program, data)
    return "".join(escaped(line) + "\n" for line in explained.lines), explained.status
