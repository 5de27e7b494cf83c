"""Finds the command that a finish's fault is about, by asking the program about shorter recordings of the encoder, be it one of a bundle.

A command makes no fault when it is recorded: the first rule that is unmet stays with the encoder, and the finish tells it. So the script is
cut behind the finish, and of the encoder's recording its first commands alone are kept. The first number of commands with which the finish
has the fault of the whole recording ends with the command that brought it. The calls of several lanes are asked about as those of one lane,
in the order in which the device took them: so their order is that of the report, whatever another run would bring. Calls that make nothing
that the recording names are left out, as long as what is named is as valid as it was. """

from __future__ import annotations

from typing import TYPE_CHECKING, Any

from wgsim.reading import calls, rules
from wgsim.reading.report import NotReport, Report

if TYPE_CHECKING:
    from wgsim.causes.cases import Told
    from wgsim.matching.beside import Beside
    from wgsim.matching.given import Asked
    from wgsim.reading.rules import Rule
    from wgsim.reading.script import Call

# The rules of a finish itself, in the order of its tests, that are about what is still open: a pass, a debug group.
PASS, GROUP = 182, 183
OPEN = {PASS, GROUP}
# The rule that nothing is used that was dropped: of an encoder that has ended well it is about what its commands name.
DROPPED = 11
# The rule that every usage scope is compatible, which is that of one dispatch, of one render pass or of one bundle.
SCOPE = 184
# The rule of a pass's end that asks how often it draws: of the end that is there, since one that is put behind a draw would have it too.
DRAWS = 404
# The rules that are the finish's own, and not those of a command.
OF_FINISH = OPEN | {DROPPED, SCOPE}
# The rules of a finish that need no command: on the encoder itself.
OF_ENCODER = {180}


class Found:
    """The command with its number among the encoder's, counted from 1, and how it was found."""

    def __init__(self, call: Call, number: int, total: int, asked: int, said: str) -> None:
        self.call = call
        self.number = number
        self.total = total
        self.asked = asked
        self.said = said


class Cuts:
    """The shorter recordings of one encoder, in one script, up to its finish."""

    def __init__(self, beside: Beside, finish: Call, program: Asked) -> None:
        self.beside = beside
        self.script = script = beside.script
        self.finish = finish
        self.program = program
        self.encoder = script.places[finish.value.needed("on").what]
        self.commands = self.encoder.commands
        self.asked: dict[tuple[Any, ...], int | str | None] = {}
        made = self.makers()
        self.needed: set[Call] | None = made
        if not self.is_as_valid(made):
            self.needed = None

    def makers(self) -> set[Call]:
        """The calls that make what the encoder's commands name, and what those name in turn, of a bundle what is recorded in it, and the
        drops of all that."""
        found, waiting = {self.encoder.call, *self.commands, self.finish}, [self.encoder.call, *self.commands]
        while waiting:
            for _, name in waiting.pop().names():
                maker = self.script.made.get(name.what)
                if maker is not None and maker not in found:
                    made = [maker, *self.script.recorded_in(maker), *(maker.frame.canvas.calls if maker.frame is not None else [])]
                    found.update(made)
                    waiting += made
        named = {call.gives for call in found}
        return found | {call for call in self.script.calls if call.word == "drop" and {name.what for _, name in call.names()} <= named}

    def is_as_valid(self, calls: set[Call]) -> bool:
        """Whether the script of some calls alone makes objects as valid as the whole script does."""
        status, out = self.program.ask(self.cut(len(self.commands), []).encode("utf-8"))
        if status != 0:
            return False
        made = [entry.answer[2] for entry in Report(out.decode("utf-8")).entries if entry.object() is not None]
        kept = [self.beside.entry_of[call] for call in self.beside.turns if call in calls and call in self.beside.entry_of]
        return made == [entry.answer[2] for entry in kept if entry.object() is not None]

    def rule(self, kept: int, closed: tuple[str, ...]) -> int | str | None:
        """The rule that the finish has with the first `kept` commands alone; of what they leave open that is closed first which `closed`
        names."""
        closers = self.closers(kept, closed)
        case = (kept, *closers)
        if case not in self.asked:
            status, out = self.program.ask(self.cut(kept, closers).encode("utf-8"))
            self.asked[case] = self.fault(out.decode("utf-8")) if status == 0 else "refused"
        return self.asked[case]

    def fault(self, out: str) -> int | str | None:
        try:
            last = Report(out).entries[-1]
        except (NotReport, IndexError):
            return "refused"
        return last.fault[1] if last.fault else None

    def cut(self, kept: int, closers: list[str]) -> str:
        """The calls up to the finish, in the order of the report and as one lane, without late calls and without the later commands of its
        encoder, in place of which the closers stand."""
        gone = set(self.commands[kept:])
        before = self.beside.turns[: self.beside.turns.index(self.finish) + 1]
        texts = [self.script.text.of(call.value) for call in before if self.is_kept(call, gone)]
        texts[-1:-1] = closers
        head = [f'"{key.what}":{self.script.text.of(value)}' for key, value in self.script.top.what if key.what != "phases"]
        joined = ",\n".join(texts)
        return "{" + ",".join([*head, f'"phases":[[[{joined}]]]']) + "}"

    def is_kept(self, call: Call, gone: set[Call]) -> bool:
        """Whether a call stands in a shorter script. A late call does not: what it is late for may not be there."""
        return call not in gone and not call.is_late and (self.needed is None or call in self.needed)

    def opened(self, kept: int) -> tuple[tuple[str | None, int] | None, dict[str | None, list[int]], bool]:
        """What the first commands leave open: the pass with the number of its begin, or None; by encoder and pass the numbers of the
        commands that opened its debug groups; and whether the pass has a query that is begun and not ended."""
        open_pass, groups, is_active = None, {}, False
        for number, call in enumerate(self.commands[:kept], 1):
            on = call.value.needed("on").what
            if call.word in calls.BEGINS:
                open_pass = open_pass or (call.gives, number)
            elif call.word == calls.END and open_pass and on == open_pass[0]:
                open_pass, is_active = None, False
            elif on == (open_pass[0] if open_pass else self.encoder.name):
                opening = groups.setdefault(on, [])
                if calls.groups(call.word) > 0:
                    opening.append(number)
                elif calls.groups(call.word) < 0:
                    del opening[-1:]
                elif calls.query(call.word):
                    is_active = calls.query(call.word) == "begins"
        return open_pass, groups, is_active

    def closers(self, kept: int, closed: tuple[str, ...]) -> list[str]:
        """Calls that close what the first commands leave open: the pass with its debug groups and its query (`pass`), the debug groups of
        the encoder (`groups`)."""
        open_pass, groups, is_active = self.opened(kept)
        closing = []
        if "pass" in closed and open_pass:
            closing = [self.closer("popDebugGroup", open_pass[0])] * len(groups.get(open_pass[0], []))
            closing += [self.closer("endOcclusionQuery", open_pass[0])] * is_active
            closing.append(self.closer(calls.END, open_pass[0]))
        if "groups" in closed:
            closing += [self.closer("popDebugGroup", self.encoder.name)] * len(groups.get(self.encoder.name, []))
        return closing

    def closer(self, word: str, on: str | None) -> str:
        return f'{{"do":"{word}","on":"{on}"}}'


def find(beside: Beside, finish: Call, rule: int, program: Asked) -> Found | None:
    """The command that a finish's fault is about, or None where none is to be found."""
    place = beside.script.places.get(finish.value.needed("on").what)
    if place is None or place.finish is not finish or not place.commands or rule in OF_ENCODER:
        return None
    cuts = Cuts(beside, finish, program)
    closed = {PASS: (), GROUP: ("pass",), DRAWS: ("groups",)}.get(rule, ("pass", "groups"))
    if cuts.rule(len(cuts.commands), closed) != rule:
        return None
    found = opener(cuts, rule, closed) if rule in OPEN else first(cuts, rule, closed)
    if found is None:
        return None
    call = cuts.commands[found - 1]
    return Found(call, found, len(cuts.commands), len(cuts.asked), said_of(rule, beside.script.drawn_on(call)))


def told(beside: Beside, rule: int, cause: Told) -> Found | None:
    """The command as the second reading of the rules finds it, where no program is to be asked; or None."""
    if cause.about is None:
        return None
    call, number, total = cause.about
    return Found(call, number, total, 0, said_of(rule, beside.script.drawn_on(call)))


def broken(rule: int, word: str, found: Found | None) -> list[Rule]:
    """The rule that a call with a fault breaks, alone in a list, as it is of the command that the fault is about, if there is one. A finish
    has rule 11 twice, of its encoder and then of what its commands name."""
    asked = rules.of(rule, found.call.word if found and rule not in OF_FINISH else word)
    return asked[-1:] if found and rule == DROPPED else asked[:1]


def first(cuts: Cuts, rule: int, closed: tuple[str, ...]) -> int | None:
    """The least number of commands with which the finish has the rule. Once it has it, more commands do not take it away."""
    low, high = 0, len(cuts.commands)
    if cuts.rule(0, closed) == rule:
        return None
    while high - low > 1:
        middle = (low + high) // 2
        if cuts.rule(middle, closed) == rule:
            high = middle
        else:
            low = middle
    return high


def opener(cuts: Cuts, rule: int, closed: tuple[str, ...]) -> int | None:
    """The command that opens what is open to the end: with it, and not without it, a recording has the rule."""
    open_pass, groups, _ = cuts.opened(len(cuts.commands))
    opening = [open_pass[1]] if rule == PASS and open_pass else groups.get(cuts.encoder.name, []) if rule == GROUP else []
    is_it = opening and cuts.rule(opening[0], closed) == rule and cuts.rule(opening[0] - 1, closed) != rule
    return opening[0] if is_it else None


def said_of(rule: int, drawn_on: Call | None) -> str:
    if rule == DROPPED:
        return "names what was dropped before the encoder was made"
    if rule == SCOPE:
        made = calls.makes(drawn_on.word) if drawn_on is not None else None
        whole = {None: None, "render pass": "pass", "bundle encoder": "bundle"}[made]
        return (
            f"makes the usage scope of its {whole} one that is not compatible"
            if whole
            else "has the first usage scope that is not compatible"
        )
    return "opens what is still open" if rule in OPEN else "invalidated the encoder"
