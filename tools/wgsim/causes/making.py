"""What a cause is, which function finds that of each rule, and conditions that many rules have in common."""

from __future__ import annotations

from typing import TYPE_CHECKING, Any, Callable, Dict, Iterable, Optional, TypeVar

from wgsim.reading import bits, limits

if TYPE_CHECKING:
    from model.history import Played
    from wgsim.causes.cases import Case


# The values on both sides of a condition, by names that tell what each is.
Values = Dict[str, Any]
CauseOf = TypeVar("CauseOf", bound=Callable[..., Any])
Item = TypeVar("Item")


class Cause:
    """Why a rule is unmet: the condition that failed, as a sentence; the values on both sides, by name; and what to do, as a sentence, or
    None of what only follows from another fault.

    `follows_from` is the entry whose fault brought this one, where it is nothing but a consequence, and `about` the command that a rule of
    the finish itself is about."""

    def __init__(
        self, condition: str, values: Values, remedy: str | None, follows_from: int | None = None, about: Played | None = None
    ) -> None:
        self.condition = condition
        self.values = values
        self.remedy = remedy
        self.follows_from = follows_from
        self.about = about

    def text(self) -> str:
        return f"{self.condition}." + (f" {self.remedy}" if self.remedy else "")


# Of each rule the function that finds the cause; it takes a Case, and gives None where the rule is met.
RULES: Dict[int, Callable[[Any], Optional[Cause]]] = {}


def rule(*numbers: int) -> Callable[[CauseOf], CauseOf]:
    """Names a function as the one that finds the cause of some rules."""

    def named(function: CauseOf) -> CauseOf:
        RULES.update(dict.fromkeys(numbers, function))
        return function

    return named


def first(causes: Iterable[Item | None]) -> Item | None:
    """The first of some causes that is one."""
    return next((cause for cause in causes if cause is not None), None)


def plural(number: int, word: str) -> str:
    return f"{number} {word}" if number == 1 else f"{number} {word}s"


def listed(words: Iterable[object]) -> str:
    """Words in a row, as `a, b and c`."""
    told = [str(word) for word in words]
    return told[0] if len(told) == 1 else f"{', '.join(told[:-1])} and {told[-1]}" if told else "none"


def lacks(case: Case, thing: Played, bit: int, where: str = "") -> Cause | None:
    """A buffer or texture lacks a usage."""
    names = bits.BUFFER if thing.do == "createBuffer" else bits.TEXTURE
    usage = thing.call["usage"]
    if usage & bit:
        return None
    said = f"{where}{case.named(thing)} has usage {bits.said(usage, names)}; {bits.one(bit, names)} is missing"
    values = {"object": thing.call["as"], "usage": usage, "usageWords": bits.words(usage, names), "missing": bit, "missingWord": names[bit]}
    return Cause(said, values, to_add(case, thing, bit, names))


def to_add(case: Case, thing: Played, bit: int, names: dict[int, str]) -> str:
    """What to do where a usage is missing. Beside MAP_READ only COPY_DST may stand, and beside MAP_WRITE only COPY_SRC."""
    usage = thing.call["usage"]
    for mode, may in ((1, 8), (2, 4)) if names is bits.BUFFER else ():
        if (usage | bit) & mode and (usage | bit) & ~(mode | may):
            clash = mode if bit != mode else usage & ~may
            return (
                f"It cannot be added beside {' and '.join(bits.words(clash, names))}: copy between {case.name(thing)} and a buffer that"
                " has it."
            )
    frame = case.play.call_of(thing).frame
    if frame is not None and frame.configured is not None:
        return f'Add it where "{frame.canvas.name}" is configured, at {case.play.script.at(frame.configured)}.'
    return f"Add it where {case.name(thing)} is made."


def known_usage(case: Case, names: dict[int, str], what: str) -> Cause | None:
    """A usage is not 0, and has no bits but those of a table."""
    usage = case.call["usage"]
    unknown = usage & ~sum(names)
    if usage == 0:
        return Cause("usage is 0, and at least one usage is asked for", {"usage": 0}, "Give each way in which it will be used.")
    if unknown:
        said = f"usage is {bits.said(usage, names)}; {unknown} is no usage of {what}"
        return Cause(said, {"usage": usage, "unknown": unknown, "most": sum(names)}, f"Take {unknown} away.")
    return None


def multiple(key: str, number: int, of: int, where: str = "", why: str = "") -> Cause | None:
    """A number is no multiple of another."""
    if number % of == 0:
        return None
    low = number - number % of
    return Cause(
        f"{where}{key} is {number}, which is no multiple of {of}{why}",
        {key: number, "multipleOf": of},
        f"The nearest multiples are {low} and {low + of}.",
    )


def at_most(key: str, number: int, most: int, remedy: str, where: str = "") -> Cause | None:
    """A number is above a limit."""
    if number <= most:
        return None
    return Cause(f"{where}{key} is {number}, and at most {most} is allowed", {key: number, "most": most}, remedy)


def limited(name: str, needed: int, cause: Cause | None) -> Cause | None:
    """A cause that a limit of the device brings, which may have no remedy yet, with the limit by its name, and whether a script may ask for
    as much as is needed."""
    if cause is None:
        return None
    limit = limits.TABLE[name]
    if needed <= limit.best:
        told = f'The limit is {name}, and a script may ask for more: "limits": {{"{name}": {needed}}}.'
    else:
        told = f"The limit is {name}, and no script gets more than {limit.best}."
    return Cause(cause.condition, {**cause.values, "limit": name, "best": limit.best}, f"{cause.remedy} {told}" if cause.remedy else told)


def with_left_out(key: str, number: int, is_left_out: bool) -> str:
    return f"{key} {number}" + (" (left out: what remains)" if is_left_out else "")


def fits(
    case: Case, thing: Played, offset: int, size: int, keys: tuple[str, str] = ("offset", "size"), is_left_out: bool = False,
    where: str = "",
) -> Cause | None:
    """A range ends past its buffer."""
    there = thing.call["size"]
    if offset + size <= there:
        return None
    said = (
        f"{where}{keys[0]} {offset} and {with_left_out(keys[1], size, is_left_out)} end at {offset + size}, and {case.named(thing)} has"
        f" {plural(there, 'byte')}"
    )
    values = {"object": thing.call["as"], keys[0]: offset, keys[1]: size, "end": offset + size, "bytes": there}
    remedy = (
        f"From {offset} on {plural(there - offset, 'byte')} {'is' if there - offset == 1 else 'are'} there."
        if offset < there
        else f"No byte is there from {offset} on."
    )
    return Cause(said, values, remedy)
