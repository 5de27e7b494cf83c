"""The rules of what is opened and closed: encoders, passes and debug groups; and of calls that come too late."""

from __future__ import annotations

from typing import TYPE_CHECKING

from .making import Cause, plural, rule

if TYPE_CHECKING:
    from model.history import Played
    from wgsim.causes.cases import Case


def ended_by(case: Case, place: Played) -> tuple[Played, Played]:
    """The call that ended a pass or its encoder: the end of a pass while it is open, or the first finish of the encoder."""
    encoder = case.second.history.encoder_of(place)
    walk = case.history.walks[encoder]
    if place in walk.ended:
        return place, walk.on[place][-1]
    return encoder, case.history.finishes(encoder)[0]


@rule(14)
def late(case: Case) -> Cause | None:
    place = case.uses["on"]
    what, by = ended_by(case, place)
    through = "" if what is place else f", on which {case.named(place)} was begun,"
    did = "ended" if by.do == "end" else "finished"
    values = {"object": what.call["as"], "by": case.place(by), "call": case.do}
    return Cause(
        f"{case.named(what)}{through} was {did} at {case.place(by)}, and this {case.do} comes after it",
        values,
        "Leave it out." if case.do == by.do else f"Make it before the {by.do}.",
    )


@rule(180)
def finished(case: Case) -> Cause | None:
    encoder = case.uses["on"]
    by = case.history.finishes(encoder)[0]
    return Cause(
        f"{case.named(encoder)} was finished before, at {case.place(by)}",
        {"object": encoder.call["as"], "by": case.place(by)},
        "Finish it once.",
    )


@rule(182)
def open_pass(case: Case) -> Cause | None:
    found = case.second.passes.Walk(case.commands).open_pass
    if found is None:
        return None
    return Cause(
        f"{case.named(found)} is still open",
        {"object": found.call["as"], "begun": case.place(found)},
        "End it before the finish.",
        about=found,
    )


def open_groups(commands: list[Played]) -> list[Played]:
    """The pushes of some commands that no pop has closed."""
    opened = []
    for command in commands:
        if command.do == "pushDebugGroup":
            opened.append(command)
        elif command.do == "popDebugGroup":
            del opened[-1:]
    return opened


def left_open(case: Case, place: Played, opened: list[Played]) -> Cause | None:
    if not opened:
        return None
    many = (
        f"a debug group of {case.named(place)} is open, pushed"
        if len(opened) == 1
        else f"{len(opened)} debug groups of {case.named(place)} are open, the first pushed"
    )
    label, at = case.play.call_of(opened[0]).label, case.place(opened[0])
    said = f"{many} as{label} at {at}" if label else f"{many} at {at}"
    values = {"object": place.call["as"], "open": len(opened), "pushed": at}
    return Cause(said, values, f"Pop {'it' if len(opened) == 1 else 'them'} before.", about=opened[0])


@rule(183)
def groups_of_encoder(case: Case) -> Cause | None:
    encoder = case.entry.uses["on"]
    return left_open(case, encoder, open_groups(case.second.passes.Walk(case.commands).on[encoder]))


@rule(310)
def groups_of_pass(case: Case) -> Cause | None:
    return left_open(case, case.uses["on"], open_groups(case.earlier))


@rule(404)
def most_draws(case: Case) -> Cause | None:
    """A pass draws more often than its begin says."""
    begin, passes = case.uses["on"], case.second.passes
    most, own = begin.call["maxDrawCount"], sum(command.do in passes.DRAWS for command in case.earlier)
    count = sum(map(passes.draws_of, case.earlier))
    if most is None or count <= most:
        return None
    by_bundles = f", {own} of its own and {count - own} of the bundles that it executes" if count > own else ""
    return Cause(
        f"{case.named(begin)} has {plural(count, 'draw')}{by_bundles}, and its maxDrawCount is {most}",
        {"pass": begin.call["as"], "draws": count, "own": own, "ofBundles": count - own, "most": most},
        f"Begin it with a maxDrawCount of at least {count}.",
    )


@rule(285)
def no_group(case: Case) -> Cause | None:
    place = case.uses["on"]
    pushed = sum(command.do == "pushDebugGroup" for command in case.earlier)
    told = (
        "none was pushed on it"
        if pushed == 0
        else f"{plural(pushed, 'group')} pushed on it {'was' if pushed == 1 else 'were'} popped before"
    )
    return Cause(
        f"no debug group of {case.named(place)} is open: {told}",
        {"object": place.call["as"], "pushed": pushed},
        "Leave it out, or push a group on the same encoder or pass before.",
    )


@rule(240)
def locked(case: Case) -> Cause | None:
    found = case.open_pass
    if found is None:
        return None
    return Cause(
        f"{case.named(found)} is open, and locks {case.named(case.uses['on'])}",
        {"object": found.call["as"], "begun": case.place(found), "encoder": case.uses["on"].call["as"]},
        "End it before.",
    )
