"""The rules of submit, writeBuffer and writeTexture, and those of objects that a call names."""

from __future__ import annotations

from typing import TYPE_CHECKING

from .layouts import twice
from .making import Cause, first, fits, lacks, multiple, rule
from .maps import Use, busy, to_do

if TYPE_CHECKING:
    from model.history import Played
    from wgsim.causes.cases import Case

COPY_DST = 8
TEXTURE_DST = 2


@rule(11)
def dropped(case: Case) -> Cause | None:
    """A call names what was dropped; a finish, of a bundle too, that a command of its encoder names what was dropped before the encoder was
    made."""
    if case.is_of_commands:
        return first(dropped_before(case, command) for command in case.commands)
    for key, thing in case.named_things():
        drop = case.history.drop_of(thing)
        if drop is not None and drop is not case.entry:
            by = case.place(drop)
            return Cause(
                f"{case.named(thing)}, which is {key}, was dropped at {by}",
                {"object": thing.call["as"], "key": key, "by": by},
                "Drop it after its last use.",
            )
    return None


def dropped_before(case: Case, command: Played) -> Cause | None:
    encoder = case.entry.uses["on"]
    for key, thing in command.named():
        if case.history.was_dropped_before(thing, encoder):
            by = case.place(case.history.drop_of(thing))
            said = (
                f"{case.named(thing)}, which is the {case.called(key)} of the {command.do} at {case.place(command)}, was dropped at {by},"
                f" before {case.named(encoder)} was made"
            )
            values = {"object": thing.call["as"], "key": key, "command": case.place(command), "by": by, "encoder": encoder.call["as"]}
            return Cause(said, values, "Drop it after the encoder is made, or later.", about=command)
    return None


@rule(12)
def invalid(case: Case) -> Cause | None:
    """A call or command names what is invalid, which follows from the fault with which that was made."""
    for key, thing in case.named_things():
        if not thing.is_valid:
            said = f"{case.named(thing)}, which is {key}, is invalid since it was made, at entry {thing.entry}, by rule {thing.rule}"
            values = {"object": thing.call["as"], "key": key, "madeAt": thing.entry, "madeByRule": thing.rule}
            return Cause(said, values, None, follows_from=thing.entry)
    return None


@rule(190)
def consumed(case: Case) -> Cause | None:
    for buffer in case.uses["buffers"]:
        by = case.play.submitted_by[buffer]
        if by is not case.entry:
            how = "" if by.is_met else ", which was refused and took it all the same"
            values = {"object": buffer.call["as"], "by": case.place(by), "byEntry": by.entry}
            return Cause(
                f"{case.named(buffer)} was submitted before, at {case.place(by)}{how}",
                values,
                "Record the commands again, on a new encoder.",
            )
    return None


@rule(191)
def named_twice(case: Case) -> Cause | None:
    pair = twice([id(buffer) for buffer in case.uses["buffers"]])
    if pair is None:
        return None
    buffer = case.uses["buffers"][pair[0]]
    return Cause(
        f"{case.named(buffer)} stands in buffers twice, at {pair[0]} and {pair[1]}",
        {"object": buffer.call["as"], "at": list(pair)},
        "Name it once.",
    )


def used(case: Case, *words: str) -> list[tuple[Played, str, Use]]:
    """What a submit uses that some calls made, each with words for the command through which it does, and that."""
    found: dict[Played, tuple[str, Use]] = {}
    for commands in case.uses["buffers"]:
        for command in case.history.commands_of(commands):
            for _, thing in command.named():
                for resource in case.second.history.resources_in(thing):
                    through = "" if thing is resource else f", through {case.named(thing)}" + in_bundle(case, thing, resource)
                    said = f", which is used by the {command.do} at {case.place(command)}{through},"
                    found.setdefault(resource, (said, Use(command, None if thing is resource else thing)))
    return [(thing, said, use) for thing, (said, use) in found.items() if thing.do in words]


def in_bundle(case: Case, bundle: Played, resource: Played) -> str:
    """The first command of a bundle that uses a resource, in words; none of what is no bundle."""
    for command in case.history.commands_of(bundle):
        for _, thing in command.named():
            if resource in case.second.history.resources_in(thing):
                return f", by the {command.do} at {case.place(command)}" + ("" if thing is resource else f", through {case.named(thing)}")
    return ""


@rule(192)
def buffers_at_rest(case: Case) -> Cause | None:
    return first(busy(case, buffer, by, use) for buffer, by, use in used(case, "createBuffer"))


@rule(193)
def others_there(case: Case) -> Cause | None:
    return first(gone(case, thing, by, use) for thing, by, use in used(case, "createTexture", "createQuerySet"))


def gone(case: Case, thing: Played, by: str = "", use: Use | None = None) -> Cause | None:
    if not case.history.is_destroyed(thing):
        return None
    ending = case.play.call_of(case.play.destroyed_by[thing])
    at = case.place(case.play.destroyed_by[thing])
    values = {"object": thing.call["as"], "state": "destroyed", "by": at, "byCall": ending.word}
    if ending.frame is None:
        return Cause(f"{case.named(thing)}{by} was destroyed at {at}", values, to_do(case, thing, use))
    canvas = ending.frame.canvas
    frame = f'frame {ending.frame.number} of "{canvas.name}" ({case.play.script.at(canvas.call)})'
    values.update(canvas=canvas.name, frame=ending.frame.number)
    if ending.word == "present":
        return Cause(
            f"{case.named(thing)}{by} was presented at {at}, as {frame}",
            values,
            "Use it before, and take a new currentTexture for each frame.",
        )
    return Cause(
        f"{case.named(thing)}{by} was given up by the {ending.word} at {at}, as {frame}",
        values,
        "Use it before, or take a new currentTexture.",
    )


@rule(200)
def written_buffer(case: Case) -> Cause | None:
    return lacks(case, case.uses["buffer"], COPY_DST)


@rule(201)
def write_aligned(case: Case) -> Cause | None:
    return first(multiple(key, case.call[key], 4) for key in ("offset", "size"))


@rule(202)
def write_range(case: Case) -> Cause | None:
    return fits(case, case.uses["buffer"], case.call["offset"], case.call["size"])


@rule(205)
def written_texture(case: Case) -> Cause | None:
    return lacks(case, case.uses["texture"], TEXTURE_DST)


@rule(210)
def texture_there(case: Case) -> Cause | None:
    return gone(case, case.uses["texture"])
