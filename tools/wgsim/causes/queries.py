"""The rules of query sets: of their making, of what is resolved, and of the occlusion queries of a render pass."""

from __future__ import annotations

from typing import TYPE_CHECKING

from .making import Cause, at_most, lacks, multiple, plural, rule

if TYPE_CHECKING:
    from model.history import Played
    from wgsim.causes.cases import Case

QUERY_RESOLVE = 512
MOST_QUERIES = 4096
QUERY_BYTES = 8


def queries(count: int) -> str:
    return "1 query" if count == 1 else f"{count} queries"


def greatest(count: int) -> str:
    """What to do where a query is named that a set of so many does not have."""
    return f"The greatest is {count - 1}; make the query set with more where that is wanted." if count else "Make the query set with more."


@rule(170)
def count_of_set(case: Case) -> Cause | None:
    return at_most("count", case.call["count"], MOST_QUERIES, remedy="Take several query sets.")


@rule(280)
def resolved_to(case: Case) -> Cause | None:
    return lacks(case, case.uses["buffer"], QUERY_RESOLVE)


@rule(281)
def resolved_from(case: Case) -> Cause | None:
    made, first, count = case.uses["queries"], case.call["first"], case.call["count"]
    there = made.call["count"]
    values = {"object": made.call["as"], "first": first, "count": count, "queries": there}
    if first >= there:
        return Cause(f"first is {first}, and {case.named(made)} has {queries(there)}, counted from 0", values, greatest(there))
    if first + count > there:
        remedy = f"From {first} on {queries(there - first)} {'is' if there - first == 1 else 'are'} there."
        return Cause(
            f"first {first} and count {count} end at {first + count}, and {case.named(made)} has {queries(there)}",
            {**values, "end": first + count},
            remedy,
        )
    return None


@rule(282)
def resolved_at(case: Case) -> Cause | None:
    return multiple("offset", case.call["offset"], 256)


@rule(283)
def resolved_bytes(case: Case) -> Cause | None:
    buffer, offset, count = case.uses["buffer"], case.call["offset"], case.call["count"]
    there, end = buffer.call["size"], offset + QUERY_BYTES * count
    if end <= there:
        return None
    said = (
        f"offset {offset} and {count} * {QUERY_BYTES} = {QUERY_BYTES * count} bytes of {queries(count)} end at {end}, and"
        f" {case.named(buffer)} has {plural(there, 'byte')}"
    )
    values = {"object": buffer.call["as"], "offset": offset, "count": count, "end": end, "bytes": there}
    remedy = (
        f"From {offset} on there is room for {queries((there - offset) // QUERY_BYTES)}."
        if offset <= there
        else f"No byte is there from {offset} on."
    )
    return Cause(said, values, remedy)


def set_of(begin: Played) -> Played | None:
    """The query set of a render pass, or None."""
    return begin.uses.get("queries") or None


def own_set(begin: Played) -> Played:
    """The query set of a render pass that has one."""
    found = set_of(begin)
    assert found is not None
    return found


def active(case: Case) -> Played | None:
    """The begin of the query that is active where a command comes, or None."""
    last = [command for command in case.earlier if command.do in ("beginOcclusionQuery", "endOcclusionQuery")][-1:]
    return last[0] if last and last[0].do == "beginOcclusionQuery" else None


def query(case: Case, begun: Played) -> str:
    """A query that was begun, in words."""
    return f"query {begun.call['index']} of {case.named(own_set(begun.uses['on']))}"


def still_active(case: Case, where: str, remedy: str) -> Cause | None:
    """A query is active where none is to be."""
    begun = active(case)
    if begun is None:
        return None
    place = case.uses["on"]
    values = {"pass": place.call["as"], "object": own_set(place).call["as"], "active": begun.call["index"], "begun": case.place(begun)}
    return Cause(f"{query(case, begun)} is active{where}, begun at {case.place(begun)}", values, remedy)


@rule(311)
def query_left_active(case: Case) -> Cause | None:
    return still_active(case, f" in {case.named(case.uses['on'])}", "End it before.")


@rule(360)
def pass_with_queries(case: Case) -> Cause | None:
    place = case.uses["on"]
    if set_of(place) is not None:
        return None
    return Cause(
        f"{case.named(place)} has no query set",
        {"pass": place.call["as"], "index": case.call["index"]},
        "Name one under queries where it is begun.",
    )


@rule(361)
def index(case: Case) -> Cause | None:
    made, number = own_set(case.uses["on"]), case.call["index"]
    there = made.call["count"]
    if number < there:
        return None
    return Cause(
        f"index is {number}, and {case.named(made)} has {queries(there)}, counted from 0",
        {"object": made.call["as"], "index": number, "queries": there},
        greatest(there),
    )


@rule(362)
def one_at_a_time(case: Case) -> Cause | None:
    return still_active(case, "", "End it before.")


@rule(363)
def begun_once(case: Case) -> Cause | None:
    place, number = case.uses["on"], case.call["index"]
    before = next((command for command in case.earlier if command.do == "beginOcclusionQuery" and command.call["index"] == number), None)
    if before is None:
        return None
    said = f"{query(case, before)} was begun before in {case.named(place)}, at {case.place(before)}"
    values = {"pass": place.call["as"], "object": own_set(place).call["as"], "index": number, "begun": case.place(before)}
    return Cause(said, values, "Take another query, or begin it in another pass.")


@rule(364)
def none_to_end(case: Case) -> Cause | None:
    if active(case) is not None:
        return None
    place = case.uses["on"]
    last = [command for command in case.earlier if command.do in ("beginOcclusionQuery", "endOcclusionQuery")][-2:]
    told = f"{query(case, last[0])} was ended at {case.place(last[1])}" if last else "none was begun in it"
    values = {"pass": place.call["as"], "ended": case.place(last[1]) if last else None}
    return Cause(f"no query is active in {case.named(place)}: {told}", values, "Leave it out, or begin a query before.")
