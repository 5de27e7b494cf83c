"""Ways to leave one rule of the queries of a render pass unmet. As in `pass_faults`, a fault changes the list of the calls of a pass, from
its begin to its end. A pass without queries is given some first."""

from __future__ import annotations

from typing import TYPE_CHECKING, Callable

from .dispatching import known
from .pass_faults import first_or_any, places
from .querying import GREATEST_32, with_queries

if TYPE_CHECKING:
    from .handed import Call, Fault
    from .world import World

BEGIN, END = "beginOcclusionQuery", "endOcclusionQuery"


def of_queries(change: Callable[[World, str, list[Call], int], None]) -> Fault:
    """A fault of the queries of a pass, made of a function of the world, the name of the pass, its calls, and the count of its set."""
    def fault(world: World, encoder: str, on: str, calls: list[Call]) -> None:
        if not places(calls, BEGIN) or "queries" not in calls[0]:
            begin, body = dict(calls[0]), [call for call in calls[1:-1] if call["do"] not in (BEGIN, END)]
            with_queries(world, begin, on, body, 1)
            calls[:] = [begin, *body, calls[-1]]
        if places(calls, BEGIN):
            change(world, on, calls, known(world.query_sets, calls[0]["queries"]).call["count"])
    return fault


def place_of(world: World, calls: list[Call], word: str) -> int:
    """Where one of the calls of a word stands, often the first; there is one."""
    at = some_place(world, calls, word)
    assert at is not None
    return at


def some_place(world: World, calls: list[Call], word: str) -> int | None:
    """Where one of the calls of a word stands, often the first, or None."""
    found = places(calls, word)
    return first_or_any(world.random, found) if found else None


def anywhere(world: World, calls: list[Call]) -> int:
    return world.random.randint(1, len(calls) - 1)


@of_queries
def no_set(world: World, on: str, calls: list[Call], count: int) -> None:
    calls[0] = {key: value for key, value in calls[0].items() if key != "queries"}


@of_queries
def invalid_set(world: World, on: str, calls: list[Call], count: int) -> None:
    calls[0] = {**calls[0], "queries": world.query_set(good=False).name}


@of_queries
def empty_set(world: World, on: str, calls: list[Call], count: int) -> None:
    """A set of no queries, or of fewer, where those that are begun may not be in."""
    calls[0] = {**calls[0], "queries": world.query_set(count=world.random.choice([0, max(count - 1, 0), 1])).name}


@of_queries
def index_past(world: World, on: str, calls: list[Call], count: int) -> None:
    at = place_of(world, calls, BEGIN)
    calls[at] = {**calls[at], "index": world.random.choice([count, count, count, count + 1, GREATEST_32])}


@of_queries
def begun_within(world: World, on: str, calls: list[Call], count: int) -> None:
    """A query of any index is begun while another one is active, and is ended or not."""
    random, at = world.random, place_of(world, calls, BEGIN)
    calls.insert(at + 1, {**calls[at], "index": random.choice([calls[at]["index"], random.randrange(max(count, 1)), count])})
    if random.random() < 0.5:
        calls.insert(random.randint(at + 2, len(calls) - 1), {"do": END, "on": on})


@of_queries
def begun_again(world: World, on: str, calls: list[Call], count: int) -> None:
    """A query that was begun is begun once more at the end of the pass, where that is of the same index or of another one that was
    begun."""
    index = calls[place_of(world, calls, BEGIN)]["index"]
    calls[-1:-1] = [{"do": BEGIN, "on": on, "index": index}, {"do": END, "on": on}]


@of_queries
def end_gone(world: World, on: str, calls: list[Call], count: int) -> None:
    """A query is not ended, be it the last one or one before another."""
    found = places(calls, END)
    if found:
        del calls[found[-1] if world.random.random() < 0.6 else first_or_any(world.random, found)]


@of_queries
def end_more(world: World, on: str, calls: list[Call], count: int) -> None:
    """An end too many, right after another or anywhere."""
    at = some_place(world, calls, END)
    calls.insert(anywhere(world, calls) if at is None or world.random.random() < 0.5 else at + 1, {"do": END, "on": on})


@of_queries
def begin_gone(world: World, on: str, calls: list[Call], count: int) -> None:
    del calls[place_of(world, calls, BEGIN)]


@of_queries
def both_open(world: World, on: str, calls: list[Call], count: int) -> None:
    """Both a query and a debug group are left open at the end."""
    found = places(calls, END)
    if found:
        del calls[found[-1]]
        calls.insert(anywhere(world, calls), {"do": "pushDebugGroup", "on": on})


QUERY_FAULTS = [
    no_set, no_set, invalid_set, empty_set, index_past, index_past, begun_within, begun_within, begun_again, begun_again, end_gone,
    end_gone, end_more, begin_gone, both_open,
]
