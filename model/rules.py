"""Rules: a number, what is asked in a word or two, and whether it is met.

The rules of a call are a generator of such triples, in the order in which they are tested. A rule that asks several
things gives a triple for each, all of its number. A later rule may look at what only an earlier one makes sure of, so the
tests stop at the first that is unmet.
"""

from __future__ import annotations

import collections
from typing import Any, Tuple

# How often each rule of each call was found met, and unmet, since the program began.
met: "collections.Counter[Tuple[str, int, str]]" = collections.Counter()
unmet: "collections.Counter[Tuple[str, int, str]]" = collections.Counter()
# Whether they are counted. Who asks for many answers and for no counts says no to it, which spares a sixth of the time.
is_counted = True


def count(is_wanted: bool) -> None:
    """Says whether tests of rules are counted from here on."""
    global is_counted
    is_counted = is_wanted


def note(call: Any, number: Any, what: Any, is_met: Any) -> None:
    """Counts a test of a rule."""
    if is_counted:
        (met if is_met else unmet)[(call, number, what)] += 1


def at_most(number: Any, what: Any, count: Any, most: Any) -> Any:
    """A triple that asks for a count of at most some limit. Just as many has a part of its own, so that it is told how often a
    script came up to the limit."""
    return number, f"just the most of {what}" if count == most else what, count <= most


def first_unmet(call: Any, triples: Any) -> Any:
    """The number of the first rule that is unmet, or None."""
    for number, what, is_met in triples:
        if is_counted:
            note(call, number, what, is_met)
        if not is_met:
            return number
    return None
