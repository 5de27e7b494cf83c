"""The forms of what is handed from one function to another here, for readers and for mypy."""

from __future__ import annotations

from typing import Any, Dict, Iterator, Tuple

# A call of a script, or an object in one, with the values of all its keys.
Call = Dict[str, Any]
# A key of a call: its name, the sort of its value, and the value that it has where it is left out.
Key = Tuple[str, Any, Any]
# The phase, the lane and the number of a call.
Place = Tuple[int, int, int]
# A rule of a call: its number, what is asked, and whether that is met; and all rules of a call, in the order of their tests.
Rule = Tuple[int, str, bool]
Rules = Iterator[Rule]
# A part or a cell of memory: its sort, the number of its object, and where it lies in that.
Cell = Tuple[Any, ...]
# What a command touches: a cell, the usage, and how it accesses that.
Touch = Tuple[Cell, str, str]
