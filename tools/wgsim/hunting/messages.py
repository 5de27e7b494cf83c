"""What a hunt and its workers say to each other. The one writes a `Settings` and then a `Task` at a time, the others answer with a `Begun`,
with what they find, and with the numbers and a `Done` for each task."""

from __future__ import annotations

import collections
from typing import Dict, NamedTuple, Optional, Tuple

from .core import Answered
from .differences import Difference


class Settings(NamedTuple):
    """Of what scripts are made, by whom they are played and how patiently, and by whom they are answered: where `is_second`, by the second
    reading."""

    seed: int
    of: Tuple[str, ...]
    kept: Optional[str]
    browser: Optional[str]
    engine: Optional[str]
    has_traces: bool
    is_unproved: bool
    is_second: bool
    patience: int


class Task(NamedTuple):
    """The numbers of some scripts, and the keys of the differences that are found by now."""

    numbers: range
    found: Tuple[str, ...]


class Found(NamedTuple):
    """A script that shows a difference. It is told when the difference is met first, and again where it was made small."""

    answered: Answered
    difference: Difference
    number: int
    source: str
    is_small: bool


class Begun(NamedTuple):
    """Who plays."""

    about: Dict[str, str]


class Ended(NamedTuple):
    """Why a worker cannot go on: a status, and a sentence."""

    status: int
    why: str


class Done:
    """What the scripts of a task came to, each by its name and how often: what was counted, what was left out, which differences that are
    known were met, and which others, by their keys."""

    def __init__(self) -> None:
        self.counts: collections.Counter[str] = collections.Counter()
        self.left: collections.Counter[str] = collections.Counter()
        self.known: collections.Counter[str] = collections.Counter()
        self.met: collections.Counter[str] = collections.Counter()
