"""A report that is there already, in the place of a program that plays the script."""

from __future__ import annotations

from typing import TYPE_CHECKING, Protocol

from wgsim.exit_status import REFUSED, SAME, UNREAD, End
from wgsim.matching import refusal
from wgsim.reading.report import NotReport, Report

if TYPE_CHECKING:
    from wgsim.reading.places import Text


class Asked(Protocol):
    """What is asked about a script: a program that plays it, or a report that is there. `said` tells what it is."""

    said: str
    plays: bool

    def ask(self, data: bytes) -> tuple[int, bytes]:
        """The status of a script, and what there is to say of it."""


class Given:
    """Answers with one report, whatever it is asked. `said` tells what it is.

    The tool ends where it is none, or refuses the script at a place that this has not."""

    plays = False

    def __init__(self, data: bytes, name: str, text: Text) -> None:
        self.said = f"the report {name}"
        said = data.decode("utf-8", "replace")
        is_refused = said.startswith("bad script ")
        self.answer = (REFUSED if is_refused else SAME, data)
        try:
            refusal.find(text, said) if is_refused else Report(said)
        except NotReport as error:
            raise End(UNREAD, f"{name} is no report: {error}") from None
        except (ValueError, KeyError, IndexError, AttributeError, TypeError):
            raise End(UNREAD, f"{name} tells of no place of {text.name}") from None

    def ask(self, data: bytes) -> tuple[int, bytes]:
        """The status that belongs to the report, and the report."""
        return self.answer
