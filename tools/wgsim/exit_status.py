"""How the tool may end: the exit statuses, and an end with a message."""

from __future__ import annotations

# Those of the program, up to BAD_TRACE, with DIFFERENT in a place that it leaves free, and then those of the tool.

SAME, DIFFERENT, WORDS, REFUSED, UNREAD, UNWRITTEN, NO_MEMORY, TOO_LARGE, DIFFERS, BAD_TRACE, TOO_MANY, NOT_BUILT, NO_ANSWER = range(13)

# What the program's own statuses mean where it writes nothing.
SILENT = {
    UNREAD: "the program could not read the script",
    UNWRITTEN: "the program could not write its report",
    NO_MEMORY: "the program had no memory for the script",
    TOO_LARGE: "the script has more than 4194304 bytes, so it is not read as a script at all",
}


class End(Exception):
    """The tool ends with a status, and says why on standard error."""

    def __init__(self, status: int, why: str) -> None:
        super().__init__(why)
        self.status = status
        self.why = why
