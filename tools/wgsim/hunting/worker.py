"""A process of a hunt, which has a browser or an engine of its own: it reads what it is to play on its standard input, and writes what it
found on its standard output (messages.py)."""

from __future__ import annotations

import contextlib
import os
import pickle
import signal
import sys
from typing import Any, Iterator

from wgsim import exit_status
from wgsim.program.program import Program
from wgsim.recorder import browser

from . import browsers, engines
from .core import Core
from .hunter import Hunter, Other
from .messages import Begun, Ended, Settings
from .sources import Source, kept_in


def main() -> None:
    """Plays what it is told to until nothing more comes."""
    signal.signal(signal.SIGTERM, stop)
    reads = os.fdopen(os.dup(0), "rb")
    writes = os.fdopen(os.dup(1), "wb")
    # What is said besides goes where errors do, and not among the messages.
    os.dup2(2, 1)

    def tell(message: Any) -> None:
        pickle.dump(message, writes)
        writes.flush()

    with contextlib.suppress(EOFError, BrokenPipeError):
        try:
            work(reads, tell)
        except exit_status.End as end:
            tell(Ended(end.status, end.why))
    signal.signal(signal.SIGTERM, signal.SIG_IGN)


def stop(*_: Any) -> None:
    """Ends the process, its browser first. What says so again, as the hunt does, comes while it ends, and changes nothing."""
    signal.signal(signal.SIGTERM, signal.SIG_IGN)
    sys.exit(1)


def work(reads: Any, tell: Any) -> None:
    settings = pickle.load(reads)
    core = Core(None if settings.is_second else Program(False))
    source = Source(settings.seed, settings.of, kept_in(settings.kept) if settings.kept is not None else ())
    with other(settings) as played_by:
        tell(Begun(played_by.about))
        hunter = Hunter(core, played_by, source, tell)
        while True:
            task = pickle.load(reads)
            hunter.seen.update(task.found)
            tell((task.numbers, hunter.play(task.numbers)))


@contextlib.contextmanager
def other(settings: Settings) -> Iterator[Other]:
    """What plays: the engine of a command, or a browser that was started."""
    if settings.engine is not None:
        yield engines.Engine(settings.engine, Program(settings.is_unproved, is_told=False) if settings.has_traces else None)
        return
    assert settings.browser is not None
    try:
        with browsers.opened(settings.browser, settings.patience) as player:
            player.begin()
            yield player
    except browsers.NoWebGpu as none:
        raise exit_status.End(exit_status.UNREAD, f"{settings.browser}: {none}") from None
    except browser.Gone as gone:
        raise exit_status.End(exit_status.NO_ANSWER, f"{settings.browser}: {gone}") from None
