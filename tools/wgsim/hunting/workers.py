"""The processes of a hunt: they are started, get tasks, and end with the hunt."""

from __future__ import annotations

import contextlib
import os
import pickle
import queue
import signal
import subprocess
import sys
import threading
from typing import Any, Iterator

from wgsim import TOP, exit_status
from wgsim.program import building

from .messages import Settings

# What a worker with its browser takes at most, in kB.
MEMORY = 800_000
BEGIN = f"""\
import sys
sys.pycache_prefix, sys.path[:0] = {sys.pycache_prefix!r}, [{str(TOP / "tools")!r}, {str(TOP)!r}]
from wgsim.hunting import worker
worker.main()
"""


def most() -> int:
    """How many there are side by side: as many as processors and memory allow."""
    return building.jobs(MEMORY)


class Worker:
    """A process. What it writes comes to a queue, with None after it."""

    def __init__(self, settings: Settings, came: queue.Queue[tuple[Worker, Any]]) -> None:
        words = [sys.executable, "-c", BEGIN]
        # In a group of its own, so that what stops the hunt does not come to it and its browser by itself.
        self.run = subprocess.Popen(words, stdin=subprocess.PIPE, stdout=subprocess.PIPE, start_new_session=True)
        self.came = came
        self.write(settings)
        threading.Thread(target=self.read, daemon=True).start()

    def write(self, message: Any) -> None:
        """Writes to it; where it has ended, that is told by what is read."""
        assert self.run.stdin is not None
        with contextlib.suppress(BrokenPipeError):
            pickle.dump(message, self.run.stdin)
            self.run.stdin.flush()

    def read(self) -> None:
        """Hands on what it writes."""
        assert self.run.stdout is not None
        with contextlib.suppress(EOFError, pickle.UnpicklingError, OSError):
            while True:
                self.came.put((self, pickle.load(self.run.stdout)))
        self.came.put((self, None))

    def end(self) -> None:
        """Ends it, and with it its browser."""
        with contextlib.suppress(ProcessLookupError):
            self.run.terminate()
        try:
            self.run.wait(20)
        except subprocess.TimeoutExpired:
            with contextlib.suppress(ProcessLookupError):
                os.killpg(self.run.pid, signal.SIGKILL)
            self.run.wait()


class Workers:
    """Some workers, and what comes of them."""

    def __init__(self, settings: Settings, count: int) -> None:
        self.came: queue.Queue[tuple[Worker, Any]] = queue.Queue()
        self.all = [Worker(settings, self.came) for _ in range(count)]

    def next(self) -> tuple[Worker, Any]:
        """What comes next, and of which."""
        worker, message = self.came.get()
        if message is None:
            raise exit_status.End(exit_status.NO_ANSWER, f"a process of the hunt ended with {worker.run.wait()}")
        return worker, message


@contextlib.contextmanager
def started(settings: Settings, count: int) -> Iterator[Workers]:
    """Workers that end with what they were started for."""
    workers = Workers(settings, count)
    try:
        yield workers
    finally:
        for worker in workers.all:
            with contextlib.suppress(ProcessLookupError):
                worker.run.terminate()
        for worker in workers.all:
            worker.end()
