"""Has a command play scripts: an engine that reads a script on its standard input, and writes a report, as docs/report.md has them."""

from __future__ import annotations

import concurrent.futures
import os
import re
import shlex
import shutil
import subprocess
from typing import Any

from wgsim import exit_status
from wgsim.program.program import Program
from wgsim.reading.report import Entry

from .core import Answered, history_of

# How long an engine may take for a script, in seconds.
LONGEST = 60


class Engine:
    """A command that plays scripts one by one. With `judge` its traces are judged too."""

    def __init__(self, words: str, judge: Program | None) -> None:
        self.words = words_of(words)
        self.judge, self.about = judge, {"command": words}
        self.limits: dict[str, int] = {}
        self.most_ends = 500

    def each(self, scripts: list[Answered]) -> list[dict[str, Any]]:
        """What the command answers to some scripts, as many at once as there are processors."""
        with concurrent.futures.ThreadPoolExecutor(os.cpu_count() or 1) as pool:
            return list(pool.map(self.told, scripts))

    def told(self, answered: Answered) -> dict[str, Any]:
        """What it answers to one."""
        try:
            ran = subprocess.run(self.words, input=answered.flat.data(), capture_output=True, timeout=LONGEST, check=False)
        except subprocess.TimeoutExpired:
            return {"hung": f"no report within {LONGEST} seconds"}
        except OSError as error:
            raise exit_status.End(exit_status.UNREAD, f"--command: {self.words[0]}: {error.strerror}") from None
        text = ran.stdout.decode("utf-8", "replace")
        if ran.returncode != 0 or not text.startswith("history\n") or "trace\n" not in text:
            said = ran.stderr.decode("utf-8", "replace").strip().splitlines()[-1:] or text.splitlines()[:1] or ["it wrote nothing"]
            return {"gone": f"no report, status {ran.returncode}: {said[0]}"}
        told = answers_of(answered, history_of(text))
        return {**told, **self.judged(ran.stdout)}

    def judged(self, report: bytes) -> dict[str, str]:
        """What `check` says of the trace of a report, where it is judged and not enough."""
        if self.judge is None:
            return {}
        status, said = self.judge.check(report)
        return {} if status == exit_status.SAME else {"trace": said.decode("utf-8", "replace").strip()}


def words_of(command: str) -> list[str]:
    """The words of a command, of which the first is a program that is there."""
    try:
        words = shlex.split(command)
    except ValueError as error:
        raise exit_status.End(exit_status.WORDS, f"--command: {error}") from None
    if not words or shutil.which(words[0]) is None:
        raise exit_status.End(exit_status.UNREAD, f"--command: {words[0] if words else 'nothing'}: there is no such program")
    return words


def answers_of(answered: Answered, lines: list[str]) -> dict[str, Any]:
    """A history as what was told of each call. Its entries are those of the calls that make one, in their order."""
    places = list(answered.entry_of)
    try:
        entries = [Entry(line) for line in lines]
    except (ValueError, IndexError):
        return {"gone": "its history is none"}
    if [entry.word for entry in entries] != [answered.entry_of[number].word for number in places]:
        return {"gone": f"its history has {len(entries)} entries that are not those of the calls"}
    answers: dict[str, dict[str, Any]] = {}
    for number, entry in zip(places, entries):
        answer = answers.setdefault(str(number), {})
        if entry.fault is not None:
            answer.update(error=entry.fault[0], message=f"rule {entry.fault[1]}", caught=entry.fault[2])
        for promise, how in entry.settled:
            if promise < len(places):
                settled = answers.setdefault(str(places[promise]), {})
                settled.update(settle=re.sub(r" \d+$", "", how), settled=settled.get("settled", 0) + 1)
    return {"answers": answers}
