"""Asks the program: the proved one, the one that was compiled without proofs, or one that is named for a test."""

from __future__ import annotations

import os
import pathlib
import signal
import subprocess
from typing import BinaryIO, NoReturn

from wgsim import exit_status
from wgsim.program import building, release, unproved

# Names a program to ask in place of the proved one, for tests of the tool.
NAMED = "WGSIM_PROGRAM"
SHORTEST = building.SHORTEST
OWN = {0, exit_status.WORDS, exit_status.REFUSED, exit_status.UNREAD, exit_status.UNWRITTEN, exit_status.NO_MEMORY, exit_status.TOO_LARGE}
OF_CHECK = {
    0, exit_status.UNREAD, exit_status.UNWRITTEN, exit_status.NO_MEMORY, exit_status.TOO_LARGE, exit_status.DIFFERS,
    exit_status.BAD_TRACE,
}


class Program:
    """A program that can be asked about scripts. `said` tells what it is, for those who read its answers.

    It is the proved one where that is built from the sources as they are, and else, or where that is asked for, the one that is compiled
    without proofs, of which one line on standard error says so, unless it is told elsewhere. In a release it is the one that came with
    that."""

    plays = True

    def __init__(self, is_unproved: bool, is_told: bool = True) -> None:
        named = os.environ.get(NAMED)
        self.is_unproved = not named and not release.is_one() and (is_unproved or not building.is_built())
        self.answers = {}
        if named:
            self.path, self.said = pathlib.Path(named), f"the program {named}, which {NAMED} names"
        elif release.is_one():
            self.path, self.said = release.program(is_unproved), release.said()
        elif self.is_unproved:
            self.path, self.said = unproved.PROGRAM, "the program, compiled WITHOUT its proofs"
        else:
            self.path, self.said = building.PROGRAM, "the proved program"
        self.is_ready = not self.is_unproved or unproved.is_kept()
        if self.is_unproved and is_told:
            self.warn(is_unproved)

    def warn(self, is_asked_for: bool) -> None:
        """Says in a line that the answers are not proved, and what would make them so."""
        first = "" if self.is_ready else "; it is compiled now, once, which takes about a minute"
        if is_asked_for:
            building.say(f"this answer is from {self.said}, which claims nothing{first}")
            return
        why = "no program is proved here yet" if not building.PROGRAM.exists() else "the sources have changed since the program was proved"
        building.say(
            f"{why}, so this answer is from {self.said}{first}; `./wgsim prove` proves and builds it, in {building.from_nothing()} from"
            " nothing"
        )

    def is_kept(self) -> bool:
        """Whether there is a program to run: the unproved one has to be compiled first."""
        self.is_ready = self.is_ready or unproved.is_kept()
        return self.is_ready

    def ready(self) -> None:
        """Compiles the program first where that is needed."""
        if not self.is_kept():
            self.ask(SHORTEST)

    def ask(self, data: bytes) -> tuple[int, bytes]:
        """The status of a run on a script, and what it wrote."""
        if data not in self.answers:
            self.answers[data] = self.run(data)
        return self.answers[data]

    def check(self, data: bytes) -> tuple[int, bytes]:
        """The status of a check of a trace, and what it wrote."""
        return self.run(data, "check", OF_CHECK)

    def run(self, data: bytes, word: str = "run", own: set[int] = OWN) -> tuple[int, bytes]:
        if not self.is_kept():
            answer = unproved.first(data, word)
            if answer is not None:
                return answer
        try:
            ran = subprocess.run([self.path, word], input=data, capture_output=True)
        except OSError as error:
            raise exit_status.End(exit_status.NOT_BUILT, f"{self.path} cannot be run: {error.strerror}") from None
        if ran.returncode not in own:
            said = ran.stderr.decode("utf-8", "replace")
            raise exit_status.End(exit_status.NO_ANSWER, f"{said}{self.said} had no answer: it ended with {ran.returncode}")
        return ran.returncode, ran.stdout

    def become(self, words: list[str], script: BinaryIO | None = None) -> NoReturn:
        """Takes the place of this tool, with an open file as its standard input if there is one, so that bytes and status are its own."""
        if script is not None:
            os.dup2(script.fileno(), 0)
        signal.signal(signal.SIGPIPE, signal.SIG_DFL)
        try:
            os.execv(self.path, [str(self.path), *words])
        except OSError as error:
            raise exit_status.End(exit_status.NOT_BUILT, f"{self.path} cannot be run: {error.strerror}") from None
