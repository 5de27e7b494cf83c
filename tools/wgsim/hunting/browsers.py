"""Has a browser play scripts by the page of the tool, tools/player. It is started again where it ends or hangs."""

from __future__ import annotations

import contextlib
import json
import os
import shutil
import tempfile
from typing import Any, Iterator

from wgsim import TOP, exit_status
from wgsim.recorder import browser, marionette, visit

from .core import Answered
from .differences import is_uncaught
from .pages import Page, begun
from .translation import SCOPES, translated

PAGE = TOP / "tools/player/player.html"
# How long a browser may take for some scripts that are played at once, in seconds, and to begin.
LONGEST, TO_BEGIN = 60, 90
# How many scripts one page plays before it is loaded anew, so that nothing that it keeps adds up.
MOST_PLAYS = 400
# The words for browsers: the names under which each is installed, and the package of Debian that has it.
KINDS = {"chromium": (browser.NAMES, "chromium"), "firefox": (marionette.NAMES, "firefox-esr")}


class NoWebGpu(Exception):
    """The browser has no WebGPU, or no adapter."""


class Player:
    """A browser with the page that plays. `begin` starts it; it is started by the first play too. All is waited for `patience` times as
    long as on a machine that has nothing else to do."""

    def __init__(self, path: str, address: str, folder: str, patience: int = 1) -> None:
        self.path, self.address, self.folder, self.patience = path, address, folder, patience
        self.page: Page | None = None
        self.plays, self.starts = 0, 0
        self.about: dict[str, str] = {}
        self.limits: dict[str, int] = {}
        self.most_ends = 24

    def begin(self) -> Page:
        """Starts the browser, and opens the page."""
        self.starts += 1
        self.page = begun(self.path, os.path.join(self.folder, f"profile-{self.starts}"), self.patience * TO_BEGIN)
        self.open_page(self.page)
        return self.page

    def open_page(self, page: Page) -> None:
        """Opens the page anew, and asks which browser and adapter play."""
        page.open(self.address)
        told = json.loads(page.evaluate(READY % (300 * self.patience), self.patience * TO_BEGIN))
        if "none" in told:
            raise NoWebGpu(told["none"])
        self.limits = told.pop("limits", {})
        self.about, self.plays = told, 0

    def play(self, plays: list[dict[str, Any]]) -> list[dict[str, Any]]:
        """What the browser answers to some scripts; it is `browser.Gone` where it ends or hangs, and is then started by the next play."""
        try:
            page = self.page or self.begin()
            if self.plays >= MOST_PLAYS:
                self.open_page(page)
            self.plays += len(plays)
            words = f"wgsimPlayer.play({json.dumps(plays)}, {self.patience})"
            return json.loads(page.evaluate(words, self.patience * LONGEST))
        except (browser.Gone, ValueError, TypeError) as gone:
            self.end()
            raise browser.Gone(str(gone)) from None

    def each(self, scripts: list[Answered]) -> list[dict[str, Any]]:
        """What the browser answers to some scripts."""
        return self.parted([play_of(answered) for answered in scripts])

    def parted(self, plays: list[dict[str, Any]]) -> list[dict[str, Any]]:
        """The same, where one that makes the browser end or hang has that as its answer: halves are then played, down to one."""
        try:
            return self.play(plays)
        except browser.Gone as gone:
            if len(plays) == 1:
                return [{"gone": str(gone)}]
        half = (len(plays) + 1) // 2
        return self.parted(plays[:half]) + self.parted(plays[half:])

    def end(self) -> None:
        """Ends the browser."""
        if self.page is not None:
            ended, self.page = self.page, None
            ended.end()


def play_of(answered: Answered) -> dict[str, Any]:
    """A script as the page takes it. One with error scopes of its own is played with these alone too."""
    made = translated(answered)
    uncaught = sum(is_uncaught(entry.fault, answered.whole[number]) for number, entry in answered.entry_of.items())
    return {"calls": made, "limits": answered.flat.limits, "scopes": any(call["do"] in SCOPES for call in made), "uncaught": uncaught}


READY = """\
new Promise((done, fail) => {
  let left = %d;
  const look = () => globalThis.wgsimPlayer ? done(wgsimPlayer.about())
    : left-- ? setTimeout(look, 100) : fail(new Error('the page of the tool was not loaded'));
  look();
})"""


def path_of(named: str | None) -> str:
    """Where a browser is that is named, by its path or by a word; else a Chromium that is installed."""
    if named is not None and named not in KINDS:
        path = browser.found(named)
    else:
        names, package = KINDS[named or "chromium"]
        path = next(filter(None, map(shutil.which, names)), None)
        if path is None:
            why = f"none of {', '.join(names)} is installed: on Debian `sudo apt-get install {package}` installs one"
            raise exit_status.End(exit_status.UNREAD, f"{why}; --browser names another one")
    assert path is not None
    return path


@contextlib.contextmanager
def opened(path: str, patience: int = 1) -> Iterator[Player]:
    """A browser with the page that plays, which ends with what it was started for."""
    folder = tempfile.mkdtemp(prefix="wgsim-hunt-")
    with visit.served(str(PAGE)) as address:
        player = Player(path, address, folder, patience)
        try:
            yield player
        finally:
            player.end()
            shutil.rmtree(folder, ignore_errors=True)
