"""The page of the tool in a browser that was started for it: what a Chromium and a Firefox have in common."""

from __future__ import annotations

from typing import Any, Protocol

from wgsim.recorder import browser, marionette


class Page(Protocol):
    """One page in a browser."""

    def open(self, address: str) -> None:
        """Opens a page anew, in place of the one that is open."""

    def evaluate(self, expression: str, seconds: float) -> Any:
        """What an expression comes to in the page; a promise is waited for. It is `browser.Gone` where the browser ends or hangs."""

    def end(self) -> None:
        """Ends the browser."""


class Chromium:
    """A page of a Chromium, each time in a new tab."""

    def __init__(self, path: str, folder: str, seconds: float) -> None:
        self.browsing = browser.Browser(path, folder)
        self.target, self.session, self.seconds = "", "", seconds

    def open(self, address: str) -> None:
        if self.target:
            self.browsing.ask("Target.closeTarget", targetId=self.target)
        self.target = self.browsing.ask("Target.createTarget", seconds=self.seconds, url="about:blank")["targetId"]
        self.session = self.browsing.ask("Target.attachToTarget", targetId=self.target, flatten=True)["sessionId"]
        self.browsing.ask("Page.enable", self.session)
        self.browsing.ask("Page.navigate", self.session, url=address)

    def evaluate(self, expression: str, seconds: float) -> Any:
        self.browsing.waiting.clear()
        words = {"expression": expression, "awaitPromise": True, "returnByValue": True}
        told = self.browsing.ask("Runtime.evaluate", self.session, seconds, **words)
        if "exceptionDetails" in told:
            details = told["exceptionDetails"]
            raise browser.Gone(f"the page failed: {details.get('exception', {}).get('description') or details['text']}")
        return told["result"].get("value")

    def end(self) -> None:
        self.browsing.end()


def begun(path: str, folder: str, seconds: float) -> Page:
    """A browser that was started, of the kind that its path tells, within some seconds."""
    if marionette.is_firefox(path):
        return marionette.Firefox(path, folder, seconds)
    return Chromium(path, folder, seconds)
