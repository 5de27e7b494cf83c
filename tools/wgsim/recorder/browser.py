"""A client of the DevTools protocol, which drives a Chromium that the tool started itself.

Chromium reads commands and writes answers on two pipes (`--remote-debugging-pipe`), so that no port is opened: each message is a JSON text
that ends with a zero byte. The browser reaches no address but those of this machine, whatever a page asks for.
"""

from __future__ import annotations

import contextlib
import fcntl
import json
import os
import select
import shutil
import signal
import subprocess
import time
from typing import Any, Iterator

from wgsim import exit_status

NAMES = ("chromium", "chromium-browser", "google-chrome", "google-chrome-stable")
FIREFOX = ("firefox", "firefox-esr")
# Headless, with WebGPU on a graphics driver that runs on the processor, and without what a browser does by itself.
FLAGS = (
    "--headless=new", "--remote-debugging-pipe", "--no-first-run", "--no-default-browser-check", "--disable-dev-shm-usage",
    "--enable-unsafe-webgpu", "--enable-features=Vulkan", "--use-webgpu-adapter=swiftshader", "--use-vulkan=swiftshader",
    "--use-angle=swiftshader", "--disable-background-networking", "--disable-component-update", "--disable-sync",
    "--disable-default-apps", "--disable-extensions", "--disable-background-timer-throttling", "--disable-renderer-backgrounding",
    "--disable-backgrounding-occluded-windows",
)
# A name that is not this machine's has no address; all else would go to a proxy that is not there, but for what is this machine's.
ALONE = (
    "--host-resolver-rules=MAP * ~NOTFOUND , EXCLUDE localhost , EXCLUDE 127.0.0.1 , EXCLUDE [::1]",
    "--proxy-server=127.0.0.1:9",
    "--proxy-bypass-list=localhost;127.0.0.1;[::1]",
    "--force-webrtc-ip-handling-policy=disable_non_proxied_udp",
)
ENDED = "it has ended"
PIECE = 1 << 16
# The files on which Chromium reads commands and writes answers.
READS, WRITES = 3, 4


class Gone(Exception):
    """The browser ended, or does not answer."""


def found(named: str | None) -> str | None:
    """The browser that is named, or one that is installed; None where there is none. Either name of Firefox finds it."""
    names = NAMES if named is None else FIREFOX if named in FIREFOX else (named,)
    path = next(filter(None, [shutil.which(name) for name in names]), None)
    if named is not None and path is None:
        raise exit_status.End(exit_status.UNREAD, f"{named}: there is no such browser")
    return path


class Browser:
    """A browser that was started, and the messages to and from it."""

    def __init__(self, path: str, folder: str) -> None:
        commands, self.out = os.pipe()
        self.answers, answers = os.pipe()
        high = [fcntl.fcntl(file, fcntl.F_DUPFD, 10) for file in (commands, answers)]

        def placed() -> None:
            os.dup2(high[0], READS)
            os.dup2(high[1], WRITES)

        root = ("--no-sandbox",) if os.geteuid() == 0 else ()
        words = [path, *FLAGS, *ALONE, *root, f"--user-data-dir={folder}", "about:blank"]
        quiet: dict[str, Any] = {"stdin": subprocess.DEVNULL, "stdout": subprocess.DEVNULL, "stderr": subprocess.DEVNULL}
        self.run = subprocess.Popen(words, preexec_fn=placed, pass_fds=(READS, WRITES), start_new_session=True, **quiet)
        for file in (commands, answers, *high):
            os.close(file)
        self.number, self.rest = 0, b""
        self.waiting: list[dict[str, Any]] = []

    def ask(self, method: str, session: str | None = None, seconds: float = 60, **words: Any) -> dict[str, Any]:
        """Sends a command, and returns its result; events that come before it are kept."""
        self.number += 1
        message = {"id": self.number, "method": method, "params": words, **({"sessionId": session} if session else {})}
        self.send(json.dumps(message).encode() + b"\0")
        until, kept = time.monotonic() + seconds, []
        while True:
            told = self.next(until)
            if told is None:
                raise Gone(f"it does not answer {method}")
            if told.get("id") == self.number:
                self.waiting = kept + self.waiting
                if "error" in told:
                    raise Gone(f"it refuses {method}: {told['error'].get('message')}")
                return told["result"]
            if "method" in told:
                kept.append(told)

    def send(self, data: bytes) -> None:
        try:
            while data:
                data = data[os.write(self.out, data[:PIECE]) :]
        except BrokenPipeError:
            raise Gone(ENDED) from None

    def next(self, until: float) -> dict[str, Any] | None:
        """The next message, or None where there is none up to a time."""
        if self.waiting:
            return self.waiting.pop(0)
        parts = [self.rest]
        while b"\0" not in parts[-1]:
            left = until - time.monotonic()
            if left <= 0 or not select.select([self.answers], [], [], left)[0]:
                self.rest = b"".join(parts)
                return None
            piece = os.read(self.answers, PIECE)
            if not piece:
                raise Gone(ENDED)
            parts.append(piece)
        message, _, self.rest = b"".join(parts).partition(b"\0")
        return json.loads(message)

    def end(self) -> None:
        """Ends the browser: by its own word, or else by a signal to what was started here."""
        with contextlib.suppress(Gone, OSError):
            self.ask("Browser.close", seconds=5)
        try:
            self.run.wait(5)
        except subprocess.TimeoutExpired:
            pass
        with contextlib.suppress(ProcessLookupError):
            os.killpg(self.run.pid, signal.SIGKILL)
        self.run.wait()
        os.close(self.out)
        os.close(self.answers)


@contextlib.contextmanager
def opened(path: str, folder: str) -> Iterator[Browser]:
    """A browser that ends with what it was started for."""
    browser = Browser(path, folder)
    try:
        yield browser
    finally:
        browser.end()
