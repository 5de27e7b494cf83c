"""A client of WebDriver BiDi, which drives a Firefox that the tool started itself.

Firefox takes commands on a WebSocket alone, so that a port of 127.0.0.1 is opened to it while it runs. The browser reaches no address but
those of this machine, whatever a page asks for: all else goes to a proxy that is not there.
"""

from __future__ import annotations

import base64
import contextlib
import json
import os
import pathlib
import select
import signal
import socket
import struct
import subprocess
import time
from typing import Any, Iterator

from wgsim.recorder.browser import ENDED, Gone

# What is known of a Firefox that ends while a page is open.
WHY_GONE = (
    "Firefox 153 does so without a screen where a page shows a canvas of the format rgba8unorm: one of bgra8unorm, which"
    " getPreferredCanvasFormat gives there, is shown, and so is a page by `wgsim record --one-file` in a Firefox with a screen"
)
NOWHERE = {"network.proxy.type": 1, "network.proxy.no_proxies_on": "localhost, 127.0.0.1, [::1]", "network.proxy.socks_remote_dns": True}
# With WebGPU wherever it was built in, on any driver, and without what a browser does by itself.
SETTINGS = {
    "dom.webgpu.enabled": True, "dom.webgpu.workers.enabled": True, "gfx.webgpu.ignore-blocklist": True, "gfx.webgpu.force-enabled": True,
    "remote.active-protocols": 1, "browser.shell.checkDefaultBrowser": False, "datareporting.policy.dataSubmissionEnabled": False,
    "toolkit.telemetry.enabled": False, "app.update.enabled": False, "media.peerconnection.enabled": False, "network.trr.mode": 5,
    "network.captive-portal-service.enabled": False, "network.connectivity-service.enabled": False, "dom.push.enabled": False,
    **NOWHERE, **{f"network.proxy.{kind}": "127.0.0.1" for kind in ("http", "ssl", "socks")},
    **{f"network.proxy.{kind}_port": 9 for kind in ("http", "ssl", "socks")},
}
LISTENS = "WebDriverBiDiServer.json"
EVENTS = ("script.message", "network.beforeRequestSent", "log.entryAdded", "browsingContext.navigationFailed")
# What a browser takes to start, in seconds, and how much is read at once.
START, PIECE = 90, 1 << 16
TEXT, CLOSE, PING, PONG = 1, 8, 9, 10


def is_one(path: str) -> bool:
    """Whether a browser is a Firefox, by its name."""
    return "firefox" in pathlib.Path(path).name.lower()


class Socket:
    """A WebSocket to a port of this machine, for texts alone."""

    def __init__(self, port: int) -> None:
        self.socket = socket.create_connection(("127.0.0.1", port), timeout=30)
        key = base64.b64encode(os.urandom(16)).decode()
        head = ["GET /session HTTP/1.1", f"Host: 127.0.0.1:{port}", "Upgrade: websocket", "Connection: Upgrade"]
        self.socket.sendall("\r\n".join([*head, f"Sec-WebSocket-Key: {key}", "Sec-WebSocket-Version: 13", "", ""]).encode())
        self.rest, self.text = b"", b""
        while b"\r\n\r\n" not in self.rest:
            self.more(time.monotonic() + 30)
        told, _, self.rest = self.rest.partition(b"\r\n\r\n")
        if b" 101 " not in told.split(b"\r\n")[0]:
            raise Gone(f"it opens no WebSocket: {told[:80]!r}")

    def more(self, until: float) -> bool:
        """Reads some bytes, or says that none came up to a time."""
        left = until - time.monotonic()
        if left <= 0 or not select.select([self.socket], [], [], left)[0]:
            return False
        piece = b""
        with contextlib.suppress(ConnectionError):
            piece = self.socket.recv(PIECE)
        if not piece:
            raise Gone(ENDED)
        self.rest += piece
        return True

    def send(self, data: bytes, sort: int = TEXT) -> None:
        """Sends one frame, masked as those of a client are."""
        mask, length = os.urandom(4), len(data)
        own, form = (length, "") if length < 126 else (126, ">H") if length < 1 << 16 else (127, ">Q")
        size = bytes([0x80 | own]) + (struct.pack(form, length) if form else b"")
        whole = (mask * (length // 4 + 1))[:length]
        masked = (int.from_bytes(data, "big") ^ int.from_bytes(whole, "big")).to_bytes(length, "big")
        try:
            self.socket.sendall(bytes([0x80 | sort]) + size + mask + masked)
        except OSError:
            raise Gone(ENDED) from None

    def frame(self) -> tuple[int, bytes] | None:
        """The first byte of the next frame and what it holds, or None where it is not there as a whole."""
        if len(self.rest) < 2:
            return None
        length, at = self.rest[1] & 0x7F, 2
        if length > 125:
            at = 4 if length == 126 else 10
            length = int.from_bytes(self.rest[2:at], "big")
        if len(self.rest) < at or len(self.rest) < at + length:
            return None
        head, data = self.rest[0], self.rest[at : at + length]
        self.rest = self.rest[at + length :]
        return head, data

    def receive(self, until: float) -> bytes | None:
        """The next text, or None where there is none up to a time."""
        while True:
            found = self.frame()
            if found is None:
                if not self.more(until):
                    return None
                continue
            head, data = found
            if head & 0x0F == CLOSE:
                raise Gone(ENDED)
            if head & 0x0F == PING:
                self.send(data, PONG)
            elif head & 0x0F <= TEXT:
                self.text += data
                if head & 0x80:
                    text, self.text = self.text, b""
                    return text


class Firefox:
    """A Firefox that was started, and the messages to and from it."""

    def __init__(self, path: str, folder: str) -> None:
        own = pathlib.Path(folder)
        own.mkdir(parents=True)
        lines = (f"user_pref({json.dumps(name)}, {json.dumps(value)});\n" for name, value in SETTINGS.items())
        (own / "user.js").write_text("".join(lines), encoding="utf-8")
        quiet: dict[str, Any] = {"stdin": subprocess.DEVNULL, "stdout": subprocess.DEVNULL, "stderr": subprocess.DEVNULL}
        words = [path, "--headless", "--no-remote", "--profile", folder, "--remote-debugging-port", "0", "about:blank"]
        self.run = subprocess.Popen(words, env={**os.environ, "HOME": folder}, start_new_session=True, **quiet)
        self.number, self.waiting = 0, []
        try:
            self.socket = Socket(self.port(own / LISTENS))
            self.ask("session.new", capabilities={})
        except BaseException:
            self.end()
            raise

    def port(self, path: pathlib.Path) -> int:
        """The port on which it listens, once it says so."""
        until = time.monotonic() + START
        while time.monotonic() < until:
            with contextlib.suppress(OSError, ValueError):
                return json.loads(path.read_text(encoding="utf-8"))["ws_port"]
            if self.run.poll() is not None:
                raise Gone(ENDED)
            time.sleep(0.1)
        raise Gone(f"it does not listen within {START} seconds")

    def ask(self, method: str, seconds: float = 60, **words: Any) -> dict[str, Any]:
        """Sends a command, and returns its result; events that come before it are kept."""
        self.number += 1
        self.socket.send(json.dumps({"id": self.number, "method": method, "params": words}).encode())
        until = time.monotonic() + seconds
        while True:
            told = self.heard(until)
            if told is None:
                raise Gone(f"it does not answer {method}")
            if told.get("id") == self.number:
                if told["type"] == "error":
                    raise Gone(f"it refuses {method}: {told.get('message')}")
                return told["result"]
            if "method" in told:
                self.waiting.append(told)

    def heard(self, until: float) -> dict[str, Any] | None:
        text = self.socket.receive(until)
        return None if text is None else json.loads(text)

    def next(self, until: float) -> dict[str, Any] | None:
        """The next message, or None where there is none up to a time."""
        return self.waiting.pop(0) if self.waiting else self.heard(until)

    def end(self) -> None:
        """Ends the browser, with all that it started itself."""
        with contextlib.suppress(ProcessLookupError):
            os.killpg(self.run.pid, signal.SIGTERM)
        try:
            self.run.wait(10)
        except subprocess.TimeoutExpired:
            pass
        with contextlib.suppress(ProcessLookupError):
            os.killpg(self.run.pid, signal.SIGKILL)
        self.run.wait()


@contextlib.contextmanager
def opened(path: str, folder: str) -> Iterator[Firefox]:
    """A Firefox that ends with what it was started for."""
    browser = Firefox(path, folder)
    try:
        yield browser
    finally:
        browser.end()
