"""A client of Marionette, the protocol by which a Firefox is driven that the tool started itself.

Firefox listens on a port of this machine that it chooses, and tells which in its profile. Each message is a JSON text with its length and a
colon before it. The browser reaches no address but those of this machine, whatever a page asks for.
"""

from __future__ import annotations

import contextlib
import json
import os
import pathlib
import signal
import socket
import subprocess
import time
from typing import Any

from .browser import Gone

NAMES = ("firefox", "firefox-esr")
# The file of a profile that has the port.
PORT = "MarionetteActivePort"
PROTOCOL = 3
# WebGPU on any driver, and nothing that a browser does by itself.
PREFERENCES = {
    "dom.webgpu.enabled": True, "dom.webgpu.workers.enabled": True, "gfx.webgpu.ignore-blocklist": True, "gfx.webgpu.force-enabled": True,
    "marionette.port": 0, "browser.shell.checkDefaultBrowser": False, "browser.tabs.remote.autostart": True, "app.update.enabled": False,
    "app.normandy.enabled": False, "datareporting.policy.dataSubmissionEnabled": False, "toolkit.telemetry.enabled": False,
    "extensions.update.enabled": False, "services.settings.server": "data:,", "network.captive-portal-service.enabled": False,
    "network.connectivity-service.enabled": False, "dom.min_background_timeout_value": 4,
    "dom.timeout.enable_budget_timer_throttling": False,
}
# All that is not this machine's goes to a proxy that is not there, names are asked for nowhere, and no peer is connected to.
ALONE = {
    "network.proxy.type": 1, "network.proxy.http": "127.0.0.1", "network.proxy.http_port": 9, "network.proxy.ssl": "127.0.0.1",
    "network.proxy.ssl_port": 9, "network.proxy.socks": "127.0.0.1", "network.proxy.socks_port": 9,
    "network.proxy.socks_remote_dns": True, "network.proxy.no_proxies_on": "localhost, 127.0.0.1, [::1]", "network.trr.mode": 5,
    "network.dns.disablePrefetch": True, "media.peerconnection.enabled": False,
}


def is_firefox(path: str) -> bool:
    """Whether a browser is a Firefox, by its name."""
    return os.path.basename(path).lower().startswith("firefox")


class Firefox:
    """A Firefox that was started, and its one page."""

    def __init__(self, path: str, folder: str, seconds: float) -> None:
        self.number, self.rest, self.seconds = 0, b"", 0.0
        self.profile = pathlib.Path(folder)
        self.profile.mkdir(parents=True, exist_ok=True)
        lines = [f"user_pref({json.dumps(name)}, {json.dumps(value)});\n" for name, value in {**PREFERENCES, **ALONE}.items()]
        (self.profile / "user.js").write_text("".join(lines), encoding="utf-8")
        words = [path, "--headless", "--marionette", "--no-remote", "--profile", folder, "about:blank"]
        quiet: dict[str, Any] = {"stdin": subprocess.DEVNULL, "stdout": subprocess.DEVNULL, "stderr": subprocess.DEVNULL}
        # What it and its drivers keep besides goes with the profile.
        home = {**os.environ, "HOME": folder, "XDG_CACHE_HOME": folder, "XDG_CONFIG_HOME": folder}
        self.run = subprocess.Popen(words, start_new_session=True, env=home, **quiet)
        self.socket: socket.socket | None = None
        try:
            until = time.monotonic() + seconds
            self.socket = self.connected(until)
            self.begin(until)
        except BaseException:
            self.end()
            raise

    def connected(self, until: float) -> socket.socket:
        """The connection to it, once it listens."""
        while time.monotonic() < until:
            if self.run.poll() is not None:
                raise Gone(f"it ended with {self.run.returncode}")
            with contextlib.suppress(OSError, ValueError):
                port = int((self.profile / PORT).read_text(encoding="utf-8"))
                return socket.create_connection(("127.0.0.1", port), timeout=10)
            time.sleep(0.1)
        raise Gone("it does not listen to what drives it")

    def begin(self, until: float) -> None:
        """Reads its greeting, and opens a session."""
        greeting = self.next(until)
        if not isinstance(greeting, dict) or greeting.get("marionetteProtocol") != PROTOCOL:
            raise Gone("it speaks another protocol than Marionette 3")
        self.ask("WebDriver:NewSession", until - time.monotonic(), capabilities={"alwaysMatch": {"acceptInsecureCerts": False}})

    def open(self, address: str) -> None:
        """Opens a page in place of the one that is open."""
        self.ask("WebDriver:Navigate", url=address)

    def evaluate(self, expression: str, seconds: float) -> Any:
        """What an expression comes to in the page."""
        if seconds != self.seconds:
            self.ask("WebDriver:SetTimeouts", script=int(1000 * seconds))
            self.seconds = seconds
        told = self.ask("WebDriver:ExecuteAsyncScript", seconds + 5, script=EVALUATE % expression, args=[])["value"]
        if not isinstance(told, dict) or "failed" in told:
            raise Gone(f"the page failed: {told['failed'] if isinstance(told, dict) else told}")
        return told.get("value")

    def ask(self, command: str, seconds: float = 60, **words: Any) -> dict[str, Any]:
        """Sends a command, and returns its result."""
        self.number += 1
        data = json.dumps([0, self.number, command, words]).encode()
        until = time.monotonic() + seconds
        try:
            assert self.socket is not None
            self.socket.settimeout(max(seconds, 1))
            self.socket.sendall(b"%d:%s" % (len(data), data))
        except OSError:
            raise Gone("it has ended") from None
        while True:
            told = self.next(until)
            if isinstance(told, list) and len(told) == 4 and told[:2] == [1, self.number]:
                if told[2] is not None:
                    raise Gone(f"it refuses {command}: {told[2].get('error')}: {told[2].get('message')}")
                return told[3]

    def next(self, until: float) -> Any:
        """The next message."""
        assert self.socket is not None
        parts, size = [self.rest], len(self.rest)
        wanted = -1
        while True:
            if wanted < 0 and b":" in b"".join(parts):
                length, _, rest = b"".join(parts).partition(b":")
                wanted, parts, size = int(length), [rest], len(rest)
            if 0 <= wanted <= size:
                data = b"".join(parts)
                self.rest = data[wanted:]
                return json.loads(data[:wanted])
            try:
                self.socket.settimeout(max(until - time.monotonic(), 0.01))
                piece = self.socket.recv(1 << 16)
            except socket.timeout:
                raise Gone("it does not answer") from None
            except OSError:
                piece = b""
            if not piece:
                raise Gone("it has ended")
            parts.append(piece)
            size += len(piece)

    def end(self) -> None:
        """Ends the browser: by its own word, or else by a signal to what was started here."""
        if self.socket is not None:
            with contextlib.suppress(Gone, OSError):
                self.ask("Marionette:Quit", 5, flags=["eForceQuit"])
            self.socket.close()
            with contextlib.suppress(subprocess.TimeoutExpired):
                self.run.wait(5)
        with contextlib.suppress(ProcessLookupError):
            os.killpg(self.run.pid, signal.SIGKILL)
        self.run.wait()


EVALUATE = """\
const wgsimDone = arguments[arguments.length - 1];
Promise.resolve(%s).then(value => wgsimDone({ value }), error => wgsimDone({ failed: String(error && error.message || error) }));
"""
