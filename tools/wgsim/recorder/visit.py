"""`wgsim record`: what a page asks of WebGPU in a browser is written down as a script, with what the browser answered and from where it was
called."""

from __future__ import annotations

import contextlib
import functools
import http.server
import ipaddress
import json
import os
import pathlib
import re
import shutil
import tempfile
import threading
import time
import urllib.parse
import urllib.request
from typing import Any, Iterator

from wgsim import exit_status
from wgsim.recorder import browser, firefox, source_maps, whole_text

FRAMES, SECONDS, IDLE = 3, 30, 1000
# How long a browser's answers are waited for at the end, in milliseconds; and what it takes to start and to hand over what was recorded, in
# seconds.
PATIENCE, BESIDE = 30000, 75
HAND = "wgsimRecordHand"
# Why nothing was recorded, by what the recorder found no WebGPU without.
WHY_NONE = {
    "WebGPU": "this browser has no WebGPU, or has it switched off",
    "a secure address": "WebGPU is there on secure addresses alone, as https ones and those of this machine",
}


def is_here(address: str) -> bool:
    """Whether an address is of this machine."""
    host = urllib.parse.urlsplit(address).hostname or ""
    with contextlib.suppress(ValueError):
        return ipaddress.ip_address(host).is_loopback
    return host == "localhost"


class Files(http.server.SimpleHTTPRequestHandler):
    """Serves the folder of a page to the browser alone, and says nothing of it."""

    extensions_map = {
        **http.server.SimpleHTTPRequestHandler.extensions_map,
        ".js": "text/javascript",
        ".mjs": "text/javascript",
        ".wasm": "application/wasm",
        ".wgsl": "text/plain",
    }

    def do_GET(self) -> None:
        """Gives a file. The script of a worker comes with the recorder before it."""
        path = pathlib.Path(self.translate_path(self.path))
        if self.headers.get("Sec-Fetch-Dest") != "worker" or not path.is_file():
            super().do_GET()
            return
        script = path.read_bytes()
        data = whole_text.before_worker(script) + script
        self.send_response(200)
        self.send_header("Content-Type", self.guess_type(str(path)))
        self.send_header("Content-Length", str(len(data)))
        self.end_headers()
        self.wfile.write(data)

    def log_message(self, *words: Any) -> None:
        pass

    def end_headers(self) -> None:
        self.send_header("Cache-Control", "no-store")
        super().end_headers()


@contextlib.contextmanager
def served(page: str) -> Iterator[str]:
    """The address at which a browser finds a page: its own, or that of its folder, which is served on this machine meanwhile."""
    if re.match(r"https?://", page):
        if not is_here(page):
            raise exit_status.End(
                exit_status.WORDS,
                f"{page} is not of this machine; a page of another one is recorded by hand, with `wgsim record --one-file`",
            )
        yield page
        return
    path = pathlib.Path(page)
    if not path.is_file():
        raise exit_status.End(exit_status.UNREAD, f"{page}: there is no such file")
    server = http.server.ThreadingHTTPServer(("127.0.0.1", 0), functools.partial(Files, directory=str(path.resolve().parent)))
    server.daemon_threads = True
    threading.Thread(target=server.serve_forever, daemon=True).start()
    try:
        yield f"http://127.0.0.1:{server.server_address[1]}/{urllib.parse.quote(path.name)}"
    finally:
        server.shutdown()
        server.server_close()


class Visit:
    """One visit of a page, with the recorder put before its scripts. `failed` says why the page cannot be opened."""

    def __init__(self, browsing: browser.Browser | firefox.Firefox, address: str) -> None:
        self.browsing, self.address = browsing, address
        self.elsewhere: list[str] = []
        self.said: list[str] = []
        self.failed: str | None = None

    def take(self, method: str, words: dict[str, Any]) -> str | None:
        """Takes a message, and returns what the recorder handed over by it, if it did."""
        raise NotImplementedError

    def asks(self, address: str) -> None:
        """Notes what the page asks for where it is not of this machine."""
        if re.match(r"(?:https?|wss?)://", address) and not is_here(address):
            self.elsewhere.append(address)

    def handed(self, seconds: float) -> dict[str, Any] | None:
        """What the recorder handed over, or None where it did not within some seconds, or the page cannot be opened."""
        until = time.monotonic() + seconds
        while not self.failed:
            told = self.browsing.next(until)
            if told is None:
                return None
            text = self.take(told.get("method", ""), told.get("params", {}))
            if text is not None:
                found = json.loads(text)
                if found["recordings"] or found["page"].split("#")[0] == self.address.split("#")[0]:
                    return found
        return None


class OfChromium(Visit):
    """A visit by the DevTools protocol."""

    def __init__(self, browsing: browser.Browser, address: str, asked: dict[str, Any]) -> None:
        super().__init__(browsing, address)
        target = browsing.ask("Target.createTarget", url="about:blank")["targetId"]
        session = browsing.ask("Target.attachToTarget", targetId=target, flatten=True)["sessionId"]
        for method in ("Page.enable", "Runtime.enable", "Network.enable"):
            browsing.ask(method, session)
        browsing.ask("Runtime.addBinding", session, name=HAND)
        browsing.ask("Page.addScriptToEvaluateOnNewDocument", session, source=whole_text.text(asked))
        self.failed = browsing.ask("Page.navigate", session, url=address).get("errorText")

    def take(self, method: str, words: dict[str, Any]) -> str | None:
        if method == "Runtime.bindingCalled" and words["name"] == HAND:
            return words["payload"]
        if method == "Network.requestWillBeSent":
            self.asks(words["request"]["url"])
        elif method == "Runtime.exceptionThrown":
            details = words["exceptionDetails"]
            self.said.append(details.get("exception", {}).get("description") or details["text"])
        return None


class OfFirefox(Visit):
    """A visit by WebDriver BiDi."""

    def __init__(self, browsing: firefox.Firefox, address: str, asked: dict[str, Any]) -> None:
        super().__init__(browsing, address)
        context = browsing.ask("browsingContext.getTree")["contexts"][0]["context"]
        browsing.ask("session.subscribe", events=list(firefox.EVENTS))
        recorder = f"hand => {{ globalThis.{HAND} = hand; (0, eval)({json.dumps(whole_text.text(asked))}); }}"
        channel = {"type": "channel", "value": {"channel": HAND}}
        browsing.ask("script.addPreloadScript", functionDeclaration=recorder, arguments=[channel])
        browsing.ask("browsingContext.navigate", context=context, url=address, wait="none")

    def take(self, method: str, words: dict[str, Any]) -> str | None:
        if method == "script.message" and words["channel"] == HAND:
            return words["data"]["value"]
        if method == "network.beforeRequestSent":
            self.asks(words["request"]["url"])
        elif method == "browsingContext.navigationFailed" and words["url"].split("#")[0] == self.address.split("#")[0]:
            self.failed = words.get("message") or "it does not say why"
        elif method == "log.entryAdded" and (words["type"], words["level"]) == ("javascript", "error"):
            self.said.append(words["text"])
        return None


@contextlib.contextmanager
def profile() -> Iterator[str]:
    """A folder for a browser, which may still write in it while it is taken away."""
    folder = tempfile.mkdtemp(prefix="wgsim-record-")
    try:
        yield folder
    finally:
        shutil.rmtree(folder, ignore_errors=True)


def recorded(page: str, named: str | None, frames: int = FRAMES, seconds: int = SECONDS) -> dict[str, Any]:
    """What a browser recorded of a page. A page that cannot be had is told before a browser is looked for."""
    asked = {"frames": frames, "seconds": seconds, "idle": IDLE, "patience": PATIENCE, "hand": HAND}
    with profile() as folder, served(page) as address:
        path = browser.found(named)
        if path is None:
            raise exit_status.End(
                exit_status.UNREAD,
                (
                    f"none of {', '.join(browser.NAMES)} is installed: on Debian `sudo apt-get install chromium` installs one; another one"
                    " is named by --browser, and `wgsim record --one-file` is for browsers of any kind"
                ),
            )
        try:
            driver, kind = (firefox.opened, OfFirefox) if firefox.is_one(path) else (browser.opened, OfChromium)
            with driver(path, os.path.join(folder, "profile")) as browsing:
                visit = kind(browsing, address, asked)
                found = None if visit.failed else visit.handed(seconds + BESIDE)
        except browser.Gone as gone:
            why = f"; {firefox.WHY_GONE}" if firefox.is_one(path) and str(gone) == browser.ENDED else ""
            raise exit_status.End(exit_status.NO_ANSWER, f"{path}: {gone}{why}") from None
    if visit.failed:
        raise exit_status.End(exit_status.UNREAD, f"{page}: the browser cannot open it: {visit.failed}")
    if found is None:
        raise exit_status.End(
            exit_status.NO_ANSWER,
            f"{page}: the browser told nothing within {seconds + BESIDE} seconds" + "".join(f"\n    {line}" for line in visit.said[:3]),
        )
    if not found["recordings"] and found.get("lacks") in WHY_NONE:
        raise exit_status.End(exit_status.UNREAD, f"{page}: nothing was recorded: {WHY_NONE[found['lacks']]}")
    is_file = address != page
    source_maps.Sources(in_folder(pathlib.Path(page).parent) if is_file else at_address(page)).of_recordings(found)
    if is_file:
        found["page"] = os.path.basename(page)
    found["elsewhere"], found["said"] = list(dict.fromkeys(visit.elsewhere)), visit.said[:10]
    return found


def in_folder(folder: pathlib.Path) -> source_maps.Has:
    """What has the files of a folder, and of those in it, by their names there."""
    top = folder.resolve()

    def has(name: str) -> bytes | None:
        try:
            path = (top / urllib.parse.unquote(name.partition("?")[0])).resolve()
            return path.read_bytes() if top in path.parents else None
        except (OSError, ValueError):
            return None

    return has


class Here(urllib.request.HTTPRedirectHandler):
    """Goes on to no address but those of this machine."""

    def redirect_request(self, *words: Any) -> urllib.request.Request | None:
        return super().redirect_request(*words) if is_here(words[-1]) else None


def at_address(page: str) -> source_maps.Has:
    """What has the files of a page at an address of this machine, by their names beside it or by their own addresses."""
    opener = urllib.request.build_opener(urllib.request.ProxyHandler({}), Here)

    def has(name: str) -> bytes | None:
        address = urllib.parse.urljoin(page, name)
        if not re.match(r"https?://", address) or not is_here(address):
            return None
        try:
            with opener.open(address, timeout=10) as answer:
                return answer.read()
        except (OSError, ValueError):
            return None

    return has


def saved(data: bytes, name: str) -> dict[str, Any]:
    """What was saved by hand, of the bytes of a file, by the sources that maps tell beside that."""
    try:
        found = json.loads(data)
        if found["form"] == 1 and isinstance(found["recordings"], list):
            source_maps.Sources(in_folder(pathlib.Path(name).parent)).of_recordings(found)
            return {"elsewhere": [], "said": [], **found}
    except (ValueError, KeyError, TypeError):
        pass
    raise exit_status.End(exit_status.UNREAD, f"{name} is no recording that `wgsimRecord.save()` saved")


def listed(items: list[Any]) -> str:
    """A list with an item in each line."""
    return "[\n" + ",\n".join(json.dumps(item, ensure_ascii=False) for item in items) + "\n]" if items else "[]"


def script_of(script: dict[str, Any]) -> str:
    """A script with a call in each line."""
    limits = f'"limits":{json.dumps(script["limits"])},' if "limits" in script else ""
    return f'{{"budget":{script["budget"]},{limits}"phases":[[{listed(script["phases"][0][0])}]]}}\n'


def object_of(told: dict[str, Any]) -> str:
    """An object with a key in each line, and an item of its lists too."""
    return (
        "{\n"
        + ",\n".join(
            f"{json.dumps(key)}: {listed(value) if isinstance(value, list) else json.dumps(value, ensure_ascii=False)}"
            for key, value in told.items()
        )
        + "\n}\n"
    )


def write(found: dict[str, Any], name: str, folder: str) -> list[tuple[pathlib.Path, dict[str, Any]]]:
    """Writes the files of each device of a page, and returns the names and what is in them."""
    out, written = pathlib.Path(folder), []
    try:
        out.mkdir(parents=True, exist_ok=True)
        for number, one in enumerate(found["recordings"]):
            own = name if number == 0 else f"{name}-{number + 1}"
            head = {"form": 1, "page": found["page"], "browser": found["browser"]}
            rest = {key: value for key, value in one.items() if key not in ("script", "calls")}
            (out / f"{own}.json").write_text(script_of(one["script"]), encoding="utf-8")
            (out / f"{own}.answers.json").write_text(
                object_of({**head, **rest, "elsewhere": found["elsewhere"], "said": found["said"]}), encoding="utf-8"
            )
            (out / f"{own}.calls.json").write_text(object_of({"form": 1, "page": found["page"], "calls": one["calls"]}), encoding="utf-8")
            written.append((out / f"{own}.json", one))
    except OSError as error:
        raise exit_status.End(exit_status.UNWRITTEN, f"{error.filename}: {error.strerror}") from None
    return written


def told(found: dict[str, Any], written: list[tuple[pathlib.Path, dict[str, Any]]]) -> str:
    """What was recorded, in lines."""
    lines = []
    for path, one in written:
        errors = sum("error" in answer or "throws" in answer for answer in one["answers"])
        passed = f", and {len(one['passed'])} that a script cannot say" if one["passed"] else ""
        unanswered = sum("unanswered" in answer for answer in one["answers"])
        late = f"; to {unanswered} of them the browser had no answer when it ended" if unanswered else ""
        lines.append(
            f"{path}: {len(one['calls'])} calls{passed}; {errors} of them made an error in the browser{late}; it ended because:"
            f" {one['ended']['why']}"
        )
    if not written:
        lines.append("nothing was recorded: the page opened no device of WebGPU")
    lines += [f"the page asked for {address}, which is not of this machine, and did not get it" for address in found["elsewhere"]]
    lines += [f"the page failed: {line}" for text in found["said"] for line in text.splitlines()]
    return "".join(line + "\n" for line in lines)


def name_of(page: str) -> str:
    """The name of a recording, by the last part of its page's address."""
    last = urllib.parse.unquote(urllib.parse.urlsplit(page).path if re.match(r"https?://", page) else page).rstrip("/").split("/")[-1]
    return re.sub(r"[^\w.-]", "_", re.sub(r"\.(?:recording\.json|\w+)$", "", last)) or "page"
