"""Looks at pictures in headless Chromium: of each example, of pages that were recorded, and of a script of some thousand steps.

Each picture is opened in windows of 800, 1,200 and 2,000 pixels. No two texts and no two boxes of it may overlap, each
barrier stands in the column of its step, all that the report has is shown, the first fault is in view in a window of 1,280
by 800, and the filters and folds do what they say.
With --shots each picture is also written to FOLDER as a PNG file of each width, for the eye. Without --program the
program is the unproved one. Where no Chromium is installed nothing is looked at, and that is said. Prints a line for
each finding, and fails if there is one.
"""

import argparse
import contextlib
import http.server
import json
import os
import pathlib
import shutil
import signal
import subprocess
import sys
import tempfile
import threading
import urllib.parse

import long

from wgsim.pages import picture
from wgsim.program import program as programs
from wgsim.reading import places
from wgsim.reading import report as reports

TOP = pathlib.Path(__file__).resolve().parents[2]
PARTS = pathlib.Path(__file__).resolve().parent


BROWSERS = ("chromium", "chromium-browser", "google-chrome", "google-chrome-stable")
FLAGS = ("--headless", "--no-sandbox", "--disable-gpu", "--disable-dev-shm-usage", "--no-first-run", "--no-proxy-server")
WIDTHS = (800, 1200, 2000)
# The pictures of which the filters are tried, and the rounds of the long script.
FILTERED = {"first-frame", "compute-pass", "long"}
# Recordings of pages, each with how many faults are shown: what comes in each frame once, and what only follows in short.
RECORDED = {"resize": 2, "outside": 6, "canvases": 1}
ROUNDS = 600
# What a look at all pictures takes at most, in seconds.
LONGEST = 600
DARK = "--blink-settings=preferredColorScheme=0"
DRIVER = "<!DOCTYPE html><meta charset='utf-8'><title>driver</title><body><script src='/look.js'></script><script src='/drive.js'></script>"


class Picture:
    """A picture, with the counts of the report that it is of, and how many faults it shows at once, where that is known."""

    def __init__(self, name, page, counts, faults):
        self.name, self.page, self.counts, self.faults = name, page, counts, faults


def drawn(name, path, data, program, faults=None):
    """The picture of a script, which lies at a path, and the counts of its report."""
    page, status = picture.picture(places.Text(data, path), data, program)
    counts = reports.Report(program.ask(data)[1].decode("utf-8")).counts() if status == 0 else {}
    return Picture(name, page.encode("utf-8"), counts, faults)


def pictures(named):
    """The pictures to look at: of each example, of the pages that were recorded, and of the long script."""
    if named:
        os.environ[programs.NAMED] = str(pathlib.Path(named).resolve())
    program = programs.Program(not named)
    scripts = {path.stem: path.read_bytes() for path in sorted((TOP / "examples").glob("*.json"))}
    scripts["long"] = long.script(ROUNDS).encode("utf-8")
    shown = [drawn(name, name, data, program) for name, data in scripts.items()]
    recorded = [(TOP / f"tests/record/recordings/{name}.json", faults) for name, faults in RECORDED.items()]
    return shown + [drawn(f"page-{path.stem}", str(path), path.read_bytes(), program, faults) for path, faults in recorded]


class Server(http.server.ThreadingHTTPServer):
    """Serves the pictures and the script that looks at them to one browser, and takes what it found."""

    daemon_threads = True

    def __init__(self, shown):
        super().__init__(("127.0.0.1", 0), Handler)
        self.texts = {"/": (DRIVER.encode(), "text/html"), "/favicon.ico": (b"", "image/x-icon")}
        for name in ("look.js", "drive.js"):
            self.texts[f"/{name}"] = ((PARTS / name).read_bytes(), "text/javascript")
        self.texts["/list"] = (
            json.dumps(
                [
                    {"name": each.name, "counts": each.counts, "faults": each.faults, "isFiltered": each.name in FILTERED}
                    for each in shown
                ]
            ).encode(),
            "application/json",
        )
        for each in shown:
            self.texts[f"/pictures/{each.name}"] = (each.page, "text/html; charset=utf-8")
        self.strange = []
        self.answer = None
        self.is_done = threading.Event()


class Handler(http.server.BaseHTTPRequestHandler):
    def do_GET(self):
        path = urllib.parse.unquote(self.path)
        data, kind = self.server.texts.get(path, (b"", ""))
        if not kind:
            self.server.strange.append(path)
        self.send_response(200 if kind else 404)
        self.send_header("Content-Type", kind or "text/plain")
        self.send_header("Content-Length", str(len(data)))
        self.end_headers()
        self.wfile.write(data)

    def do_POST(self):
        self.server.answer = json.loads(self.rfile.read(int(self.headers["Content-Length"])))
        self.send_response(204)
        self.end_headers()
        self.server.is_done.set()

    def log_message(self, *words):
        pass


@contextlib.contextmanager
def browsing(browser, folder, *words):
    """A browser that this test started, and that ends with it."""
    quiet = {"stdin": subprocess.DEVNULL, "stdout": subprocess.DEVNULL, "stderr": subprocess.DEVNULL}
    with subprocess.Popen([browser, *FLAGS, f"--user-data-dir={folder}", *words], start_new_session=True, **quiet) as run:
        try:
            yield run
        finally:
            with contextlib.suppress(ProcessLookupError):
                os.killpg(run.pid, 15)


def looked(browser, shown, folder, *words):
    """What a browser finds of the pictures."""
    server = Server(shown)
    threading.Thread(target=server.serve_forever, daemon=True).start()
    with browsing(browser, folder, *words, "--window-size=2100,1100", f"http://127.0.0.1:{server.server_address[1]}/"):
        if not server.is_done.wait(LONGEST):
            return [f"the browser told nothing within {LONGEST} seconds"]
    server.shutdown()
    server.server_close()
    for each in server.answer["pictures"]:
        if "opening" in each:
            print(
                f"{each['name']}: {each['counts']['steps']} steps, opened in {each['milliseconds']} ms, all groups in {each['opening']} ms"
            )
    found = server.answer["found"] + [f"a page asks for {path}" for path in server.strange]
    is_dark = server.answer.get("isDark", False)
    return found + [f"the browser does not take {DARK}"] * (DARK in words and not is_dark)


def shoot(browser, shown, folder, shots):
    """Writes each picture as a PNG file of each width."""
    shots.mkdir(parents=True, exist_ok=True)
    for each in shown:
        path = folder / f"{each.name}.html"
        path.write_bytes(each.page)
        for width in WIDTHS:
            out = shots / f"{each.name}-{width}.png"
            with browsing(
                browser, folder / "profile", "--hide-scrollbars", f"--screenshot={out}", f"--window-size={width},1600", path.as_uri()
            ) as run:
                run.wait(120)


def main():
    signal.signal(signal.SIGTERM, lambda number, _: sys.exit(128 + number))
    words = argparse.ArgumentParser(prog="tests/pictures/run", description=__doc__, formatter_class=argparse.RawDescriptionHelpFormatter)
    words.add_argument("--program")
    words.add_argument("--shots", type=pathlib.Path)
    asked = words.parse_args()
    browser = next(filter(None, map(shutil.which, BROWSERS)), None)
    if browser is None:
        print(f"tests of pictures: SKIPPED, since none of {', '.join(BROWSERS)} is installed")
        return 0
    with tempfile.TemporaryDirectory(prefix="pictures-") as room:
        folder = pathlib.Path(room)
        shown = pictures(asked.program)
        found = looked(browser, shown, folder / "light")
        found += looked(browser, shown, folder / "dark", DARK)
        if asked.shots:
            shoot(browser, shown, folder, asked.shots)
    for finding in found:
        print(finding)
    print(f"tests of pictures: {len(found)} findings")
    return 1 if found else 0


sys.exit(main())
