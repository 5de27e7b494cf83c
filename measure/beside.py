"""The calls of `measure/loop.c` by a page in Chromium, whose process for graphics has the implementation of WebGPU with its validation.

What that process takes of a processor stands beside what the same calls take through C. Both are measured in turn, in one run.
"""

import contextlib
import os
import pathlib
import resource
import shutil
import sys
import tempfile
import time
from typing import Dict, Iterator, List, Tuple

import through_c
from wgsim.recorder import browser, visit

PAGE = pathlib.Path(__file__).resolve().parent / "beside.html"
# The kinds of calls that a page can make, and what the figure of the browser has beside them.
KINDS = {
    "rounds": "with what its driver does of them",
    "dispatches": "",
    "copies": "",
    "writes": "with what its driver does of them",
    "encoders": "",
    "groups": "with what collects them",
}
# So many calls are made at once, and so often.
CALLS, TIMES = 16_000, 10
# So many objects are made before what is left of them is collected.
COLLECTED = 4_000
SECONDS = 600


class Page:
    """The page in a browser, with the process that does its calls."""

    def __init__(self, browsing: browser.Browser, address: str) -> None:
        self.browsing = browsing
        target = browsing.ask("Target.createTarget", url="about:blank")["targetId"]
        self.session = browsing.ask("Target.attachToTarget", targetId=target, flatten=True)["sessionId"]
        browsing.ask("Page.enable", self.session)
        browsing.ask("Page.navigate", self.session, url=address)
        while self.asked("typeof open === 'function' && typeof KINDS === 'object'") is not True:
            time.sleep(0.1)
        said = self.asked("open()")
        if said:
            sys.exit(f"nothing could be measured in the browser: {said}")
        self.process = self.graphics()

    def asked(self, expression: str) -> object:
        """The value of an expression of the page, once it is there."""
        words = {"expression": expression, "awaitPromise": True, "returnByValue": True}
        told = self.browsing.ask("Runtime.evaluate", self.session, SECONDS, **words)
        return told["result"].get("description" if "exceptionDetails" in told else "value")

    def graphics(self) -> int:
        """The number of the process that does the calls."""
        for one in self.browsing.ask("SystemInfo.getProcessInfo")["processInfo"]:
            if one["type"].lower() == "gpu":
                return int(one["id"])
        sys.exit("nothing could be measured in the browser: it has no process for graphics")

    def threads(self) -> Dict[str, int]:
        """The nanoseconds of a processor that each thread of this process took so far."""
        found = {}
        for task in pathlib.Path(f"/proc/{self.process}/task").iterdir():
            with contextlib.suppress(OSError):
                found[task.name] = int((task / "schedstat").read_text(encoding="utf-8").split()[0])
        return found

    def collect(self) -> None:
        self.browsing.ask("HeapProfiler.collectGarbage", self.session, SECONDS)

    def driven(self, kind: str, count: int) -> None:
        said = self.asked(f"drive({kind!r}, {count})")
        if said:
            sys.exit(f"{kind} in the browser: {said}")

    def took(self, kind: str, count: int) -> float:
        """The seconds of a processor that so many calls took. What they leave is collected later, unless its end is counted too."""
        parts = [COLLECTED] * (count // COLLECTED) if kind == "groups" else [count]
        before = self.threads()
        for part in parts:
            self.driven(kind, part)
            if kind == "groups":
                self.collect()
                self.driven(kind, 0)
        after = self.threads()
        self.asked("release()")
        self.collect()
        self.driven(kind, 0)
        return sum(took - before.get(thread, 0) for thread, took in after.items()) / 1e9


@contextlib.contextmanager
def profile() -> Iterator[str]:
    """A folder for what a browser keeps, of which that may be left which it still writes while it ends."""
    folder = tempfile.mkdtemp(prefix="beside-")
    try:
        yield folder
    finally:
        shutil.rmtree(folder, ignore_errors=True)


@contextlib.contextmanager
def opened(named: str) -> Iterator[Page]:
    """The page in a browser that is named, or one that is installed."""
    path = browser.found(named)
    if path is None:
        sys.exit(f"none of {', '.join(browser.NAMES)} is installed (Debian: apt-get install chromium)")
    with profile() as folder, visit.served(str(PAGE)) as address, browser.opened(path, folder) as browsing:
        yield Page(browsing, address)


def of_children() -> float:
    used = resource.getrusage(resource.RUSAGE_CHILDREN)
    return used.ru_utime + used.ru_stime


def through(loop: through_c.Loop, kind: str, count: int) -> float:
    """The seconds of a processor that so many calls take through C, beyond what a start takes."""
    times = [of_children()]
    for each in (count, 0):
        loop.said(kind, each)
        times.append(of_children())
    return times[1] - times[0] - (times[2] - times[1])


def both(loop: through_c.Loop, page: Page, kind: str) -> Tuple[float, float]:
    """The microseconds that a call takes in the browser and through C, in turn, after one that counts for nothing."""
    page.took(kind, CALLS)
    found: List[Tuple[float, float]] = [(page.took(kind, CALLS), through(loop, kind, CALLS)) for _ in range(TIMES)]
    browsers, ours = (sum(side) / TIMES / CALLS * 1e6 for side in zip(*found))
    return browsers, ours


def table(loop: through_c.Loop, named: str, only: str = "") -> str:
    """The table of what one of each kind takes in the browser and through C."""
    lines = ["| Kind | What one is | In the browser, microseconds | Through C | Against the browser |", "|---|---|--:|--:|--:|"]
    with opened(named) as page:
        product = page.browsing.ask("Browser.getVersion")["product"]
        for kind, more in KINDS.items():
            if only in kind:
                browsers, ours = both(loop, page, kind)
                what = through_c.COUNTED[kind] + (f"; in the browser {more}" if more else "")
                lines.append(f"| `{kind}` | {what} | {browsers:.1f} | {ours:.1f} | {ours / max(browsers, 0.01):.2f} |")
                print(lines[-1], file=sys.stderr, flush=True)
    measured = f"{TIMES} times {CALLS:,} of each kind, processor time of its process for graphics"
    return "\n".join([f"{product.replace('/', ' ')}, {measured}; load {os.getloadavg()[0]:.1f}.", "", *lines])
