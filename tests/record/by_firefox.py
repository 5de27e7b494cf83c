"""Recording by Firefox: the tool's own part against one that is none, and pages in a real one, where that is installed."""

import json
import os
import pathlib
import re
import shutil

from wgsim import exit_status
from wgsim.recorder import browser

PARTS = pathlib.Path(__file__).resolve().parent
FAKE = PARTS / "fake-firefox"
PATH = next(filter(None, map(shutil.which, browser.FIREFOX)), None)
# Pages that are recorded in a real one, with the format of canvases that it takes without a screen.
PAGES = ("resize", "maps", "queries")


def recording(parts):
    """What a recorder hands over, of a recording that is kept."""
    script, answers, calls = (
        json.loads((parts / f"recordings/resize{suffix}.json").read_text(encoding="utf-8")) for suffix in ("", ".answers", ".calls")
    )
    rest = {key: value for key, value in answers.items() if key not in ("form", "page", "browser", "elsewhere", "said")}
    return {"form": 1, "browser": answers["browser"], "recordings": [{**rest, "script": script, "calls": calls["calls"]}]}


def test_fake(folder, check, wgsim):
    """What a Firefox says comes into the files, with what the page asked for elsewhere; one that ends is told, and so is one that has no
    WebGPU."""
    saved, page, out = folder / "saved.json", PARTS / "pages/resize.html", folder / "out"
    os.environ["RECORDING"] = str(saved)
    saved.write_text(json.dumps(recording(PARTS)), encoding="utf-8")
    told = wgsim("record", "--browser", FAKE, "--out", out, page)[0]
    for words in (
        "resize.json: 42 calls; 2 of them made an error", "the page asked for http://192.0.2.1/library.js",
        "the page failed: Error: it failed",
    ):
        check(words in told, f"record by a Firefox does not say `{words}`: {told}")
    for name in ("resize.json", "resize.calls.json"):
        check((out / name).read_bytes() == (PARTS / "recordings" / name).read_bytes(), f"by a Firefox: {name} is another")
    for lacks, words in (("WebGPU", "this browser has no WebGPU"), ("a secure address", "on secure addresses alone")):
        saved.write_text(json.dumps({"form": 1, "browser": "", "lacks": lacks, "recordings": []}), encoding="utf-8")
        told = wgsim("record", "--browser", FAKE, "--out", out, page, status=exit_status.UNREAD)[1]
        check("nothing was recorded: " in told and words in told, f"record without {lacks}: {told}")
    os.environ["ENDS"] = "1"
    try:
        told = wgsim("record", "--browser", FAKE, "--out", out, page, status=exit_status.NO_ANSWER)[1]
        check("it has ended; Firefox 153 does so without a screen where" in told, f"record by a Firefox that ends: {told}")
    finally:
        del os.environ["ENDS"]


def test_real(folder, check, wgsim, verdicts, brief, expected, in_pages):
    """Pages have the verdicts in Firefox that they have in Chromium, and each place is in the line of its word."""
    out = folder / "out"
    for path in (PARTS / "pages").iterdir():
        (folder / path.name).write_text(path.read_text(encoding="utf-8").replace("rgba8unorm", "bgra8unorm"), encoding="utf-8")
    for name in PAGES:
        wgsim("record", "--browser", "firefox", "--seconds", 300, "--out", out, folder / f"{name}.html")
    for name, one in verdicts(out, 0).items():
        check(brief(one) == expected[name], f"by Firefox: {name}: {brief(one)}, and {expected[name]} is wanted")
    lines = (folder / "resize.html").read_text(encoding="utf-8").splitlines()
    script, calls = (json.loads((out / f"resize{suffix}.json").read_text(encoding="utf-8")) for suffix in ("", ".calls"))
    for call, place in zip(script["phases"][0][0], calls["calls"]):
        if "at" in place and not place.get("implied") and place["at"].startswith("resize.html"):
            line = lines[int(re.match(r"resize\.html:(\d+):", place["at"])[1]) - 1]
            is_there = in_pages.get(call["do"], call["do"]) in line
            check(is_there, f"by Firefox: {call['do']} is said to be at {place['at']}, where `{line}` stands")
    (folder / "none.html").write_text("<p>nothing", encoding="utf-8")
    words = ("--browser", "firefox", "--seconds", 2, "--out", folder, folder / "none.html")
    told = wgsim("record", *words, status=exit_status.DIFFERENT)[0]
    check("nothing was recorded: the page opened no device of WebGPU" in told, f"record by Firefox of a page without WebGPU: {told}")
