"""Opens a page, a file or an address of this machine, in Chromium or Firefox, and writes what it asks of WebGPU as a script NAME.json, with
NAME.answers.json and NAME.calls.json.

--saved writes these of a file that wgsimRecord.save() saved, and --one-file writes wgsim-record.js, the recorder for a page of any browser.
"""

from __future__ import annotations

import argparse
import re
from typing import Callable

from wgsim import exit_status, inputs

HELP = "what a page asks of WebGPU, as a script"
BY_PROGRAM = False


def add_words(parser: argparse.ArgumentParser) -> None:
    parser.add_argument("--out", metavar="FOLDER", help="where the files are written; else here")
    parser.add_argument("--browser", metavar="PATH", help="another browser than the Chromium that is installed, as firefox")
    parser.add_argument("--frames", metavar="N", help="after how many frames it ends: 3")
    parser.add_argument("--seconds", metavar="N", help="after how many seconds it ends at most: 30")
    parser.add_argument("--saved", action="store_true", help="of a file that was saved")
    parser.add_argument("--one-file", action="store_true", help="the recorder, to standard output")
    parser.add_argument("page", nargs="?", metavar="PAGE", help="a page, or a file that was saved")


def test(words: argparse.Namespace, wrong: Callable[[str], None]) -> None:
    """The words that go together: a page, a file that was saved, or neither."""
    of_browser = [words.browser, words.frames, words.seconds]
    if words.one_file and (words.page is not None or words.saved or any(word is not None for word in [words.out, *of_browser])):
        wrong("record --one-file takes no further word")
    if not words.one_file and words.page is None:
        wrong("record needs a page")
    if words.saved and any(word is not None for word in of_browser):
        wrong("record --saved opens no browser")
    for name, word in (("--frames", words.frames), ("--seconds", words.seconds)):
        if word is not None and not re.fullmatch(r"[1-9][0-9]{0,4}", word):
            wrong(f"{name} has a number from 1 to 99999, and not {word}")


def act(words: argparse.Namespace) -> int:
    from wgsim.recorder import visit, whole_text

    if words.one_file:
        inputs.write(whole_text.text())
        return exit_status.SAME
    if words.saved:
        found = visit.saved(*inputs.read(words.page, "a recording"))
    else:
        numbers = {name: int(word) for name, word in (("frames", words.frames), ("seconds", words.seconds)) if word is not None}
        found = visit.recorded(words.page, words.browser, **numbers)
    name = visit.name_of(found["page"] if words.page == inputs.STANDARD else words.page)
    written = visit.write(found, name, "." if words.out is None else words.out)
    inputs.write(visit.told(found, written))
    return exit_status.SAME if written else exit_status.DIFFERENT
