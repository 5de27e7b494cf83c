"""Makes scripts at random, has a browser play them, and compares each answer with the core's. Each difference is made small, and written
down in a folder with a page that shows it. docs/hunting.md has all of it.

Where no program is proved, the second reading answers first, and the program without proofs is asked of each difference.
"""

from __future__ import annotations

import re
from typing import TYPE_CHECKING, Callable, NoReturn

from wgsim import exit_status, inputs
from wgsim.program.program import Program

if TYPE_CHECKING:
    import argparse

HELP = "scripts at random, played by a browser or an engine"
BY_PROGRAM = True
SCRIPTS, SEED, FOLDER = 1000, 1, "hunt"


def add_words(parser: argparse.ArgumentParser) -> None:
    parser.add_argument("--browser", metavar="BROWSER", help="chromium or firefox, or the path of one, or of a browser like it")
    parser.add_argument("--command", dest="engine", metavar="PROGRAM", help="hunts a command that reads a script and writes a report")
    parser.add_argument("--traces", action="store_true", help="has `check` judge the traces of the command too")
    parser.add_argument("--seed", metavar="N", help=f"of what the scripts are made: {SEED}")
    parser.add_argument("--scripts", metavar="N", help=f"how many scripts are played: {SCRIPTS}")
    parser.add_argument("--minutes", metavar="M", help="or for how many minutes")
    parser.add_argument("--jobs", metavar="N", help="how many processes play side by side, each with its own browser: one for a processor")
    parser.add_argument("--patience", metavar="N", help="waits N times as long for a browser, on a machine that has much else to do")
    parser.add_argument("--of", metavar="CALLS", help="scripts with one of these calls alone, parted by commas")
    parser.add_argument("--from", dest="kept", metavar="FOLDER", help="mutations of the scripts in a folder too")
    parser.add_argument("--out", metavar="FOLDER", help=f"where what is found is written: {FOLDER}; one of an earlier hunt goes on")


def test(words: argparse.Namespace, wrong: Callable[[str], NoReturn]) -> None:
    """The words that go together."""
    for name in ("seed", "scripts", "minutes", "jobs", "patience"):
        word = getattr(words, name)
        if word is not None and not re.fullmatch(r"[0-9]{1,9}", word) or word == "0":
            wrong(f"--{name} has a number from 1 to 999999999, and not {word}")
    if words.scripts is not None and words.minutes is not None:
        wrong("--scripts and --minutes are two ends")
    if words.engine is not None and words.browser is not None:
        wrong("--command and --browser are two that are hunted")
    if words.traces and words.engine is None:
        wrong("--traces is of a --command: no browser shows a trace")


def act(words: argparse.Namespace) -> int:
    from wgsim.hunting import browsers, core, engines, findings, hunt, messages, sources, workers

    of = sources.calls_named(words.of) if words.of is not None else ()
    if words.kept is not None:
        sources.kept_in(words.kept)
    path = browsers.path_of(words.browser) if words.engine is None else None
    if words.engine is not None:
        engines.words_of(words.engine)
    program = Program(words.is_unproved)
    found = findings.Findings(words.out or FOLDER, int(words.seed or SEED))
    program.ready()
    settings = messages.Settings(
        found.state["seed"], of, words.kept, path, words.engine, words.traces, words.is_unproved, program.is_unproved,
        int(words.patience or 1),
    )
    confirm = core.Core(program) if program.is_unproved else None
    hunting = hunt.Hunt(settings, confirm, found, lambda line: inputs.write(line + "\n"))
    minutes = int(words.minutes) if words.minutes is not None else None
    scripts = None if minutes is not None else int(words.scripts or SCRIPTS)
    try:
        hunting.run(scripts, minutes, int(words.jobs) if words.jobs is not None else workers.most())
    finally:
        found.save()
        hunting.clear()
        inputs.write(findings.summary(found))
    return exit_status.DIFFERENT if found.state["found"] else exit_status.SAME
