"""What a hunt has found, in its folder: hunt.json, where it is and what it met how often, and of each difference a folder with the smallest
script that shows it, two pages, and a report."""

from __future__ import annotations

import json
import os
import pathlib
import re
from typing import Any

from wgsim import TOP, exit_status
from wgsim.reading import rules

from . import differences, smaller, written_pages
from .core import Answered, Flat
from .differences import Difference
from .messages import Done

STATE, FORM = "hunt.json", 1


class Findings:
    """The folder of a hunt."""

    def __init__(self, name: str, seed: int) -> None:
        self.folder = pathlib.Path(name)
        self.state: dict[str, Any] = {"form": FORM, "seed": seed, "next": 0}
        self.state.update({part: {} for part in ("counts", "left", "found", "known", "about")})
        self.read()

    def read(self) -> None:
        """Takes up a hunt that is there. A folder that is none, and not empty, is refused."""
        state = self.folder / STATE
        try:
            if state.is_file():
                told = json.loads(state.read_text(encoding="utf-8"))
                if not isinstance(told, dict) or told.get("form") != FORM:
                    raise exit_status.End(exit_status.UNREAD, f"{state} is of no hunt")
                self.state = told
            elif self.folder.exists() and (not self.folder.is_dir() or any(self.folder.iterdir())):
                raise exit_status.End(exit_status.UNWRITTEN, f"{self.folder} is not empty, and not of a hunt: nothing is written there")
            else:
                self.folder.mkdir(parents=True, exist_ok=True)
        except ValueError:
            raise exit_status.End(exit_status.UNREAD, f"{state} is of no hunt") from None
        except OSError as error:
            raise exit_status.End(exit_status.UNWRITTEN, f"{self.folder}: {error.strerror}") from None

    def save(self) -> None:
        """Writes where the hunt is; the file is whole at each time."""
        path = self.folder / STATE
        beside = path.with_suffix(".new")
        beside.write_text(json.dumps(self.state, indent=1, ensure_ascii=False) + "\n", encoding="utf-8")
        os.replace(beside, path)

    def count(self, what: str, times: int = 1) -> None:
        self.state["counts"][what] = self.state["counts"].get(what, 0) + times

    def take(self, done: Done) -> None:
        """Counts what some scripts came to."""
        for part, counted in (("counts", done.counts), ("left", done.left), ("known", done.known)):
            for what, times in counted.items():
                self.state[part][what] = self.state[part].get(what, 0) + times
        for key, times in done.met.items():
            if key in self.state["found"]:
                self.state["found"][key]["times"] += times

    def calls_of(self, key: str) -> int:
        """How many calls the script has that is kept of a difference."""
        return self.state["found"][key]["calls"]

    def add(self, answered: Answered, difference: Difference, number: int, source: str) -> str:
        """Writes a new difference, or a smaller script of one that is there. Returns its name."""
        key, found = difference.key(), self.state["found"]
        kept = found.get(key)
        name = kept["name"] if kept is not None else self.new_name(difference)
        times = kept["times"] if kept is not None else 0
        found[key] = {
            "name": name, "times": times, "calls": len(answered.flat.calls), "script": number, "of": source, "core": difference.core,
            "other": difference.other,
        }
        self.write(name, answered, difference, found[key])
        self.save()
        return name

    def new_name(self, difference: Difference) -> str:
        first = re.sub(r"[^\w-]", "-", difference.name())
        given = {row["name"] for row in self.state["found"].values()}
        return next(name for name in (first, *(f"{first}-{n}" for n in range(2, 10**6))) if name not in given)

    def write(self, name: str, answered: Answered, difference: Difference, row: dict[str, Any]) -> None:
        """Writes the four files of a difference."""
        folder = self.folder / name
        folder.mkdir(exist_ok=True)
        flat = Flat(smaller.renamed(answered.flat.calls), answered.flat.limits)
        named = Answered(flat, smaller.renamed(answered.whole), list(answered.entry_of), [e.line for e in answered.entry_of.values()])
        title = f"{difference.word}: {difference.kind}"
        about = f"The core {difference.core}; the other {difference.other.splitlines()[0] if difference.other else ''}."
        (folder / "script.json").write_bytes(flat.data())
        (folder / "report.md").write_text(self.report(name, named, difference, row), encoding="utf-8")
        (folder / "page.html").write_text(written_pages.page(title, named, difference, about), encoding="utf-8")
        (folder / "wpt.html").write_text(written_pages.test(title, named, difference), encoding="utf-8")

    def report(self, name: str, answered: Answered, difference: Difference, row: dict[str, Any]) -> str:
        """Both answers, the rule's words and section, versions, and how often it was met."""
        where = f"call {difference.number}, `{difference.word}`" if difference.number is not None else "the whole script"
        lines = [f"# {name}", "", f"{difference.kind[:1].upper()}{difference.kind[1:]}: {where}.", ""]
        lines += ["| | Answer |", "|---|---|", f"| core | {cell(difference.core)} |", f"| {self.other()} | {cell(difference.other)} |", ""]
        lines += told_rule(difference)
        lines += ["The script (`script.json`; `./wgsim explain script.json` tells more):", "", "```"]
        lines += [json.dumps(call) for call in answered.flat.calls] + ["```", ""]
        version = (TOP / "VERSION").read_text(encoding="utf-8").strip()
        lines += [f"Wethlorn {version}; {self.state['about'].get('browser', self.state['about'].get('command', ''))};"]
        lines += [f"adapter {self.state['about'].get('adapter') or 'of no name'}."]
        lines += [f"Met first in script {row['script']} of seed {self.state['seed']},"]
        lines += [f"{row['of']}; `hunt.json` has how often.", ""]
        return "\n".join(lines)

    def other(self) -> str:
        return "engine" if "command" in self.state["about"] else "browser"


def cell(text: str) -> str:
    """A text in one cell of a table."""
    return " ".join(text.replace("|", "\\|").split())


def told_rule(difference: Difference) -> list[str]:
    """The words of the rule and its section of the standard."""
    # Of a scope and of a promise the message has both answers, which the table has.
    has_words = bool(difference.message) and difference.kind not in (differences.SCOPE, differences.SETTLED)
    if difference.rule is None:
        return ["The other says:", "", "```", difference.message.strip(), "```", ""] if has_words else []
    word = differences_call(difference)
    return [f"Rule {rule_line(difference.rule, each)}" for each in rules.of(difference.rule, word)[:2]] + [""]


def differences_call(difference: Difference) -> str | None:
    """The call whose row of the rules is told: of a finish the rule is that of a command."""
    return difference.word if difference.word not in ("finish", "finishBundle") else None


def rule_line(number: int, rule: rules.Rule) -> str:
    return f"{number} asks of {rule.label}: {rule.asks} ({rules.section(rule)})."


def summary(findings: Findings) -> str:
    """What was found, in lines: each difference that is new, how often, and the counts."""
    state = findings.state
    found = state["found"].values()
    lines = [f"{row['name']}: {row['times']} times; core {row['core']}; other {cell(row['other'])[:200]}" for row in found]
    lines += [f"known: {name}: {times} times" for name, times in sorted(state["known"].items())]
    lines += [f"left out: {what}: {times} times" for what, times in sorted(state["left"].items())]
    counts = ", ".join(f"{times} {what}" for what, times in state["counts"].items())
    return "".join(line + "\n" for line in [*lines, f"{counts or 'nothing was played'}; {len(state['found'])} differences"])


__all__ = ["Findings", "summary", "differences"]
