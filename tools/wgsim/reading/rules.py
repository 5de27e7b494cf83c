"""The table of rules, docs/rules.json: what a rule asks, and the page docs/rules.md, which is made from it by `wgsim rules --page`."""

from __future__ import annotations

import copy
import functools
import json
import textwrap
from typing import Any

from wgsim import TOP

DOCS = TOP / "docs"
TABLE = json.loads((DOCS / "rules.json").read_text(encoding="utf-8"))
ABOVE = "as above"


class Rule:
    """A rule as one call tests it."""

    def __init__(self, call: dict[str, Any], row: dict[str, Any]) -> None:
        self.call = call["call"]
        self.label = call.get("label", self.call)
        self.numbers = row["rules"]
        self.asks = row["asks"]
        self.own_sections = row.get("section")
        self.sections = self.own_sections or call["section"]
        self.see = row.get("see", [])
        self.is_thrown = "throws" in row


RULES = [Rule(call, row) for part in TABLE["parts"] if "calls" in part for call in part["calls"] for row in call["rules"]]
# What a rule asks in words of its own, where calls have several sentences of it, or one that goes by another.
ALONE = {row["rule"]: row["asks"] for row in TABLE["alone"]}


@functools.lru_cache(maxsize=None)
def of(number: int, call: str | None = None) -> list[Rule]:
    """The rules of a number, those of a call alone if it has one; each with its whole sentence."""
    found = [rule for rule in RULES if number in rule.numbers]
    whole = next((rule for rule in found if not rule.asks.startswith(ABOVE)), None)
    found = [completed(rule, whole) if rule.asks.startswith(ABOVE) and whole is not None else rule for rule in found]
    own = [rule for rule in found if rule.call == call] or [rule for rule in found if rule.call == "*" and call]
    return own or found


def completed(rule: Rule, whole: Rule) -> Rule:
    """A rule whose words are `as above`, with those of the rule above in place of them. The table itself stays as it is: a row may have
    several numbers.

    The section is that of the rule's own call, but where the row above has one of its own."""
    made = copy.copy(rule)
    made.asks = whole.asks + rule.asks[len(ABOVE) :]
    made.sections, made.see = whole.own_sections or rule.sections, whole.see
    return made


def numbers() -> list[int]:
    """The numbers of all rules of a device, in order."""
    return sorted({number for rule in RULES for number in rule.numbers})


def sentence_of(number: int) -> str:
    """What a rule asks, for one who knows its number and not the call."""
    return ALONE.get(number) or of(number)[0].asks


def sections_of(number: int) -> list[str]:
    """The sections of the standard that have a rule, of all calls that test it."""
    return list(dict.fromkeys(each for rule in of(number) for each in rule.sections))


def section(rule: Rule) -> str:
    return "WebGPU, " + ", ".join(f'"{each}"' for each in rule.sections)


def notes(titles: set[str]) -> list[dict[str, Any]]:
    """The paragraphs of those titles."""
    return [part for part in TABLE["parts"] if part.get("title") in titles]


def script_rows(number: int) -> list[dict[str, Any]]:
    """The rows of a rule of scripts."""
    return [row for row in TABLE["scripts"] if row["rule"] == number]


def refused_by(row: dict[str, Any]) -> str:
    """What a row of the rules of scripts refuses, with all its parts."""
    *parts, last = row["parts"].values() if "parts" in row else [row["refuses"]]
    return sentence(f"{', '.join(parts)}, or {last}" if parts else last)


def part_of(number: int, part: str) -> str:
    """One part of what a rule of scripts refuses."""
    return next(sentence(row["parts"][part]) for row in script_rows(number) if part in row.get("parts", {}))


def sentence(words: str) -> str:
    """Words that begin as a sentence does."""
    return words[:1].upper() + words[1:]


def place_of(row: dict[str, Any]) -> list[str]:
    """The words of the place that a rule of scripts tells: phase, lane and call, as far as it has them."""
    return [] if row["place"] == "none" else row["place"].split(", ")


def script_rules(number: int) -> list[str]:
    """What a rule of scripts refuses."""
    return [refused_by(row) for row in script_rows(number)]


def page() -> str:
    """The text of docs/rules.md."""
    lines = ["# Rule numbers"]
    for part in TABLE["parts"]:
        lines.append("")
        if "text" in part:
            title = f"**{part['title']}.** " if "title" in part else ""
            lines.append(title + part["text"])
            continue
        lines += ["| " + " | ".join(part["head"]) + " |", "|---" * len(part["head"]) + "|"]
        for call in part["calls"]:
            label = call.get("label", call["call"])
            for row in call["rules"]:
                cells = [label, ", ".join(map(str, row["rules"])), row["asks"]]
                lines.append("|" + "|".join(f" {cell} " if cell else " " for cell in cells) + "|")
                label = ""
    return "\n".join(lines) + "\n"


def shown(number: int) -> str | None:
    """What `wgsim rules N` prints, or None where no rule has that number."""
    found = of(number)
    scripts = script_rules(number)
    lines, told = [], set()
    for rule in found:
        lines.append(f"Rule {number}, {rule.label}: {rule.asks}")
        lines.append(f"  {section(rule)}")
        told.update(rule.see)
    for note in notes(told):
        lines += ["", f"{note['title']}.", *textwrap.wrap(note["text"], 100, initial_indent="  ", subsequent_indent="  ")]
    if scripts:
        lines += [""] * bool(lines) + [f"Script rule {number}, which `bad script {number}` tells of, refuses:"]
        lines += [f"  {each}" for each in scripts]
    return "\n".join(lines) + "\n" if lines else None


def all_shown() -> str:
    """What `wgsim rules` prints: every rule, call by call, in the order in which they are tested."""
    lines, label = [], None
    for rule in RULES:
        if rule.label != label:
            label = rule.label
            lines += [""] * bool(lines) + [f"{label} ({section(rule)})"]
        lines.append(f"  {', '.join(map(str, rule.numbers)) or '-':>13}  {rule.asks}")
    lines += ["", "Scripts (`bad script N`)"]
    lines += [f"  {row['rule']:>13}  {refused_by(row)}" for row in TABLE["scripts"]]
    return "\n".join(lines) + "\n"
