"""The sorts of random scripts, and a script of each."""

from __future__ import annotations

import random
from typing import Any

from . import canvases, grouping, holding, json_forms, labels, lanes, limiting, losses, malformed, passing, pieces, spoiled, worlds

# Those of which others are made: good scripts of one lane or several, though single calls of them have faults.
GOOD = ["borders", "mixed", "holders", "groups", "passes", "rendering", "queries", "bundles", "canvases", "lanes"]
MOST = 2**53 - 1
# How many scripts have labels.
LABELED = 0.15


def text_of(top: dict[str, Any], chance: random.Random) -> bytes:
    """The text of a script, in one of the many forms that JSON has."""
    return json_forms.text_of(top, chance, plain=chance.random() < 0.5).encode()


def script_of(chance: random.Random, sort: str) -> bytes:
    """The bytes of a script of a sort, which may be none that is played."""
    if sort == "malformed":
        return malformed.malformed(chance)
    if sort == "losses":
        top = losses.example(chance) if chance.random() < 0.5 else good(chance, chance.choice(GOOD))
        return text_of(losses.lost(chance, top), chance)
    if sort == "spoiled bytes":
        top = losses.example(chance) if chance.random() < 0.3 else good(chance, chance.choice(GOOD))
        return spoiled.spoiled(chance, text_of(top, chance), spoiled.OF_SCRIPTS)
    return text_of(good(chance, sort), chance)


def good(chance: random.Random, sort: str) -> dict[str, Any]:
    """A script of a sort that has a form, as what its text is made of."""
    top = unlabeled(chance, sort)
    if chance.random() < LABELED:
        labels.put(chance, lanes.lists_in(top["phases"]))
    return top


def unlabeled(chance: random.Random, sort: str) -> dict[str, Any]:
    """The same without labels."""
    asked = limiting.ask(chance, 0.3)
    limits = {} if asked is None else {"limits": asked}
    if sort in ("lanes", "malformed lanes"):
        budget, phases = (lanes.lanes if sort == "lanes" else lanes.malformed)(chance)
        return {"budget": budget, "phases": phases, **limits}
    if sort == "holders":
        budget, made = holding.holders(chance)
    elif sort == "groups":
        budget, made = grouping.groups(chance)
    elif sort in ("passes", "rendering", "queries", "bundles"):
        budget, made = getattr(passing, sort)(chance)
    elif sort == "canvases":
        budget, made = canvases.canvases(chance)
    elif sort == "pieces":
        budget, made = MOST, pieces.pieces(chance)
    else:
        budget, made = chance.choices([MOST, 1_000_000, 0], [8, 2, 1])[0], getattr(worlds, sort)(chance)
    return {"budget": budget, "phases": [[made]], **limits}
