"""Words of WebGPU that no script has, so that a script that uses one is told so."""

from __future__ import annotations

import json
import pathlib

TABLE = json.loads((pathlib.Path(__file__).parent / "lacking.json").read_text(encoding="utf-8"))
LACKING = "WebGPU has this, the device here does not: see docs/coverage.md"


def call(word: str) -> str | None:
    """What is told of a word that is no call of a script: that WebGPU has it, or under which word the script does; or None."""
    if word in TABLE["otherwise"]:
        return f"what WebGPU calls {word} is {TABLE['otherwise'][word]} here"
    return LACKING if word in TABLE["calls"] else None


def key(name: str) -> str | None:
    """The same of a key that a call does not have."""
    if name in TABLE["keys otherwise"]:
        return f"what WebGPU calls {name} is {TABLE['keys otherwise'][name]} here"
    return LACKING if name in TABLE["keys"] else None


def word(value: str, detail: str) -> str | None:
    """The same of a word that a key does not have."""
    return LACKING if value in TABLE["words"].get(detail, []) else None
