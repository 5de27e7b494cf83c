"""The scripts of a hunt: by their number each is made anew, and the same each time.

They come from the generator, and, where a folder is named, by mutation of the scripts in it.
"""

from __future__ import annotations

import json
import pathlib
import random
from typing import Any, NamedTuple

from wgsim import exit_status
from wgsim.random_scripts import sorts
from wgsim.reading import browser_answers, calls

# What is made of which sort: those that say much in few calls come more often.
SORTS = ["borders", "mixed", "groups", "passes", "rendering", "queries", "bundles", "canvases", "lanes", "losses"]
WEIGHTS = [20, 10, 12, 12, 16, 8, 12, 6, 6, 3]
# How many scripts a hunt of some calls looks through for one that has them.
TRIES = 50
# How much of what is hunted comes of a folder, where one is named.
SHARE = 0.5


class Source(NamedTuple):
    """Where scripts come from."""

    seed: int
    of: tuple[str, ...] = ()
    kept: tuple[Any, ...] = ()

    def script(self, number: int) -> tuple[str, Any]:
        """What the script of a number is of, and the script, as what its text is made of."""
        chance = random.Random(f"{self.seed} {number}")
        for _ in range(TRIES):
            told, top = self.some(chance)
            if not self.of or any(call["do"] in self.of for lanes in top["phases"] for lane in lanes for call in lane):
                break
        return told, top

    def some(self, chance: random.Random) -> tuple[str, Any]:
        """Some script of the generator, or a mutation of one that is kept."""
        from . import mutation

        if self.kept and chance.random() < SHARE:
            name, top = chance.choice(self.kept)
            return f"a mutation of {name}", {**top, "phases": [[mutation.mutated(chance, one_lane(top))]]}
        sort = chance.choices(SORTS, WEIGHTS)[0]
        if sort == "losses":
            return sort, json.loads(sorts.script_of(chance, sort))
        return sort, plain(sorts.good(chance, sort))


def plain(top: Any) -> Any:
    """A script without what stands in it several times."""
    return json.loads(json.dumps(top))


def one_lane(top: Any) -> list[dict[str, Any]]:
    """The calls of a script, phase by phase and lane by lane."""
    return [call for lanes in top["phases"] for lane in lanes for call in lane]


def kept_in(name: str) -> tuple[Any, ...]:
    """The scripts of a folder and of the folders in it, each with its name; what lies beside a recording is passed over."""
    folder = pathlib.Path(name)
    if not folder.is_dir():
        raise exit_status.End(exit_status.UNREAD, f"{name} is no folder" if folder.exists() else f"{name}: there is no such folder")
    found = []
    for path in sorted(folder.rglob("*.json")):
        top = None if browser_answers.is_beside(path.name) else script_in(path)
        if top is not None:
            found.append((path.relative_to(folder).as_posix(), top))
    if not found:
        raise exit_status.End(exit_status.UNREAD, f"{name} has no script: no file whose name ends with .json holds one")
    return tuple(found)


def script_in(path: pathlib.Path) -> Any:
    """The script of a file, or None where it holds none that is played."""
    from model import answers

    try:
        data = path.read_bytes()
        return json.loads(data) if answers.read(data)[2] is None else None
    except (OSError, ValueError, RecursionError):
        return None


def calls_named(words: str) -> tuple[str, ...]:
    """The calls that `--of` names, parted by commas."""
    found = tuple(word.strip() for word in words.split(","))
    for word in found:
        if word not in calls.CALLS:
            raise exit_status.End(exit_status.WORDS, f"--of names no call {word}: `docs/script.md` has them")
    return found
