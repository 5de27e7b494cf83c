"""Values written as JSON in many forms: with spaces, keys in any order, escapes, and pieces of text that are no JSON."""

from __future__ import annotations

from typing import TYPE_CHECKING, Any

if TYPE_CHECKING:
    from random import Random


class Raw:
    """A piece of text that is written as it is."""

    def __init__(self, text: str) -> None:
        self.text = text


class Pairs:
    """An object given as pairs, so that a key may be repeated."""

    def __init__(self, pairs: list[tuple[str, Any]]) -> None:
        self.pairs = pairs


SPACES = ["", "", "", "", " ", "\n", "\t", "\r\n", "  "]


def text_of(value: Any, random: Random, plain: bool = False) -> str:
    """The text of a value. A plain one has no spaces, and its keys stand in the order of the dict."""
    if isinstance(value, Raw):
        return value.text
    if isinstance(value, str):
        return string_of(value, random, plain)
    if value is None or isinstance(value, bool):
        return {None: "null", True: "true", False: "false"}[value]
    if isinstance(value, (int, float)):
        return repr(value)
    space = "" if plain else random.choice(SPACES)
    if isinstance(value, (list, tuple)):
        return "[" + ("," + space).join(text_of(item, random, plain) for item in value) + space + "]"
    pairs = value.pairs if isinstance(value, Pairs) else list(value.items())
    if not plain and not isinstance(value, Pairs):
        random.shuffle(pairs)
    members = [string_of(key, random, plain) + space + ":" + text_of(item, random, plain) for key, item in pairs]
    return "{" + space + (space + ",").join(members) + "}"


def string_of(text: str, random: Random, plain: bool) -> str:
    letters = []
    for letter in text:
        if letter in '"\\' or letter < " " or (not plain and random.random() < 0.01):
            letters.append("".join(f"\\u{unit:04x}" for unit in units_of(letter)))
        else:
            letters.append(letter)
    return '"' + "".join(letters) + '"'


def units_of(letter: str) -> list[int]:
    """The 16-bit units of a character."""
    data = letter.encode("utf-16-be", "surrogatepass")
    return [int.from_bytes(data[at:at + 2], "big") for at in range(0, len(data), 2)]
