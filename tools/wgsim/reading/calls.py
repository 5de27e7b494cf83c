"""The table of a script's calls: which keys each has, what it makes, and whether it records."""

from __future__ import annotations

import functools
import json
import pathlib
from typing import TYPE_CHECKING, Iterable

if TYPE_CHECKING:
    from wgsim.reading.places import Value

TABLE = json.loads((pathlib.Path(__file__).parent / "calls.json").read_text(encoding="utf-8"))
CALLS = TABLE["calls"]
KINDS = TABLE["kinds"]
WORDS = TABLE["words"]
BEGINS = set(TABLE["passes"]["begin"])
END = TABLE["passes"]["end"]
PIPELINES = TABLE["passes"]["pipelines"]
ENCODERS = {call["ends"] for call in CALLS.values() if "ends" in call}
OBJECTS = TABLE["objects"]
FORMS = TABLE["forms"]
AUTO = "auto"
# Says of a key that a page has left out what the standard has there.
NONE = "none"
MOST_LABEL = 256
# A fixed number stands for itself over this one.
ONE = 65536


class Key:
    """What the value of a key has to be: `sort` with its `detail`, whether the key may be left out, whether it, or an item of its list, may
    be null, whether the word `auto` may stand in place of a name, or the word `none` in place of another value, and whether a number is a
    fixed one."""

    def __init__(self, text: str) -> None:
        words = text.split()
        self.may_be_left_out = words[-1] == "?"
        words = words[:-1] if self.may_be_left_out else words
        self.may_have_null = words[-2:] == ["or", "null"]
        words = words[:-2] if self.may_have_null else words
        self.may_be_auto = words[-2:] == ["or", "auto"]
        words = words[:-2] if self.may_be_auto else words
        self.may_be_none = words[-2:] == ["or", "none"]
        words = words[:-2] if self.may_be_none else words
        self.is_fixed = words[-1] == "fixed"
        words = words[:-1] if self.is_fixed else words
        self.sort = words[0]
        self.detail = " ".join(words[1:])
        # Of objects for which a word may stand, what that word has to be: the value of one key of theirs, whose others are left out then.
        key = OBJECTS[self.detail].get("word") if self.sort in ("object", "objects") else None
        self.word: Key | None = Key(OBJECTS[self.detail]["keys"][key]) if key is not None else None

    def is_name(self, value: Value) -> bool:
        """Whether a value under this key is a name that is used, as far as its form tells: an object of the name `auto` is not reached
        where that word may stand."""
        return self.sort == "name" and value.kind == "string" and not (self.may_be_auto and value.what == AUTO)

    def kinds(self) -> list[str]:
        """The kinds of object that a name under this key may stand for."""
        return self.detail.split("|") if self.sort in ("name", "names") else []

    def expected(self) -> str:
        """What is expected, in words."""
        if self.sort == "number":
            stands = f", which stands for itself over {ONE}" if self.is_fixed else ""
            return f"a whole number from 0 to {2 ** int(self.detail) - 1}, in decimal digits alone{stands}{self.or_none()}"
        if self.sort == "three":
            return f"a list of exactly three whole numbers from 0 to {2 ** 32 - 1}"
        if self.sort == "boolean":
            return f"true or false{self.or_none()}"
        if self.sort == "word":
            return "one of " + quoted(WORDS[self.detail]) + self.or_none()
        if self.sort == "name":
            return f"the name of {either(self.kinds())}" + (f', or the word "{AUTO}"' if self.may_be_auto else "") + self.or_null()
        if self.sort == "names":
            many = "items, each the name" if self.may_have_null else "names, each"
            return f"a list of at most 1024 {many} of {either(self.kinds())}{self.or_null()}"
        if self.sort == "numbers":
            return f"a list of at most 1024 whole numbers from 0 to {2 ** int(self.detail) - 1}"
        if self.sort == "words":
            return f"a list of at most 1024 items, each one of {quoted(WORDS[self.detail])}{self.or_null()}"
        if self.sort == "object":
            return f"an object, {OBJECTS[self.detail]['said']}"
        if self.sort == "objects":
            words = f", or the format of one: {quoted(WORDS[self.word.detail])}" if self.word is not None else ""
            return (
                f"a list of at most 1024 {'items' if self.may_have_null else 'objects'}, each"
                f" {OBJECTS[self.detail]['said']}{words}{self.or_null()}"
            )
        if self.sort == "new":
            return "a new name, of 1 to 64 letters, digits and _"
        if self.sort == "label":
            return f"a string of at most {MOST_LABEL} bytes in UTF-8, with no character below 32 and none that is 127"
        return "a value"

    def or_null(self) -> str:
        return ", or null" if self.may_have_null else ""

    def or_none(self) -> str:
        return f', or the word "{NONE}"' if self.may_be_none else ""


def is_long(label: str) -> bool:
    """Whether a label has more bytes than one may."""
    return len(label.encode()) > MOST_LABEL


def control_in(label: str) -> int | None:
    """The first character of a label that may not stand in one, by its number, or None."""
    return next((ord(letter) for letter in label if letter < " " or letter == "\x7f"), None)


def decimal(number: int) -> str:
    """What a fixed number stands for, exactly."""
    whole, rest = divmod(abs(number), ONE)
    digits = f"{whole}.{rest * 10 ** 16 // ONE:016d}".rstrip("0").rstrip(".")
    return f"-{digits}" if number < 0 else digits


def quoted(words: Iterable[str]) -> str:
    return ", ".join(f'"{word}"' for word in words)


def either(kinds: list[str]) -> str:
    """One of some kinds, in words. Where any texture will do, that of a canvas is not told beside."""
    told = [kind for kind in kinds if kind != "canvas texture" or "texture" not in kinds]
    return " or ".join(KINDS.get(kind, kind) for kind in told)


@functools.lru_cache(maxsize=None)
def keys_of(word: str) -> dict[str, Key] | None:
    """The keys of a call in the order of the table, or None of a call that is not in it."""
    if word not in CALLS:
        return None
    return {name: Key(text) for name, text in CALLS[word]["keys"].items()}


def beside(apart: dict[str, list[str]], name: str, given: Iterable[str]) -> str | None:
    """A key that is given and beside which one of a name may not stand, by what a call or a sort of objects has `apart`."""
    return next((other for other in given if other in apart.get(name, ())), None)


def form_key(sort: str) -> str | None:
    """The key of a sort of objects whose word tells the form of one, or None where the form is told by which key is there, or there are no
    forms."""
    found = [name for name, text in OBJECTS[sort]["keys"].items() if text == f"word {OBJECTS[sort].get('forms')}"]
    return found[0] if found else None


def forms_of(sort: str) -> dict[str, dict[str, str]]:
    """The further keys that an object of a sort has by its form; no forms where all of them have the same keys."""
    return FORMS.get(OBJECTS[sort].get("forms"), {})


def form_of(sort: str, item: Value) -> str | None:
    """The form of an object in a call, a word that tells its further keys, or None where it has none."""
    forms, by = forms_of(sort), form_key(sort)
    if by is None:
        return next((form for form in forms if item.member(form) is not None), None)
    value = item.member(by)
    return value.what if value is not None and value.kind == "string" and value.what in forms else None


def keys_of_object(sort: str, item: Value) -> dict[str, Key]:
    """The keys of an object in a call: those of its sort, and those of its form if it has one."""
    form = form_of(sort, item)
    further = forms_of(sort)[form] if form is not None else {}
    return {name: Key(text) for name, text in {**OBJECTS[sort]["keys"], **further}.items()}


def may_be_auto(word: str, key: str) -> bool:
    """Whether the word `auto` may stand under a key of a call in place of a name."""
    found = (keys_of(word) or {}).get(key)
    return found is not None and found.may_be_auto


def makes(word: str | None) -> str | None:
    """The kind of what the call makes: an object, or a pass; None where it makes neither."""
    return CALLS[word].get("makes") if word in CALLS else None


def records(word: str) -> bool:
    return CALLS.get(word, {}).get("records", False)


def ends_encoder(word: str) -> bool:
    """Whether the call ends an encoder, be it one of a bundle."""
    return CALLS.get(word, {}).get("ends") is not None


def makes_encoder(word: str) -> bool:
    """Whether the call makes an encoder, be it one of a bundle."""
    return makes(word) in ENCODERS


def groups(word: str) -> int:
    """How many debug groups the call opens, less how many it closes."""
    return CALLS.get(word, {}).get("groups", 0)


def query(word: str) -> str | None:
    """Whether the call `begins` or `ends` an occlusion query; None where it does neither."""
    return CALLS.get(word, {}).get("query")


def canvas(word: str) -> str | None:
    """What the call does to a canvas: `makes` or `configures` it, `gives` its texture or `presents` that; None of another call."""
    return CALLS.get(word, {}).get("canvas")


def executes(word: str) -> bool:
    """Whether the call executes bundles, which unsets what is set."""
    return CALLS.get(word, {}).get("executes", False)


def step_of(word: str) -> str | None:
    """The name of the step that the call makes, if it may make one."""
    return CALLS.get(word, {}).get("step")
