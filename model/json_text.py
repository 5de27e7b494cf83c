"""Reading JSON: script rule 1.

Bytes have a reading where they are UTF-8 and one JSON value, with white space around it; where lists and objects are
nested at most 127 deep; and where no number is too large for a float. Of a repeated key the last value counts.

A number of decimal digits alone, without a sign, is a Python int; any other number is a float. So `type(x) is int` says
that a value is written as a whole number.
"""

from __future__ import annotations

import re
from typing import Any, Match, Pattern

MOST_NESTED = 127
BLANKS = " \t\n\r"
SPACE = re.compile(f"[{BLANKS}]*")
NUMBER = re.compile(r"-?(?:0|[1-9][0-9]*)(?:\.[0-9]+)?(?:[eE][+-]?[0-9]+)?")
# What stands in a string as itself: neither its end, nor an escape, nor a control character.
PLAIN = re.compile(r'[^"\\\x00-\x1f]*')
# A whole string that has no escape, as most are.
PLAIN_STRING = re.compile(r'"([^"\\\x00-\x1f]*)"')
FOUR_DIGITS = re.compile(r"[0-9a-fA-F]{4}")
ESCAPES = {'"': '"', "\\": "\\", "/": "/", "b": "\b", "f": "\f", "n": "\n", "r": "\r", "t": "\t"}
WORDS = {"true": True, "false": False, "null": None}
STARTS = {word[0]: word for word in WORDS}


class NoJson(Exception):
    """The bytes have no reading."""


class Text:
    """A text and how far it was read."""

    def __init__(self, text: str) -> None:
        self.text = text
        self.at = 0

    def peek(self) -> str:
        """The next character, or nothing at the end."""
        return self.text[self.at:self.at + 1]

    def skip_space(self) -> None:
        if self.peek() in BLANKS:
            self.at = matched(SPACE, self.text, self.at).end()

    def take(self, wanted: str) -> None:
        """Goes past the text that is wanted here."""
        if not self.text.startswith(wanted, self.at):
            raise NoJson(f"{wanted!r} is wanted at {self.at}")
        self.at += len(wanted)


def matched(pattern: Pattern[str], text: str, at: int) -> Match[str]:
    """What a pattern matches at a place, where it always does, be it with nothing."""
    found = pattern.match(text, at)
    assert found is not None
    return found


def read(data: bytes) -> Any:
    """The value that some bytes stand for."""
    try:
        text = Text(data.decode("utf-8", "strict"))
    except UnicodeDecodeError as error:
        raise NoJson("no UTF-8") from error
    value = read_value(text, 0)
    text.skip_space()
    if text.peek():
        raise NoJson("more than one value")
    return value


def read_value(text: Text, nested: int) -> Any:
    """A value that stands inside so many lists and objects."""
    text.skip_space()
    first = text.peek()
    if first == "[":
        return read_list(text, nested + 1)
    if first == "{":
        return read_object(text, nested + 1)
    if first == '"':
        return read_string(text)
    if first in STARTS:
        text.take(STARTS[first])
        return WORDS[STARTS[first]]
    return read_number(text)


def open_nested(text: Text, bracket: str, nested: int) -> None:
    if nested > MOST_NESTED:
        raise NoJson("nested too deep")
    text.take(bracket)
    text.skip_space()


def has_next(text: Text, closing: str) -> bool:
    """Goes past a comma, after which a value must follow, or past the closing bracket."""
    text.skip_space()
    if text.peek() == closing:
        text.take(closing)
        return False
    text.take(",")
    return True


def read_list(text: Text, nested: int) -> Any:
    open_nested(text, "[", nested)
    items = []
    if text.peek() == "]":
        text.take("]")
        return items
    while True:
        items.append(read_value(text, nested))
        if not has_next(text, "]"):
            return items


def read_object(text: Text, nested: int) -> Any:
    open_nested(text, "{", nested)
    members = {}
    if text.peek() == "}":
        text.take("}")
        return members
    while True:
        text.skip_space()
        key = read_string(text)
        text.skip_space()
        text.take(":")
        members[key] = read_value(text, nested)
        if not has_next(text, "}"):
            return members


def read_string(text: Text) -> str:
    """A string; characters below the space stand in it only as escapes."""
    plain = PLAIN_STRING.match(text.text, text.at)
    if plain:
        text.at = plain.end()
        return plain.group(1)
    text.take('"')
    pieces = []
    while True:
        plain = matched(PLAIN, text.text, text.at)
        pieces.append(plain.group())
        text.at = plain.end()
        letter = text.peek()
        text.at += 1
        if letter == '"':
            return "".join(pieces)
        if letter != "\\":
            raise NoJson("a string without its end, or with a control character")
        pieces.append(read_escape(text))


def read_escape(text: Text) -> str:
    """What follows a backslash; an escaped surrogate comes with its other half, or there is no reading."""
    letter = text.peek()
    text.at += 1
    if letter in ESCAPES and letter:
        return ESCAPES[letter]
    if letter != "u":
        raise NoJson("an unknown escape")
    code = read_code(text)
    if 0xD800 <= code < 0xDC00:
        text.take("\\u")
        low = read_code(text)
        if not 0xDC00 <= low < 0xE000:
            raise NoJson("half a surrogate pair")
        code = 0x10000 + ((code - 0xD800) << 10) + (low - 0xDC00)
    elif 0xDC00 <= code < 0xE000:
        raise NoJson("half a surrogate pair")
    return chr(code)


def read_code(text: Text) -> int:
    found = FOUR_DIGITS.match(text.text, text.at)
    if not found:
        raise NoJson("four digits are wanted")
    text.at = found.end()
    return int(found.group(), 16)


def read_number(text: Text) -> Any:
    """A number; one of more than 20 digits is past every whole number that counts, and so may be a float."""
    found = NUMBER.match(text.text, text.at)
    if not found:
        raise NoJson("a value is wanted")
    text.at = found.end()
    digits = found.group()
    if digits.isdigit() and len(digits) <= 20:
        return int(digits)
    number = float(digits)
    if number in (float("inf"), float("-inf")):
        raise NoJson("a number too large for a float")
    return number
