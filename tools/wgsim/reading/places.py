"""Reads a JSON text so that each value knows where it stands in it."""

from __future__ import annotations

import bisect
import re
import unicodedata
from typing import Any, Match, NoReturn, Pattern

BLANKS = " \t\n\r"
SPACE = re.compile(f"[{BLANKS}]*")
NUMBER = re.compile(r"-?(?:0|[1-9][0-9]*)(?:\.[0-9]+)?(?:[eE][+-]?[0-9]+)?")
# A piece of a text as a reader sees it, and what was meant for a number.
PIECE = re.compile(r"[\w.+-]+|.", re.S)
LIKE_NUMBER = re.compile(r"[0-9.eE+-]+")
PLAIN = re.compile(r'[^"\\\x00-\x1f]*')
# A pair as most of an object are: two strings without escapes, or one and a whole number, and no space but behind the colon.
PAIR = re.compile(r'"([^"\\\x00-\x1f]*)":[ \t\n\r]*(?:"([^"\\\x00-\x1f]*)"|([1-9][0-9]{0,15}|0)(?=[,}]))')
ESCAPES = {'"': '"', "\\": "\\", "/": "/", "b": "\b", "f": "\f", "n": "\n", "r": "\r", "t": "\t"}
WORDS = {"true": True, "false": False, "null": None}
DEEPEST = 127


class NotJson(Exception):
    """The text is no JSON: at the place `offset`, where something was found in place of what is expected."""

    def __init__(self, offset: int, found: str, expected: str) -> None:
        super().__init__(f"{found}; expected is {expected}")
        self.offset = offset
        self.found = found
        self.expected = expected


def escaped(text: str) -> str:
    """A text whose control characters, and those that change how others are shown, are written as `\\x1b` or `\\u202e`."""
    if text.isprintable():
        return text
    return "".join(letter if unicodedata.category(letter) not in ("Cc", "Cf", "Co", "Cs") else escape_of(letter) for letter in text)


def escape_of(letter: str) -> str:
    code = ord(letter)
    return f"\\x{code:02x}" if code < 256 else f"\\u{code:04x}" if code < 65536 else f"\\U{code:08x}"


def matched(pattern: Pattern[str], text: str, at: int = 0) -> Match[str]:
    """What a pattern matches at a place, where it always does, be it with nothing."""
    found = pattern.match(text, at)
    assert found is not None
    return found


class Value:
    """A value of a JSON text: its kind, what it is, and the places in the text where it begins and ends.

    The kinds are object (a list of pairs of key and value), list, string, number (its text), true, false and null.
    """

    __slots__ = ("kind", "what", "start", "end")

    def __init__(self, kind: str, what: Any, start: int, end: int) -> None:
        self.kind = kind
        self.what = what
        self.start = start
        self.end = end

    def member(self, name: str) -> Value | None:
        """The value of a key of an object: of several the last, or None."""
        found = None
        for key, value in self.what:
            if key.what == name:
                found = value
        return found

    def needed(self, name: str) -> Value:
        """The value of a key that is there."""
        found = self.member(name)
        if found is None:
            raise KeyError(name)
        return found

    def needed_key(self, name: str) -> Value:
        """The last key of that name of an object that has one."""
        return next(key for key, _ in reversed(self.what) if key.what == name)


class Reader:
    """One reading of one text."""

    def __init__(self, text: str) -> None:
        self.text = text
        self.at = 0

    def fail(self, found: str, expected: str, at: int | None = None) -> NoReturn:
        raise NotJson(self.at if at is None else at, found, expected)

    def here(self) -> str:
        """What stands at the place, as a reader sees it."""
        if self.next() == "":
            return "the end of the text"
        piece = matched(PIECE, self.text[self.at : self.at + 40])[0]
        return "the line's end" if piece in "\r\n" else escaped(piece)

    def space(self) -> None:
        if self.text[self.at : self.at + 1] in BLANKS:
            self.at = matched(SPACE, self.text, self.at).end()

    def next(self) -> str:
        return self.text[self.at : self.at + 1]

    def whole(self) -> Value:
        if self.next() == "\ufeff":
            self.fail(
                "a byte order mark, the bytes EF BB BF, before the text", "the text alone: save it as UTF-8 without a byte order mark"
            )
        value = self.value(0)
        self.space()
        if self.at < len(self.text):
            self.fail(self.here(), "the end of the text, after its one value")
        return value

    def value(self, depth: int) -> Value:
        self.space()
        letter = self.next()
        if letter != "" and letter in "{[":
            if depth == DEEPEST:
                self.fail(
                    f"a list or an object that is nested {DEEPEST + 1} deep", f"lists and objects that are nested at most {DEEPEST} deep"
                )
            return self.object(depth + 1) if letter == "{" else self.list(depth + 1)
        if letter == '"':
            return self.string()
        if letter == "-" or "0" <= letter <= "9":
            return self.number()
        for word, what in WORDS.items():
            if self.text.startswith(word, self.at):
                start, self.at = self.at, self.at + len(word)
                return Value(word, what, start, self.at)
        self.fail(self.here(), "a value: an object, a list, a string, a number, true, false or null")

    def number(self) -> Value:
        start = self.at
        found = NUMBER.match(self.text, start)
        if not found:
            self.fail(self.here(), "a digit after the sign")
        self.at = found.end()
        if re.match(r"[0-9.eE+-]", self.next()):
            whole = matched(LIKE_NUMBER, self.text[start : start + 60])[0]
            self.fail(f"the number {whole}", "a number as JSON has it, with no leading zeros, and with digits on both sides of a point")
        if abs(float(found[0])) == float("inf"):
            self.fail(f"the number {found[0][:60]}, which is too large", "a number that a float of 64 bits holds", start)
        return Value("number", found[0], start, self.at)

    def string(self) -> Value:
        start = self.at
        self.at += 1
        parts = []
        while True:
            plain = matched(PLAIN, self.text, self.at)
            parts.append(plain[0])
            self.at = plain.end()
            letter = self.next()
            if letter == '"':
                self.at += 1
                return Value("string", "".join(parts), start, self.at)
            if letter == "":
                self.fail("the end of the text within the string that begins here", 'the " that ends the string', start)
            if letter != "\\":
                self.fail(f"the control character {escaped(letter)} in a string", "that it is written as \\n, \\t or \\u and four digits")
            parts.append(self.escape())

    def escape(self) -> str:
        letter = self.text[self.at + 1 : self.at + 2]
        if letter == "u":
            return self.unicode()
        if letter not in ESCAPES or not letter:
            self.fail(f"a backslash with {escaped(letter) or 'nothing'} after it", "one of \" \\ / b f n r t u after a backslash")
        self.at += 2
        return ESCAPES[letter]

    def unicode(self) -> str:
        pair = "a pair of surrogates, both as \\u and four digits"
        first = self.four_digits()
        if 0xDC00 <= first <= 0xDFFF:
            self.fail("half a pair of surrogates, without its first half", pair, self.at - 6)
        if not 0xD800 <= first <= 0xDBFF:
            return chr(first)
        if self.text[self.at : self.at + 2] != "\\u":
            self.fail("half a pair of surrogates, without its second half", pair)
        second = self.four_digits()
        if not 0xDC00 <= second <= 0xDFFF:
            self.fail("half a pair of surrogates, without its second half", pair, self.at - 6)
        return chr(0x10000 + (first - 0xD800) * 0x400 + second - 0xDC00)

    def four_digits(self) -> int:
        digits = self.text[self.at + 2 : self.at + 6]
        if not re.fullmatch(r"[0-9a-fA-F]{4}", digits):
            self.fail(f"\\u{escaped(digits)}", "four hexadecimal digits after \\u")
        self.at += 6
        return int(digits, 16)

    def list(self, depth: int) -> Value:
        start = self.at
        self.at += 1
        items = []
        self.space()
        while self.next() != "]":
            if items:
                self.separator("]", "list", start)
            items.append(self.value(depth))
            self.space()
        self.at += 1
        return Value("list", items, start, self.at)

    def separator(self, closing: str, kind: str, start: int) -> None:
        if self.next() == "":
            self.fail(f"the text ends within the {kind} that begins here", f"a comma or {closing}", start)
        if self.next() != ",":
            self.fail(self.here(), f"a comma or {closing}")
        self.at += 1
        self.space()
        if self.next() == closing:
            self.fail(f"{closing} after a comma", "another item, or no comma")

    def object(self, depth: int) -> Value:
        start = self.at
        self.at += 1
        pairs = []
        self.space()
        while self.next() != "}":
            if pairs:
                self.separator("}", "object", start)
            pairs.append(self.plain_pair() or self.pair(depth))
            self.space()
        self.at += 1
        return Value("object", pairs, start, self.at)

    def plain_pair(self) -> tuple[Value, Value] | None:
        """A pair that is as most are, or None of another."""
        found = PAIR.match(self.text, self.at)
        if found is None:
            return None
        start, colon, self.at = self.at, found.end(1) + 1, found.end()
        key = Value("string", found[1], start, colon)
        if found[2] is None:
            return key, Value("number", found[3], found.start(3), self.at)
        return key, Value("string", found[2], found.start(2) - 1, self.at)

    def pair(self, depth: int) -> tuple[Value, Value]:
        if self.next() != '"':
            self.fail(self.here(), "a key in double quotes")
        key = self.string()
        self.space()
        if self.next() != ":":
            self.fail(self.here(), "a colon after the key")
        self.at += 1
        return key, self.value(depth)


class Text:
    """A script's text with its name, and the lines and columns of its places, both counted from 1."""

    def __init__(self, data: bytes, name: str) -> None:
        self.name = name
        self.size = len(data)
        self.bad_byte = None
        try:
            self.text = data.decode("utf-8")
        except UnicodeDecodeError as error:
            self.bad_byte = (len(data[: error.start].decode("utf-8")), data[error.start])
            self.text = data.decode("utf-8", "replace")
        self.lines = [0, *(found.end() for found in re.finditer("\n", self.text))]

    def place(self, offset: int) -> tuple[int, int]:
        line = bisect.bisect_right(self.lines, offset)
        return line, offset - self.lines[line - 1] + 1

    def where(self, offset: int) -> str:
        """A place as compilers write it."""
        line, column = self.place(offset)
        return f"{self.name}:{line}:{column}"

    def read(self) -> Value:
        """The text's one value; NotJson where it has none."""
        if self.bad_byte:
            offset, byte = self.bad_byte
            is_wide = offset == 0 and byte in (0xFE, 0xFF)
            mark = ", which begins a byte order mark of UTF-16" if is_wide else ""
            raise NotJson(offset, f"the byte 0x{byte:02x}{mark}", "a text in UTF-8")
        return Reader(self.text).whole()

    def of(self, value: Value) -> str:
        return self.text[value.start : value.end]
