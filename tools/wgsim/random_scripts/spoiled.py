"""The bytes of a good script, or of a good report that is to be checked, with some of them flipped, cut out or repeated.

Where a piece is cut out or repeated it begins and ends, as a rule, behind the same letter, so that the rest often still has a reading: a
call, a key with its value or an item then is missing or stands twice, or a line of a report. """

from __future__ import annotations

from typing import TYPE_CHECKING

if TYPE_CHECKING:
    from random import Random

OF_SCRIPTS, OF_REPORTS = b',{}[]":', b"\n\n\n\n "


def spoiled(random: Random, data: bytes, letters: bytes) -> bytes:
    """The bytes with a change or a few."""
    for _ in range(random.choice([1, 1, 1, 1, 2, 3])):
        if data:
            data = random.choices([flipped, replaced, cut, repeated, moved], [4, 3, 3, 3, 1])[0](random, data, letters)
    return data


def with_byte(data: bytes, at: int, byte: int) -> bytes:
    return data[:at] + bytes([byte]) + data[at + 1:]


def flipped(random: Random, data: bytes, _: bytes) -> bytes:
    """A bit of a byte is another one, mostly such that the byte may still be a letter."""
    at = random.randrange(len(data))
    return with_byte(data, at, data[at] ^ 1 << random.choice([0, 0, 1, 1, 2, 3, 4, 5, 6, 7]))


def replaced(random: Random, data: bytes, _: bytes) -> bytes:
    """A digit is another digit, or a byte is another one that there is, or any."""
    digits = [at for at, byte in enumerate(data) if byte in b"0123456789"]
    if digits and random.random() < 0.6:
        return with_byte(data, random.choice(digits), random.choice(b"0123456789"))
    return with_byte(data, random.randrange(len(data)), random.choice(data) if random.random() < 0.7 else random.randrange(256))


def piece(random: Random, data: bytes, letters: bytes) -> tuple[int, int]:
    """Where a piece begins and ends."""
    letter = random.choice(letters)
    places = [at + 1 for at, byte in enumerate(data) if byte == letter]
    if len(places) > 1 and random.random() < 0.8:
        first = random.randrange(len(places) - 1)
        return places[first], places[min(first + random.choice([1, 1, 1, 2, 3, 10]), len(places) - 1)]
    begin = random.randint(0, len(data))
    return begin, min(len(data), begin + random.choice([1, 1, 1, 2, 3, 8, 100]))


def cut(random: Random, data: bytes, letters: bytes) -> bytes:
    """A piece is missing; at times it is all behind a place, or before it."""
    begin, end = piece(random, data, letters)
    kind = random.randrange(12)
    return data[:begin] if kind == 0 else data[begin:] if kind == 1 else data[:begin] + data[end:]


def repeated(random: Random, data: bytes, letters: bytes) -> bytes:
    """A piece stands twice, or more often."""
    begin, end = piece(random, data, letters)
    return data[:end] + data[begin:end] * random.choice([1, 1, 1, 1, 2, 40]) + data[end:]


def moved(random: Random, data: bytes, letters: bytes) -> bytes:
    """A piece stands where another one begins."""
    begin, end = piece(random, data, letters)
    taken, rest = data[begin:end], data[:begin] + data[end:]
    at, _ = piece(random, rest, letters)
    return rest[:at] + taken + rest[at:]
