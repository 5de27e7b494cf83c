"""Labels of calls: good ones, up to as many bytes as there may be, and faulty ones."""

from __future__ import annotations

from typing import TYPE_CHECKING, Any

from wgsim.reading import calls

from .json_forms import Raw

if TYPE_CHECKING:
    from random import Random

MOST = 256
LABELED = [word for word in calls.CALLS if "label" in (calls.keys_of(word) or {})]
# Letters of one to four bytes, among them those next to what may not stand, and those that mean something to JSON or in a page.
LETTERS = ["a", "Z", "0", " ", "~", "_", '"', "\\", "/", "<", "&", "'", "%", "{", "\u0080", "\u009f", "\u00a0", "\u00e9", "\u07ff"]
LETTERS += ["\u0800", "\u20ac", "\u2028", "\u202e", "\ud7ff", "\ue000", "\ufeff", "\uffff", "\U00010000", "\U0001f600", "\U0010ffff"]
WORDS = ["", "", "a", "shadow map", "frame 1", "e1", "b1", "auto", "null", "label", "n\u00e4chstes Bild"]
TEXTS = ['"\\ud83d"', '"\\ude00"', '"\\u12"', '"\\x41"', '"\t"', '"\x1f"', '"\\u007f"', '"\\u0080"', '"\\/"', '"\x7f"']
CONTROLS = ["\0", "\1", "\b", "\t", "\n", "\v", "\f", "\r", "\x1b", "\x1f", "\x7f"]


def good(random: Random) -> str:
    """A label that may stand."""
    kind = random.randrange(8)
    if kind < 4:
        return random.choice(WORDS)
    if kind < 6:
        return of_bytes(random, random.randint(1, 30))
    return of_bytes(random, random.choice([MOST, MOST, MOST - 1, random.randint(31, MOST)]))


def of_bytes(random: Random, count: int) -> str:
    """A label of just so many bytes: of one letter, of letters of one length, or of any."""
    letters = random.choice([LETTERS, LETTERS, [random.choice(LETTERS)], [one for one in LETTERS if len(one.encode()) > 1]])
    made: list[str] = []
    left = count
    while left > 0:
        letter = random.choice(letters)
        made.append(letter if len(letter.encode()) <= left else "a")
        left -= len(made[-1].encode())
    random.shuffle(made)
    return "".join(made)


def faulty(random: Random) -> Any:
    """A value of the key that breaks a rule, as a rule: too long, with a character that may not stand, or no string."""
    kind = random.randrange(8)
    if kind < 3:
        return escaped(random, of_bytes(random, random.choice([MOST + 1, MOST + 1, MOST + 2, MOST + 3, 2 * MOST, 1000])))
    if kind < 6:
        label = list(of_bytes(random, random.choice([0, 1, 5, MOST - 1, MOST])))
        label.insert(random.randint(0, len(label)), random.choice(CONTROLS))
        return escaped(random, "".join(label))
    if kind == 6:
        return random.choice([None, True, False, 0, 1.5, [], ["a"], {}, {"label": "a"}])
    return Raw(random.choice(TEXTS))


def at_the_edge(random: Random) -> Any:
    """A label of as many bytes as there may be, which many or all of its letters take more of in the text."""
    return escaped(random, of_bytes(random, MOST))


def escaped(random: Random, label: str) -> Any:
    """A label with none, some or all of its letters as escapes."""
    many = random.choice([0, 0.3, 1])
    return label if many == 0 else Raw('"' + "".join(letter_of(letter, random.random() < many, random) for letter in label) + '"')


def letter_of(letter: str, is_escaped: bool, random: Random) -> str:
    """A letter as it stands in a string of JSON."""
    short = {'"': '\\"', "\\": "\\\\", "/": "\\/", "\b": "\\b", "\f": "\\f", "\n": "\\n", "\r": "\\r", "\t": "\\t"}
    if not is_escaped and letter >= " " and letter not in '"\\':
        return letter
    if letter in short and random.random() < 0.7:
        return short[letter]
    data = letter.encode("utf-16-be")
    form = random.choice(["\\u{:04x}", "\\u{:04X}"])
    return "".join(form.format(int.from_bytes(data[at : at + 2], "big")) for at in range(0, len(data), 2))


def put(random: Random, lanes: list[list[Any]]) -> None:
    """Gives labels to some of the calls of some lanes, now and then to all."""
    many = random.choice([0.1, 0.1, 0.5, 1])
    for call in (call for lane in lanes for call in lane):
        if isinstance(call, dict) and call.get("do") in LABELED and random.random() < many:
            call["label"] = good(random)
