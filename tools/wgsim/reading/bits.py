"""Numbers whose bits have names in WebGPU, usages, stages and map modes: in words, and back."""

from __future__ import annotations

import difflib
from typing import TYPE_CHECKING

from wgsim import exit_status

if TYPE_CHECKING:
    from wgsim.reading.script import Call

BUFFER = {
    1: "MAP_READ",
    2: "MAP_WRITE",
    4: "COPY_SRC",
    8: "COPY_DST",
    16: "INDEX",
    32: "VERTEX",
    64: "UNIFORM",
    128: "STORAGE",
    256: "INDIRECT",
    512: "QUERY_RESOLVE",
}
TEXTURE = {1: "COPY_SRC", 2: "COPY_DST", 4: "TEXTURE_BINDING", 8: "STORAGE_BINDING", 16: "RENDER_ATTACHMENT"}
STAGES = {1: "VERTEX", 2: "FRAGMENT", 4: "COMPUTE"}
MODES = {1: "READ", 2: "WRITE"}
# What a number can be of: a sum of bits does not say it of itself. A mode is no sum, but one of its bits.
KINDS = {"usage of a buffer": BUFFER, "usage of a texture": TEXTURE, "visibility": STAGES, "mode of a mapAsync": MODES}

# The keys of calls whose numbers are such: by the call, or by any call that has them.
OF_CALLS = {
    ("createBuffer", "usage"): BUFFER,
    ("createTexture", "usage"): TEXTURE,
    ("configureCanvas", "usage"): TEXTURE,
    ("mapAsync", "mode"): MODES,
}
VISIBILITY = "visibility"
MOST = 2**32 - 1


def words(number: int, names: dict[int, str]) -> list[str]:
    """The names of a number's bits, least bits first; what no name has comes last, as a number."""
    found = [name for bit, name in names.items() if number & bit]
    left = number & ~sum(names)
    return found + [str(left)] * (left != 0)


def said(number: int, names: dict[int, str]) -> str:
    """A number with its names, as `12 = COPY_SRC | COPY_DST`."""
    found = words(number, names)
    return f"{number} = {' | '.join(found)}" if found and found != [str(number)] else str(number)


def one(bit: int, names: dict[int, str]) -> str:
    """A bit by its name, as `COPY_SRC (4)`."""
    return f"{names[bit]} ({bit})"


def each(number: int, names: dict[int, str]) -> str:
    """The bits of a number, as `COPY_SRC (4) and STORAGE (128)`; what no name has as a number."""
    found = [one(bit, names) for bit in names if number & bit]
    left = number & ~sum(names)
    found += [str(left)] * (left != 0)
    return found[0] if len(found) == 1 else f"{', '.join(found[:-1])} and {found[-1]}"


def of_call(call: Call) -> list[str]:
    """The numbers of a script's call that have names, but for 0, in words: `usage 12 = COPY_SRC | COPY_DST`, each once, in the order of the
    text."""
    found = []
    for key, value in call.value.what if call.value.kind == "object" else []:
        names = OF_CALLS.get((call.word, key.what))
        if names and value.kind == "number" and value.what.isdigit() and int(value.what):
            found.append(f"{key.what} {said(int(value.what), names)}")
        for item in value.what if value.kind == "list" else []:
            number = item.member(VISIBILITY) if item.kind == "object" else None
            if number is not None and number.kind == "number" and number.what.isdigit() and int(number.what):
                found.append(f"{VISIBILITY} {said(int(number.what), STAGES)}")
    return list(dict.fromkeys(found))


def lines_of(given: str) -> list[str]:
    """What some words or a number stand for, as `wgsim words` tells it: a line for each kind that it can be of."""
    return of_number(int(given)) if given.isascii() and given.isdigit() else of_words(given)


def of_number(number: int) -> list[str]:
    """A number as each kind reads it."""
    if number > MOST:
        raise exit_status.End(exit_status.WORDS, f"{number} is above {MOST}, and has no 32 bits")
    width = max(map(len, KINDS))
    return [f"{kind:<{width}}  {read_as(number, names)}" for kind, names in KINDS.items()]


def read_as(number: int, names: dict[int, str]) -> str:
    """The names of a number in one kind, and what is left of it."""
    if names is MODES:
        return names.get(number, f"{number} is none")
    found, left = [name for bit, name in names.items() if number & bit], number & ~sum(names)
    if not number:
        return "no bit"
    return " and ".join(filter(None, ["|".join(found), f"{left}, which has no word" if left else ""]))


def of_words(given: str) -> list[str]:
    """The number of some words, parted by `|`, in each kind that has them all."""
    asked = [word.strip().upper().split(".")[-1] for word in given.split("|")]
    known = sorted({name for names in KINDS.values() for name in names.values()})
    for word in asked:
        if word not in known:
            near = difflib.get_close_matches(word, known, 1)
            raise exit_status.End(
                exit_status.WORDS,
                f"{word or 'nothing'} is no word" + (f"; the nearest is {near[0]}" if near else f"; the words are {', '.join(known)}"),
            )
    found = [(number_of(asked, names), kind) for kind, names in KINDS.items() if has_all(asked, names)]
    if not found:
        told = "; ".join(
            f"{word} is of {' or '.join(kind for kind, names in KINDS.items() if word in names.values())}" for word in dict.fromkeys(asked)
        )
        raise exit_status.End(exit_status.WORDS, f"no kind has all of these words: {told}")
    return [f"{number:<4}  {kind}" for number, kind in found]


def number_of(asked: list[str], names: dict[int, str]) -> int:
    """The sum of the bits of some names."""
    return sum(bit for bit, name in names.items() if name in asked)


def has_all(asked: list[str], names: dict[int, str]) -> bool:
    """Whether a kind has some words, and may have them at once."""
    return set(asked) <= set(names.values()) and not (names is MODES and len(set(asked)) > 1)
