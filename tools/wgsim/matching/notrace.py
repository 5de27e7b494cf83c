"""Finds what a line `bad trace RULE LINE` means in the text: the place, what stands there, and what was expected.

The program tells the rule and the line. What of that breaks the rule is found here, by the forms of lines in docs/report.md, and is no part
of what is proved; where nothing is found the line alone is shown. """

from __future__ import annotations

import re
from typing import Any, NoReturn

from wgsim.matching.refusal import marked, near
from wgsim.reading.report import Part
from wgsim.reading.trace_lines import USAGES, cell_said

WHOLE, WORD32 = 2**53 - 1, 2**32 - 1
# The first words of lines, ways to access cells, aspects, and names of steps.
LINES = ("step", "use", "acc", "bar", "free", "end")
KINDS = ("read", "write", "both", "drop", "readdrop")
ASPECTS = ("color", "depth", "stencil")
NAMES = (
    "clear", "writeBuffer", "writeTexture", "copyBufferToBuffer", "copyBufferToTexture", "copyTextureToBuffer", "copyTextureToTexture",
    "clearBuffer", "resolveQuerySet", "dispatch", "renderPass", "hostRead", "hostWrite",
)
# What a rule refuses, in the words of the table in docs/report.md, "What `check` writes".
BYTES, ENDED, NO_TRACE = "a byte is neither LF nor from 32 to 126", "the text does not end with LF", "no line is `trace`"
FORM = "a line after `trace` is neither `end` nor of one of the forms"
NUMBER = "the number of a step is not the count of steps before it"
USE, ACC = "a `use` line follows neither a `step` nor a `use` line", "an `acc` line follows neither a `step`, a `use` nor an `acc` line"
BAR, BEHIND, LAST = "what follows a `bar` line is neither a `bar` nor a `step` line", "a line follows `end`", "the last line is not `end`"
TWICE = "an `acc` line gives a cell that an earlier `acc` line of its step gave"
REFUSES = (BYTES, ENDED, NO_TRACE, FORM, NUMBER, USE, ACC, BAR, BEHIND, LAST, TWICE)


class Found(Exception):
    """What of a text breaks a rule: what is refused, the number of the line, the column, what stands there, what was expected, and a
    hint."""

    def __init__(self, refuses: str, line: int, column: int, found: str, expected: str, hint: str | None = None) -> None:
        super().__init__(refuses)
        self.refuses, self.line, self.column, self.found, self.expected, self.hint = refuses, line, column, found, expected, hint


def find(data: bytes, rule: int, line: int) -> Found | None:
    """What the text breaks by a rule at a line, or None where that is not found."""
    if rule == 1:
        return of_text(data)
    lines = data.decode("ascii").split("\n")
    try:
        {2: form, 3: place, 4: twice}[rule](lines, line)
    except Found as found:
        return found
    except ValueError:
        pass
    return None


def of_text(data: bytes) -> Found:
    """Rule 1, of the bytes as a whole."""
    bad = re.search(rb"[^\n -~]", data)
    if bad is not None:
        byte, start = bad[0][0], bad.start()
        hint = {13: "lines end with LF alone, and not with CR and LF", 9: "words are parted by one space"}.get(
            byte, "a trace has ASCII letters alone" if byte > 127 else None
        )
        place = data.count(b"\n", 0, start) + 1, start - data.rfind(b"\n", 0, start)
        return Found(BYTES, *place, f"the byte 0x{byte:02x}", "LF, or a byte from 32 to 126", hint)
    if not data.endswith(b"\n"):
        place = data.count(b"\n") + 1, len(data) - data.rfind(b"\n")
        return Found(
            ENDED,
            *place,
            "the end of the text" + (" within a line" if data else ", which is empty"),
            "LF at the end of the last line, which is `end`",
        )
    lines = data.decode("ascii").split("\n")
    at = next((number for number, each in enumerate(lines, 1) if each.strip() == "trace"), 1)
    hint = "it is the report of a script that is refused, which has no trace" if data.startswith(b"bad script ") else None
    return Found(
        NO_TRACE,
        at,
        1,
        f"`{lines[at - 1]}`" if lines[at - 1].strip() == "trace" else "no line `trace`",
        "the line `trace`, without spaces, before the first step",
        hint,
    )


def form(lines: list[str], line: int) -> None:
    """Rule 2, of the words of a line."""
    fields = Fields(lines[line - 1], line)
    if fields.words == ["trace"]:
        fields.fail("one line `trace` alone, which begins the trace")
    word = fields.one_of(LINES)
    {"step": step, "use": use, "acc": access, "bar": barrier, "free": release, "end": lambda fields: None}[word](fields)
    if fields.at < len(fields.words):
        fields.fail("the end of the line")


class Fields:
    """The words of a line, which are taken one after another."""

    def __init__(self, text: str, line: int) -> None:
        self.words = text.split(" ")
        self.line = line
        self.at = 0

    def fail(self, expected: str, hint: str | None = None) -> NoReturn:
        """The word that stands there is not what was expected."""
        column = sum(len(word) + 1 for word in self.words[: self.at]) + 1
        raise Found(FORM, self.line, min(column, len(" ".join(self.words)) + 1), self.here(), expected, hint)

    def here(self) -> str:
        if self.words == [""]:
            return "an empty line"
        if self.at >= len(self.words):
            return "the end of the line"
        return f"`{self.words[self.at]}`" if self.words[self.at] else "a space too many"

    def word(self) -> str:
        """The word that stands there, or nothing behind the end of the line."""
        return self.words[self.at] if self.at < len(self.words) else ""

    def one_of(self, words: tuple[str, ...], hint: str | None = None) -> str:
        if self.word() not in words:
            self.fail("one of " + ", ".join(words), hint or (near(self.word(), words) if self.word() else None))
        self.at += 1
        return self.words[self.at - 1]

    def number(self, what: str, most: int = WHOLE) -> int:
        word = self.word()
        if not re.fullmatch("0|[1-9][0-9]*", word) or int(word) > most:
            self.fail(f"{what}: a number from 0 to {most}, in decimal digits without zeros in front")
        self.at += 1
        return int(word)

    def run(self, most: int) -> None:
        """LO and HI of cells or layers."""
        low = self.number("LO, the first", most)
        high = self.number("HI, one behind the last", most)
        if high <= low:
            self.at -= 1
            self.fail(f"HI above LO, which is {low}: it is one behind the last")

    def image(self, aspects: tuple[str, ...] = ASPECTS) -> None:
        """The number of a texture, an aspect of it, a mip level, and layers or slices."""
        self.number("the number of a texture")
        self.one_of(aspects, "slices have the aspect color alone" if len(aspects) == 1 else None)
        self.number("a mip level", WORD32)
        self.run(WORD32)

    def part(self) -> None:
        hint = "a part of slices is the mip level with all of them, as `t 5 color 0 0 1`" if self.word() == "s" else None
        sort = self.one_of(("b", "q", "t"), hint)
        if sort == "t":
            return self.image()
        self.number("the number of a buffer" if sort == "b" else "the number of a query set")
        if self.word().isdecimal():
            self.fail("a set of usages", "a buffer or a query set is one part, without a range")
        return None

    def cells(self) -> None:
        sort = self.one_of(("b", "t", "s", "q"))
        if sort in ("b", "q"):
            self.number("the number of a buffer" if sort == "b" else "the number of a query set")
            return self.run(WHOLE if sort == "b" else WORD32)
        return self.image(ASPECTS if sort == "t" else ASPECTS[:1])

    def set(self) -> None:
        """Some usages, each once and in printed order."""
        words = self.word().split("+")
        wrong = next((word for word in words if word not in USAGES), None)
        if wrong is not None:
            hint = "none may stand as FROM of a barrier alone" if wrong == "none" else near(wrong, USAGES) if wrong else None
            self.fail("a set of usages, with + between them, of " + ", ".join(USAGES), hint)
        ordered = "+".join(usage for usage in USAGES if usage in words)
        if ordered != self.word():
            self.fail(f"the usages in printed order, each once: {ordered}")
        self.at += 1


def step(fields: Fields) -> None:
    fields.number("the number of the step")
    what = (
        "the number of an entry, or one of your own"
        if fields.one_of(("op", "host")) == "host"
        else "the number of an operation, or one of your own"
    )
    fields.number(what)
    fields.one_of(NAMES)


def use(fields: Fields) -> None:
    fields.part()
    fields.set()


def access(fields: Fields) -> None:
    fields.one_of(KINDS)
    fields.cells()


def barrier(fields: Fields) -> None:
    fields.part()
    if fields.word() == "none":
        fields.at += 1
    else:
        fields.set()
    fields.set()


def release(fields: Fields) -> None:
    sort = fields.one_of(("b", "t", "q"), "slices are memory of their texture, `t`" if fields.word() == "s" else None)
    fields.number(f"the number of a {dict(b='buffer', t='texture', q='query set')[sort]}")


def place(lines: list[str], line: int) -> None:
    """Rule 3, of the place of a line among the others."""
    first = lines.index("trace") + 1
    text, word, before = lines[line - 1], lines[line - 1].split(" ")[0], lines[line - 2].split(" ")[0] if line > first else ""
    if before == "end":
        raise Found(BEHIND, line, 1, f"a line behind `end`: `{text}`", f"`end`, at line {line - 1}, as the last line")
    if before == "bar" and word not in ("bar", "step"):
        raise Found(
            BAR, line, 1, f"`{text}` behind a `bar` line", "the step in front of which the barrier stands, or a further barrier",
            "a barrier behind the last step is left out" if word == "end" else None,
        )
    if word == "use" and before not in ("step", "use"):
        raise Found(
            USE, line, 1, f"a `use` line behind {said_of(before)}",
            "a `use` line right behind its `step` line, or behind another one of that step",
        )
    if word == "acc" and before not in ("step", "use", "acc"):
        raise Found(
            ACC, line, 1, f"an `acc` line behind {said_of(before)}",
            "an `acc` line behind its `step` line, the `use` lines of that, or another one of that step",
        )
    steps = sum(each.startswith("step ") for each in lines[first : line - 1])
    if word == "step" and text.split(" ")[1] != str(steps):
        raise Found(
            NUMBER, line, 6, f"step {text.split(' ')[1]}",
            f"step {steps}: steps are counted from 0, and {steps} stand{'s' * (steps == 1)} before it",
        )
    if line >= len(lines) - 1:
        raise Found(LAST, line, 1, f"`{text}` as the last line", "a further line, `end`")


def said_of(word: str) -> str:
    return "the line `trace`" if word == "trace" else f"{'an' if word == 'acc' else 'a'} `{word}` line"


def twice(lines: list[str], line: int) -> None:
    """Rule 4, of cells that two lines of a step give: the first line before it that has one of them, and the first of these cells."""
    own, earlier = Part(lines[line - 1].split(" ")[2:]), []
    for at in range(line - 1, 0, -1):
        if not lines[at - 1].startswith("acc "):
            break
        other = Part(lines[at - 1].split(" ")[2:])
        if other.words[:-2] == own.words[:-2] and other.low < own.high and own.low < other.high:
            earlier.append((at, other))
    if earlier:
        at, other = earlier[-1]
        cell = Part((*own.words[:-2], str(max(own.low, other.low)), str(max(own.low, other.low) + 1)))
        column = lines[line - 1].index(" ", 4) + 2
        how = "each cell once in a step: what is read and then written is one line `both`, and ranges that overlap are joined"
        raise Found(TWICE, line, column, f"{cell_said(cell)}, which line {at} gives too: `{lines[at - 1]}`", how)


def explained(name: str, data: bytes, rule: int, line: int) -> list[str]:
    """The lines that explain why a text is no trace, as those of a script that is refused."""
    found = find(data, rule, line)
    if found is None:
        shown = [f"    {data.decode('ascii', 'replace').splitlines()[line - 1]}"] if line else []
        return [f"  what of it breaks trace rule {rule} was not found: the program tells no more than the line above", *shown]
    lines = [
        f"  trace rule {rule} refuses: {found.refuses}", "", f"{name}:{found.line}:{found.column}", f"  found:    {found.found}",
        f"  expected: {found.expected}",
    ]
    lines += [f"  {found.hint}"] if found.hint else []
    return lines + marked(data.split(b"\n")[found.line - 1].decode("utf-8", "replace"), found.column)


def facts(data: bytes, rule: int, line: int) -> dict[str, Any]:
    """The same as an object, for a machine."""
    found = find(data, rule, line)
    return {
        "rule": rule,
        "line": line,
        "at": f"{found.line}:{found.column}" if found else None,
        "text": data.split(b"\n")[line - 1].decode("utf-8", "replace") if line else None,
        "asks": found.refuses if found else None,
        "condition": found.found if found else None,
        "values": {"expected": found.expected if found else None},
        "remedy": found.hint if found else None,
    }
