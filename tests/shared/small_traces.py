"""Texts that are to be checked: small traces of anything, and printed reports, with lines left out, moved, doubled or spoiled.

Reports have many lines before the trace; those of small traces may have any.
"""

from model.formats import ASPECTS
from model.steps import USAGES

KINDS = ["read", "write", "both", "drop", "readdrop"]
NAMES = ["clear", "writeBuffer", "writeTexture", "copyBufferToBuffer", "dispatch", "renderPass", "hostRead", "hostWrite", "resolveQuerySet"]
GREATEST_WHOLE, GREATEST_32 = 2**53 - 1, 2**32 - 1


class Places:
    """What the steps of a small trace may touch: a few objects, each of one sort as a rule, with a few cells."""

    def __init__(self, random):
        self.random = random
        self.owners = []
        for number in random.sample([0, 1, 2, 3, 10, GREATEST_WHOLE], random.choice([1, 1, 2, 3])):
            for sort in random.sample("bqts", random.choice([1, 1, 1, 2])):
                self.owners.append((sort, number))
        self.most = random.choice([1, 2, 3, 4])
        self.base = random.choice([0] * 12 + [4, GREATEST_32 - 4])

    def run(self, sort):
        low = self.random.randrange(self.most)
        high = self.random.randint(low + 1, self.most)
        return low + self.base * (sort in "bq"), high + self.base * (sort in "bq")

    def image(self, sort):
        aspect = "color" if sort == "s" or self.random.random() < 0.7 else self.random.choice(ASPECTS)
        return [aspect, self.random.choice([0, 0, 0, 1])]

    def cells(self):
        """An owner, and a run of its cells."""
        sort, number = self.random.choice(self.owners)
        return (sort, number, *(self.image(sort) if sort in "ts" else [])), self.run(sort)

    def part(self):
        """The text of a part; that of a slice is a layer, the first as a rule."""
        (sort, number, *image), (low, high) = self.cells()
        if sort == "s":
            low, high = self.random.choice([(0, 1), (0, 1), (0, 1), (0, 3), (1, 2)])
        return " ".join(map(str, [sort, number] if sort in "bq" else ["t", number, *image, low, high]))


def set_text(random, count=None):
    some = set(random.sample(USAGES, count or random.choice([1, 1, 1, 2, 3])))
    return "+".join(usage for usage in USAGES if usage in some)


def small(random):
    """The lines of a small trace. Its barriers stand anywhere, so it agrees or differs; no cell stands twice in a step."""
    places, lines = Places(random), []
    wished = random.choice([0.2, 0.5, 0.8])
    for number in range(random.choice([0, 1, 2, 3, 3, 4, 4, 5])):
        while random.random() < wished:
            lines.append(f"bar {places.part()} {random.choice(['none', set_text(random)])} {set_text(random)}")
        lines.append(
            f"step {number} {random.choice(['op', 'op', 'host'])} {random.choice([0, 1, 7, GREATEST_WHOLE])} {random.choice(NAMES)}"
        )
        lines += [f"use {places.part()} {set_text(random)}" for _ in range(random.choice([0, 1, 2]))]
        taken = set()
        for _ in range(random.choice([0, 1, 1, 2, 3])):
            owner, (low, high) = places.cells()
            cells = {(owner, place) for place in range(low, high)}
            if not cells & taken:
                taken |= cells
                lines.append(f"acc {random.choice(KINDS)} {' '.join(map(str, [*owner, low, high]))}")
        if random.random() < 0.1:
            lines.append(f"free {random.choice('btq')} {random.choice([0, 1, 10, GREATEST_WHOLE])}")
    before = random.choice([[], [], ["history"], ["history", "0 0 lose plain"], ["", "anything at all", "end", "step 0 op 1 clear"]])
    return [*before, "trace", *lines, "end"]


def text_of(lines):
    return "".join(line + "\n" for line in lines).encode()


def numbers_of(lines, word):
    """The places of the lines behind the first line `trace` that begin with a word."""
    first = lines.index("trace") if "trace" in lines else len(lines)
    return [number for number, line in enumerate(lines) if number > first and line.startswith(word)]


def without_bars(random, lines):
    """Some barriers are left out, one as a rule."""
    bars = numbers_of(lines, "bar ")
    for number in sorted(random.sample(bars, min(len(bars), random.choice([1, 1, 1, 2, 5]))), reverse=True):
        del lines[number]


def moved_bar(random, lines):
    """A barrier stands before another step, or anywhere."""
    bars = numbers_of(lines, "bar ")
    if bars:
        line = lines.pop(random.choice(bars))
        steps = numbers_of(lines, "step ") if random.random() < 0.8 else range(lines.index("trace") + 1, len(lines) + 1)
        if steps:
            lines.insert(random.choice(steps), line)


def doubled(random, lines):
    """A line stands twice: a barrier may, and most others may not."""
    found = numbers_of(lines, random.choice(["bar ", "bar ", "use ", "acc ", "step ", "free ", ""]))
    if found:
        number = random.choice(found)
        lines.insert(random.choice([number, number, number + 1]), lines[number])


def left_out(random, lines):
    found = numbers_of(lines, random.choice(["use ", "acc ", "step ", "free ", "end", ""]))
    if found:
        del lines[random.choice(found)]


def swapped(random, lines):
    found = numbers_of(lines, "")
    if len(found) > 1:
        one = random.choice(found[:-1])
        other = random.choice([one + 1, one + 1, random.choice(found)])
        lines[one], lines[other] = lines[other], lines[one]


def other_bar(random, lines):
    """A barrier is of another part."""
    bars = numbers_of(lines, "bar ")
    if bars:
        number = random.choice(bars)
        fields = lines[number].split(" ")
        at = random.choice([1, 2] if fields[1] in "bq" else [1, 2, 3, 4, 5, 6])
        fields[at] = (
            random.choice("bqts")
            if at == 1
            else random.choice(ASPECTS)
            if at == 3 and fields[1] == "t"
            else str(random.choice([0, 1, 2, 3]))
        )
        lines[number] = " ".join(fields)


def other_access(random, lines):
    """An access of another kind, or of other cells."""
    found = numbers_of(lines, "acc ")
    if found:
        number = random.choice(found)
        fields = lines[number].split(" ")
        at = random.choice([1, 1, len(fields) - 1, len(fields) - 2, random.randrange(1, len(fields))])
        fields[at] = random.choice(KINDS) if at == 1 else str(random.choice([0, 1, 2, 3, 4, 8, 16, 256]))
        lines[number] = " ".join(fields)


def spoiled_field(random, lines):
    """A field of a line that is none, or stands at the edge of what it may be."""
    found = numbers_of(lines, random.choice(["bar ", "use ", "acc ", "step ", "free ", ""]))
    if not found:
        return
    number = random.choice(found)
    fields = lines[number].split(" ")
    at = random.randrange(len(fields))
    odd = ["", " ", "00", "01", "+1", "-1", "1.0", "1e3", "x", "none", "all", "end", "color", "depth", "trace", "Bar", "0x1", "\u0661"]
    edges = [GREATEST_32, GREATEST_32 + 1, GREATEST_WHOLE, GREATEST_WHOLE + 1, 2**64, 0, 1]
    kind = random.randrange(6)
    if kind == 0:
        fields[at] = random.choice(odd)
    elif kind == 1:
        fields[at] = str(random.choice(edges))
    elif kind == 2:
        del fields[at]
    elif kind == 3:
        fields.insert(at, random.choice([fields[at], "0", "", "b", "op", "copy-src"]))
    elif kind == 4:
        numbers = [place for place, field in enumerate(fields) if field.isdecimal()]
        if numbers:
            fields[random.choice(numbers)] = str(random.choice(edges))
    else:
        other_set(random, fields)
    lines[number] = " ".join(fields)


def other_set(random, fields):
    """A set in a wrong order, with a usage twice, with none, or of other usages."""
    words = random.sample(USAGES, random.choice([1, 2, 2, 3]))
    fields[-1] = random.choice(
        ["+".join(words), "+".join([*words, words[0]]), "+", words[0] + "+", "none", words[0].upper(), set_text(random)]
    )


def numbered(random, lines):
    """The number of a step is another one, or all of them are one more or less."""
    found = numbers_of(lines, "step ")
    some = found if random.random() < 0.3 else random.sample(found, min(1, len(found)))
    for number in some:
        fields = lines[number].split(" ")
        if len(fields) > 1 and fields[1].isdecimal():
            fields[1] = str(max(int(fields[1]) + random.choice([1, -1, 10]), 0))
            lines[number] = " ".join(fields)


def renumbered(random, lines):
    """A step is left out with its lines, and the numbers of the others follow."""
    found = numbers_of(lines, "step ")
    if found:
        first = random.choice(found)
        last = next((number for number in range(first + 1, len(lines)) if not lines[number].startswith(("use ", "acc "))), len(lines))
        del lines[first:last]
        for count, number in enumerate(numbers_of(lines, "step ")):
            fields = lines[number].split(" ")
            lines[number] = " ".join([fields[0], str(count), *fields[2:]])


def around(random, lines):
    """What stands before the trace or behind its end."""
    kind = random.randrange(6)
    if kind == 0 and "trace" in lines:
        del lines[:lines.index("trace")]
    elif kind == 1 and "trace" in lines:
        lines.remove("trace")
    elif kind == 2:
        lines.append(random.choice(["", "end", "trace", "step 0 op 1 clear", "free b 0", "history", "bar b 0 clear"]))
    elif kind == 3:
        lines.insert(random.randint(0, len(lines)), random.choice(["trace", "end", "history", ""]))
    elif kind == 4:
        lines[:0] = ["history", "1 0 anything plain"]
    else:
        del lines[random.randint(0, len(lines)):]


BAR_CHANGES = [without_bars] * 6 + [moved_bar] * 3 + [doubled] + [other_bar] * 2 + [renumbered]
CHANGES = BAR_CHANGES + [
    doubled, left_out, swapped, other_access, other_access, spoiled_field, spoiled_field, spoiled_field, numbered, around,
]


def spoiled_bytes(random, data):
    """Bytes that no text has, a wrong line end, or none at the end."""
    at = random.randint(0, len(data))
    kind = random.randrange(6)
    if kind == 0:
        return data[:at] + random.choice([b"\x00", b"\t", b"\r", b"\x7f", b"\x80", b"\xff", "ä".encode(), b"\x1f", b"~", b"!"]) + data[at:]
    if kind == 1:
        return data.replace(b"\n", b"\r\n")
    if kind == 2:
        return data[:-1]
    if kind == 3:
        return data[:at]
    return data + b"\n" if kind == 4 else data[:at] + b"\n" + data[at:]


def changed(random, lines):
    """The bytes of some lines, with a change or two as a rule."""
    lines, kind = list(lines), random.random()
    several = random.choices(BAR_CHANGES if kind < 0.5 else CHANGES, k=random.choice([1, 1, 1, 2, 3])) if kind < 0.9 else []
    for change in several:
        change(random, lines)
    data = text_of([line.encode("ascii", "replace").decode() if random.random() < 0.9 else line for line in lines])
    return spoiled_bytes(random, data) if random.random() < 0.04 else data


def small_text(random):
    """A small trace that is read as a rule, and at times is spoiled."""
    lines = small(random)
    return text_of(lines) if random.random() < 0.7 else changed(random, lines)
