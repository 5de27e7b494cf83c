"""Finds what a refused script's line `bad script RULE ..` means in its text: the line and column, the key or name, and what was expected.

The program tells the rule and the call. What of the call breaks the rule is found here, by the table of calls, and is no
part of what is proved; where nothing is found the call alone is shown.
"""

from __future__ import annotations

import difflib
import re
from typing import TYPE_CHECKING, Collection, Iterable

from wgsim.reading import calls, lacking, limits, rules
from wgsim.reading import script as scripts
from wgsim.reading.places import NotJson, escaped

if TYPE_CHECKING:
    from wgsim.reading.calls import Key
    from wgsim.reading.places import Text, Value
    from wgsim.reading.script import Call, Script

NAME = re.compile(r"[A-Za-z0-9_]{1,64}")
PARTS = ("phase", "lane", "call")
TOP = {"budget": "a whole number from 0 to 9007199254740991, in decimal digits alone", "phases": "a list of phases"}
MAY_STAND = ("limits",)
TOP_KEYS = "the keys budget and phases, with or without limits, and no other"


class Refusal:
    """A refusal: its rule, the offset of its place in the text, what stands there, what was expected, and what of the rule it is that
    refuses."""

    def __init__(self, rule: int, place: tuple[int, ...]) -> None:
        self.rule = rule
        self.place = place
        self.offset: int | None = None
        self.found: str | None = None
        self.expected: str | None = None
        self.more: list[str] = []
        self.refuses = sentence(rule, place)

    def by(self, part: str) -> Refusal:
        """Tells the part of a rule that refuses several things, by its name in docs/rules.json."""
        self.refuses = rules.part_of(self.rule, part)
        return self

    def at(self, offset: int, found: str, expected: str, *more: str | None) -> Refusal:
        self.offset, self.found, self.expected, self.more = offset, found, expected, [each for each in more if each]
        return self


def sentence(rule: int, place: tuple[int, ...]) -> str | None:
    """The sentence of a rule of scripts; of a rule that has several, that of the kind of place."""
    row = next((row for row in rules.script_rows(rule) if len(rules.place_of(row)) == len(place)), None) or next(
        iter(rules.script_rows(rule)), None
    )
    return rules.refused_by(row) if row else None


def find(text: Text, line: str) -> Refusal:
    """The refusal that a line of the program tells of, in the script's text."""
    words = line.split()
    refusal = Refusal(int(words[2]), tuple(map(int, words[3:])))
    try:
        top = text.read()
    except NotJson as error:
        if refusal.rule == 1:
            refusal.at(error.offset, error.found, error.expected)
        return refusal
    if refusal.rule != 1:
        {0: at_top, 1: at_phase, 2: at_lane, 3: at_call}[len(refusal.place)](refusal, text, top)
    return refusal


def reached(top: Value, place: tuple[int, ...]) -> Value:
    """The value at a place of a script: of the phase, the lane or the call."""
    value = top.needed("phases")
    for number in place:
        value = value.what[number]
    return value


def at_top(refusal: Refusal, text: Text, top: Value) -> Refusal:
    if top.kind != "object":
        return refusal.at(top.start, kind_of(top), f"an object with {TOP_KEYS}")
    if refusal.rule == 14:
        return wrong_limits(refusal, text, top.needed("limits"))
    if refusal.rule == 3:
        return refusal.at(top.needed("phases").start, f"{len(top.needed('phases').what)} phases", "at most 1024 phases")
    for name, expected in TOP.items():
        if top.member(name) is None:
            return refusal.at(top.start, f"no key {name}", f"the key {name}: {expected}")
    for key, _ in top.what:
        if key.what not in TOP and key.what not in MAY_STAND:
            return refusal.at(key.start, f"the key {quoted(key.what)}", TOP_KEYS, near(key.what, [*TOP, *MAY_STAND]))
    budget, phases = top.needed("budget"), top.needed("phases")
    if not is_whole(budget, 53):
        return refusal.at(budget.start, f"{text.of(budget)[:60]} under budget", TOP["budget"])
    return refusal.at(phases.start, f"{kind_of(phases)} under phases", TOP["phases"])


def wrong_limits(refusal: Refusal, text: Text, asked: Value) -> Refusal:
    """What is wrong with the limits that a script asks for: each name with the number that was asked for, the default and the best."""
    if asked.kind != "object":
        return refusal.by("object").at(
            asked.start, f"{kind_of(asked)} under limits", "an object from names of limits to whole numbers"
        )
    for name in dict.fromkeys(key.what for key, _ in asked.what):
        value, limit = asked.needed(name), limits.TABLE.get(name)
        if limit is None:
            refusal.by("name")
            return refusal.at(
                asked.needed_key(name).start,
                f"the name {quoted(name)}",
                "the name of a limit that a script can ask for: docs/script.md has them",
                near(name, limits.TABLE),
            )
        default = "which has no default" if limit.default is None else f"whose default is {limit.default}"
        found = f"{shown(text.of(value))} for {name}, {default} and whose best is {limit.best}"
        if not is_whole(value, 53):
            refusal.by("number")
            return refusal.at(value.start, found, "a whole number from 0 to 9007199254740991, in decimal digits alone")
        wrong = limit.wrong(int(value.what))
        if wrong is not None:
            refusal.by(wrong)
            return refusal.at(value.start, found, limit.expected())
    return refusal


def at_phase(refusal: Refusal, text: Text, top: Value) -> Refusal:
    phase = reached(top, refusal.place)
    found = f"{len(phase.what)} lanes" if phase.kind == "list" else kind_of(phase)
    return refusal.at(phase.start, found, "a phase: a list of at most 64 lanes")


def at_lane(refusal: Refusal, text: Text, top: Value) -> Refusal:
    lane = reached(top, refusal.place)
    return refusal.at(lane.start, kind_of(lane), "a lane: a list of calls")


def at_call(refusal: Refusal, text: Text, top: Value) -> Refusal:
    call = reached(top, refusal.place)
    refusal.offset = call.start
    if refusal.rule == 5:
        return refusal.at(call.start, "the 65537th call", "at most 65536 calls in a script")
    if call.kind != "object":
        return refusal.at(call.start, kind_of(call), "a call: an object with the key do")
    if refusal.rule == 6:
        return unknown_call(refusal, text, call)
    finders = {7: keys_of_call, 8: values_of_call, 9: given_name, 10: used_names, 11: used_names, 12: used_names, 15: unset_canvas}
    finder = finders.get(refusal.rule)
    return finder(refusal, text, call, top) if finder else refusal


def unknown_call(refusal: Refusal, text: Text, call: Value) -> Refusal:
    do = call.member("do")
    if do is None:
        return refusal.at(call.start, "no key do", "the key do, with the word of a call")
    if do.kind != "string":
        return refusal.at(do.start, f"{kind_of(do)} under do", "the word of a call, as a string")
    hint = lacking.call(do.what) or near(do.what, sorted(calls.CALLS))
    return refusal.at(do.start, f"the word {quoted(do.what)}", "the word of a call", hint)


def keys_of_call(refusal: Refusal, text: Text, call: Value, top: Value) -> Refusal:
    word = call.needed("do").what
    keys = calls.keys_of(word)
    if keys is not None:
        wrong_keys(refusal, call, word, keys, {"do"}, calls.CALLS[word].get("apart", {}))
    return refusal


def wrong_keys(
    refusal: Refusal,
    value: Value,
    word: str,
    keys: dict[str, Key],
    others: Collection[str] = (),
    apart: dict[str, list[str]] | None = None,
) -> Refusal | None:
    """Whether a call, or an object in it, has a key that it may not have, be it beside another one, or lacks one that it needs. Of a call
    that is rule 7, and of an object rule 8, which have the same parts for it."""
    told = [name + (" (may be left out)" if key.may_be_left_out else "") for name, key in keys.items()]
    has = "has the keys " + ", ".join(told) if told else "has the key do alone"
    for key, _ in value.what:
        if key.what not in keys and key.what not in others:
            refusal.by("unknown key")
            return refusal.at(
                key.start, f"the key {quoted(key.what)}", f"no such key: {word} {has}", lacking.key(key.what) or near(key.what, keys)
            )
        other = calls.beside(apart or {}, key.what, (each.what for each, _ in value.what))
        if other is not None:
            refusal.by("unknown key")
            return refusal.at(
                key.start, f"the key {quoted(key.what)}", f"no such key beside {quoted(other)}: {word} has the one or the other"
            )
    for name, key in keys.items():
        if value.member(name) is None and not key.may_be_left_out:
            refusal.by("missing key")
            return refusal.at(value.start, f"no key {name}", f"the key {name}: {key.expected()}")
    return None


def values_of_call(refusal: Refusal, text: Text, call: Value, top: Value) -> Refusal:
    wrong_values(refusal, text, call, calls.keys_of(call.needed("do").what) or {})
    return refusal


def wrong_values(refusal: Refusal, text: Text, owner: Value, keys: dict[str, Key]) -> Refusal | None:
    """Whether a value of a call, or of an object in it, is not what its key's values have to be."""
    for name, key in keys.items():
        value = owner.member(name)
        wrong = wrong_in(value, key) if value is not None else None
        if wrong is not None:
            found = shown(text.of(wrong))
            if wrong is value and value.kind == "list":
                found = f"a list of {len(value.what)}"
            if key.sort == "label" and wrong.kind == "string":
                found = label_said(found, wrong.what)
            refusal.by(why_wrong(wrong, key, wrong is value))
            return refusal.at(wrong.start, f"{found} under {name}", key.expected(), hint_of(wrong, key))
        for item in objects_in(value, key):
            if wrong_object(refusal, text, item, key.detail):
                return refusal
    return None


def word_of(key: Key) -> Key | None:
    """What a word has to be under a key, in a list or alone, or None where no word may stand."""
    return key if key.sort in ("word", "words") else key.word


def hint_of(wrong: Value, key: Key) -> str | None:
    """What is told of a wrong word, or None."""
    worded = word_of(key)
    if worded is None or wrong.kind != "string":
        return None
    return lacking.word(wrong.what, worded.detail) or near(wrong.what, calls.WORDS[worded.detail])


def label_said(found: str, label: str) -> str:
    """A label that may not stand, by its bytes where it is too long, and else by the character."""
    control = calls.control_in(label)
    return f"{found} of {len(label.encode())} bytes" if calls.is_long(label) or control is None else f"{found} with the character {control}"


def why_wrong(wrong: Value, key: Key, is_whole_value: bool) -> str:
    """The part of rule 8 that refuses a value, or an item of it, which is not what its key asks for."""
    if key.sort == "label" and wrong.kind == "string":
        return "long label" if calls.is_long(wrong.what) else "control"
    if is_whole_value and key.sort in ("three", *ITEMS) and wrong.kind == "list":
        return "three" if key.sort == "three" else "items"
    if key.sort in ("number", "numbers", "three") and wrong.kind == "number":
        return "range" if wrong.what.isdigit() or wrong.what[1:].isdigit() else "digits"
    return "word" if word_of(key) is not None and wrong.kind == "string" else "type"


def objects_in(value: Value | None, key: Key) -> list[Value]:
    """The objects that stand under a key, in a list or alone."""
    if value is None or key.sort not in ("object", "objects"):
        return []
    return [value] if key.sort == "object" else [item for item in value.what if item.kind == "object"]


def wrong_object(refusal: Refusal, text: Text, item: Value, sort: str) -> Refusal | None:
    """Whether an object in a call has wrong keys or values. Its form is looked at first, since its keys hang on that."""
    said, by, forms = calls.OBJECTS[sort]["said"], calls.form_key(sort), calls.forms_of(sort)
    if not forms:
        keys, apart = calls.keys_of_object(sort, item), calls.OBJECTS[sort].get("apart", {})
        return wrong_keys(refusal, item, said, keys, (), apart) or wrong_values(refusal, text, item, keys)
    form = calls.form_of(sort, item)
    if by is None and form is None:
        refusal.by("missing key")
        return refusal.at(
            item.start, "none of the keys " + ", ".join(forms), f"one of them: {said} has just one", near_key(item, forms, sort)
        )
    if by is not None and form is None:
        kind = calls.Key(calls.OBJECTS[sort]["keys"][by])
        value = item.member(by)
        if value is None:
            refusal.by("missing key")
            return refusal.at(item.start, f"no key {by}", f"the key {by}: {kind.expected()}", near_key(item, [by], sort))
        hint = lacking.word(value.what, kind.detail) or near(value.what, forms) if value.kind == "string" else None
        refusal.by("word" if value.kind == "string" else "type")
        return refusal.at(value.start, f"{shown(text.of(value))} under {by}", kind.expected(), hint)
    keys = calls.keys_of_object(sort, item)
    return wrong_keys(refusal, item, f"{said} with {f'a {form}' if by is None else f'the {by} {form}'}", keys) or wrong_values(
        refusal, text, item, keys
    )


def near_key(item: Value, wanted: Iterable[str], sort: str) -> str | None:
    """Which key of an object is likely one that it needs, written otherwise, or None."""
    known = {*calls.OBJECTS[sort]["keys"], *(key for form in calls.forms_of(sort).values() for key in form)}
    for key, _ in item.what:
        hint = near(key.what, wanted) if key.what not in known else None
        if hint:
            return f"of the key {quoted(key.what)} {hint}"
    return None


def wrong_in(value: Value, key: Key) -> Value | None:
    """The value, or the item of it, that is not what the key's values have to be, or None."""
    if key.may_be_none and value.kind == "string" and value.what == calls.NONE:
        return None
    if key.sort == "number":
        return None if is_whole(value, int(key.detail)) else value
    if key.sort == "three":
        if value.kind != "list" or len(value.what) != 3:
            return value
        return next((item for item in value.what if not is_whole(item, 32)), None)
    if key.sort == "boolean":
        return None if value.kind in ("true", "false") else value
    if key.sort == "word":
        return None if value.kind == "string" and value.what in calls.WORDS[key.detail] else value
    if key.sort == "object":
        return None if value.kind == "object" else value
    if key.sort == "label":
        return None if value.kind == "string" and not calls.is_long(value.what) and calls.control_in(value.what) is None else value
    if key.sort in ITEMS:
        if value.kind != "list" or len(value.what) > 1024:
            return value
        items = [item for item in value.what if not (key.may_have_null and item.kind == "null")]
        return next((item for item in items if not ITEMS[key.sort](item, key)), None)
    return None if value.kind == "string" or key.may_have_null and value.kind == "null" else value


# Whether an item of a list is what the list's sort asks for.
ITEMS = {
    "names": lambda item, key: item.kind == "string",
    "numbers": lambda item, key: is_whole(item, int(key.detail)),
    "words": lambda item, key: item.kind == "string" and item.what in calls.WORDS[key.detail],
    "objects": lambda item, key: item.kind == "object" or is_word(item, key.word),
}


def is_word(value: Value, key: Key | None) -> bool:
    """Whether a value is a word that a key has."""
    return key is not None and value.kind == "string" and value.what in calls.WORDS[key.detail]


def is_whole(value: Value, bits: int) -> bool:
    return value.kind == "number" and value.what.isdigit() and int(value.what) < 2**bits


def given_name(refusal: Refusal, text: Text, call: Value, top: Value) -> Refusal:
    name = call.needed("as")
    if not NAME.fullmatch(name.what):
        return refusal.at(name.start, f"the name {quoted(name.what)}", "1 to 64 letters, digits and _, of ASCII")
    first = scripts.Script(text, top).made.get(name.what)
    where = f"it was given before, at {text.where(first.value.start)}: {shown(text.of(first.value))}" if first else None
    return refusal.at(name.start, f"the name {name.what}", "a name that no earlier call gave", where)


def used_names(refusal: Refusal, text: Text, call: Value, top: Value) -> Refusal:
    """The first name of the call that is unknown, of a wrong kind or of another lane's encoder, by the rule."""
    script = scripts.Script(text, top)
    user = next(each for each in script.calls if each.place == refusal.place)
    for key, value, kinds in user.wanted_names():
        kinds = of_pass(script, user, kinds)
        maker = script.made.get(value.what)
        seen = maker if maker is not None and sees(user, maker) else None
        if refusal.rule == 10 and seen is None:
            may_be_auto = calls.may_be_auto(user.word, key)
            wanted = f"the name of {calls.either(kinds)} that an earlier call gave" + (
                f', or the word "{calls.AUTO}"' if may_be_auto else ""
            )
            return refusal.at(
                value.start,
                f"the name {quoted(value.what)} under {key}",
                wanted,
                unseen(script, user, value.what, maker, [calls.AUTO] * may_be_auto),
            )
        made_is = calls.makes(seen.word) if seen is not None else None
        if refusal.rule == 11 and seen is not None and made_is is not None and made_is not in kinds:
            is_one = f"{value.what} is {calls.either([made_is])}, made at {script.where(seen)}: {script.said(seen)}"
            return refusal.by(why_wrong_kind(user, seen)).at(
                value.start, f"the name {value.what} under {key}", f"the name of {calls.either(kinds)}", is_one, undropped(user, seen)
            )
        if refusal.rule == 12 and seen is not None and key in OWN and seen.place[:2] != user.place[:2]:
            made = f"{value.what} was made in phase {seen.place[0]}, lane {seen.place[1]}, at {script.where(seen)}: {script.said(seen)}"
            return refusal.at(value.start, f"the name {value.what} under {key}", f"{OWN[key]} that this lane made in this phase", made)
    return refusal


# What a lane has to have made itself, in the same phase, by the key that names it.
OWN = {"on": "an encoder, a bundle encoder or a pass", "canvas": "a canvas"}


def is_shown(user: Call, maker: Call) -> bool:
    """Whether a drop names what a currentTexture gave."""
    return user.word == "drop" and calls.canvas(maker.word) is not None and calls.makes(maker.word) == "canvas texture"


def why_wrong_kind(user: Call, maker: Call) -> str:
    """The part of rule 11 that refuses a name."""
    return "drop" if is_shown(user, maker) else "kind"


def undropped(user: Call, maker: Call) -> str | None:
    """What to do in place of a drop of the texture of a canvas, or None."""
    return (
        "the texture of a canvas is not dropped: the next present or configureCanvas destroys it, and so may a destroy"
        if is_shown(user, maker)
        else None
    )


def unset_canvas(refusal: Refusal, text: Text, call: Value, top: Value) -> Refusal:
    """The canvas of a currentTexture that no earlier configureCanvas has set."""
    script = scripts.Script(text, top)
    value = call.needed("canvas")
    maker = script.made.get(value.what)
    made = f"{value.what} was made at {script.where(maker)}: {script.said(maker)}" if maker is not None else None
    later = next(
        (
            each
            for each in script.calls
            if calls.canvas(each.word) == "configures" and scripts.string_of(each.value, "canvas") == value.what
        ),
        None,
    )
    comes = f"it is configured only later, at {script.where(later)}" if later is not None else "no call configures it"
    return refusal.at(
        value.start, f"the name {value.what} under canvas", "a canvas that an earlier configureCanvas has configured", made, comes
    )


def of_pass(script: Script, user: Call, kinds: list[str]) -> list[str]:
    """Of the kinds of pipelines that a call takes just the one of the kind of pass or encoder that it stands on."""
    maker = script.made.get(scripts.string_of(user.value, "on"))
    wanted = calls.PIPELINES.get(calls.makes(maker.word)) if maker is not None else None
    return [wanted] if wanted in kinds else kinds


def sees(user: Call, maker: Call) -> bool:
    """Whether a call sees the name that another gives: in its own lane the earlier ones, and all of earlier phases."""
    same = user.place[:2] == maker.place[:2]
    return maker.place[0] < user.place[0] or (same and maker.place[2] < user.place[2])


def unseen(script: Script, user: Call, name: str, maker: Call | None, words: list[str]) -> str | None:
    """Why a name is not visible at a call, where some words may stand as well."""
    if maker is user:
        return f"{name} is the name that this very call gives"
    if maker is not None:
        is_later = maker.place[:2] == user.place[:2] or maker.place[0] > user.place[0]
        how = "only later" if is_later else "in another lane of the same phase, whose names are not visible here"
        return f"{name} is given {how}, at {script.where(maker)}: {script.said(maker)}"
    return near(name, words + [call.gives for call in script.calls if call.gives and sees(user, call)])


def near(word: object, words: Iterable[str]) -> str | None:
    """The nearest of some words, as a hint, or None."""
    found = difflib.get_close_matches(str(word), list(words), 1, 0.7)
    return f"the nearest is {quoted(found[0])}" if found else None


def kind_of(value: Value) -> str:
    return {"object": "an object", "list": "a list", "string": "a string", "number": "a number"}.get(value.kind, value.kind)


def quoted(word: str) -> str:
    return '"' + scripts.shown(word, 80) + '"'


def shown(text: str) -> str:
    return scripts.shown(text, 120)


def explained(text: Text, line: str) -> list[str]:
    """The lines that explain a refusal."""
    refusal = find(text, line)
    where = ", ".join(f"{part} {number}" for part, number in zip(PARTS, refusal.place))
    lines = [f"The script is refused: {line.strip()}" + (f" ({where})" if where else "")]
    lines += [f"  script rule {refusal.rule} refuses: {refusal.refuses}"] if refusal.refuses else []
    if refusal.offset is None:
        return lines + ["  what of it breaks the rule was not found: the program tells no more than the line above"]
    lines += ["", f"{text.where(refusal.offset)}"]
    if refusal.found:
        lines.append(f"  found:    {refusal.found}")
    if refusal.expected:
        lines.append(f"  expected: {refusal.expected}")
    lines += [f"  {each}" for each in refusal.more]
    return lines + pointed(text, refusal.offset)


def pointed(text: Text, offset: int) -> list[str]:
    """The line of the text at an offset, with a mark below the place."""
    line, column = text.place(offset)
    return marked(text.text.split("\n")[line - 1], column)


def marked(line: str, column: int) -> list[str]:
    """A line, cut to what can be read, with a mark below a column."""
    whole = line.expandtabs(1).rstrip("\r")
    first = max(0, column - 60)
    before, after = escaped(whole[first : column - 1]), escaped(whole[column - 1 : first + 100])
    return [
        "",
        f"  {'..' if first else ''}{before}{after}{'..' if first + 100 < len(whole) else ''}",
        "  " + " " * (len(before) + 2 * bool(first)) + "^",
    ]
