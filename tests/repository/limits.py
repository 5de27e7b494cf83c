"""Limits: the numbers, the defaults and the best values of the header, and those of docs/limits.json, are those of wg_limits."""

import json
import re

HEADER, TABLE = "include/wethlorn.h", "docs/limits.json"
VALUES, NAMES = "crates/wg_limits/specs/Limits.antt", "crates/wg_limits/specs/Names.antt"


def record(text, head):
    """The fields of the record that a definition is."""
    body = text.partition(head)[2].partition("\n}\n")[0]
    return {name: int(value) for name, value in re.findall(r"^  (\w+) = (?:Some )?(\d+);$", body, re.M)}


def limits_of(top):
    """Each limit in the order of its number: how it is spelled, its field, its default or what is told where it has none, its best value,
    and its default or None."""
    values, names = ((top / path).read_text(encoding="utf-8") for path in (VALUES, NAMES))
    by_default = record(values, "default_limits = record {")
    best = {**by_default, **record(values, "best_limits = record default_limits {")}
    rows = re.findall(r"^limit_of (\w+) limits = (?:unwrap_or )?limits\.(\w+)(?: (\d+))?$", values, re.M)
    told = {**by_default, **{field: int(value) for _, field, value in rows if value}}
    fields = {name: field for name, field, _ in rows}
    texts = dict(re.findall(r'^limit_text (\w+) = codes "(\w+)"$', names, re.M))
    order = re.findall(r"\w+", names.partition("\nlimit_names =")[2].partition("[]")[0])
    return [(texts[name], fields[name], told[fields[name]], best[fields[name]], by_default.get(fields[name])) for name in order]


def defined(text, pattern):
    """The numbers of the header by name, where they are written so."""
    return {name: int(value) for name, value in re.findall(pattern, text)}


def in_header(top, limits):
    """Where the header has another number, default or best value, or one of no limit."""
    text = (top / HEADER).read_text(encoding="utf-8")
    numbers = defined(text.partition("/* Limits that")[2].partition("};")[0], r"WETHLORN_(\w+) = (\d+)")
    for found, wanted, what in (
        (numbers, {field.upper(): place + 1 for place, (_, field, *_) in enumerate(limits)}, "number"),
        (defined(text, r"WETHLORN_DEFAULT_(\w+) UINT64_C\((\d+)\)"), {field.upper(): value for _, field, value, *_ in limits}, "default"),
        (defined(text, r"WETHLORN_BEST_(\w+) UINT64_C\((\d+)\)"), {field.upper(): value for _, field, _, value, _ in limits}, "best value"),
    ):
        for name in sorted({*found, *wanted}):
            if found.get(name) != wanted.get(name):
                yield f"{HEADER}: the {what} of {name} is {found.get(name)}, and {wanted.get(name)} in crates/wg_limits"


def in_table(top, limits):
    """Where docs/limits.json has another default or best value, or another least one of a limit without a default, or no such limit."""
    rows = json.loads((top / TABLE).read_text(encoding="utf-8"))["limits"]
    found = {row["name"]: (row["default"], row["best"], row.get("least")) for row in rows}
    wanted = {name: (own, best, told if own is None else None) for name, _, told, best, own in limits}
    for name in sorted({*found, *wanted}):
        if found.get(name) != wanted.get(name):
            yield f"{TABLE}: {name} has {found.get(name)}, and {wanted.get(name)} in crates/wg_limits"


def findings_of(top):
    """All that there is to find."""
    limits = limits_of(top)
    return [*in_header(top, limits), *in_table(top, limits)]
