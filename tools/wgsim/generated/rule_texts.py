"""What each rule asks and where the standard has it, for callers in C and in Rust who are told its number: by docs/rules.json.

The header and the module of the crate are written whole.
"""

from __future__ import annotations

import pathlib
import textwrap
from typing import Callable

from wgsim.reading import rules

HEADER, MODULE = "include/wethlorn_rules.h", "examples/rust/src/rules.rs"
WIDTH = 100
HEAD_OF_HEADER = """\
/* What each rule asks, in a sentence, and which section of the WebGPU standard has it, by the number that a fault has.
 * Written of docs/rules.json by `tools/python -m wgsim.generated --write`.
 *
 *     if (reply.fault)
 *         fprintf(stderr, "%s (WebGPU, %s)\\n", wethlorn_rule_text(reply.rule), wethlorn_rule_section(reply.rule));
 */
#ifndef WETHLORN_RULES_H
#define WETHLORN_RULES_H
#include <stddef.h>
#include <stdint.h>
"""
HEAD_OF_MODULE = """\
//! What each rule asks, and which section of the WebGPU standard has it. Written of `docs/rules.json` by
//! `tools/python -m wgsim.generated --write`.
"""
TEXT = "What a rule asks, of which a fault says that it is not so."
SECTION = "The section of the WebGPU standard that has a rule, or the sections, with commas between them."


def texts() -> list[tuple[list[int], str]]:
    """Each sentence with the rules that have it, in the order of their numbers."""
    return grouped([(number, rules.sentence_of(number)) for number in rules.numbers()])


def sections() -> list[tuple[list[int], str]]:
    """Each list of sections, likewise."""
    return grouped([(number, ", ".join(rules.sections_of(number))) for number in rules.numbers()])


def grouped(rows: list[tuple[int, str]]) -> list[tuple[list[int], str]]:
    """Rows of which those with one text are one, where the first of them stands."""
    found: dict[str, list[int]] = {}
    for number, text in rows:
        found.setdefault(text, []).append(number)
    return [(numbers, text) for text, numbers in found.items()]


def pieces(text: str) -> list[str]:
    """A text in pieces that are not too long, each as a literal of either language; all but the last end with a space."""
    lines = textwrap.wrap(text, WIDTH, break_long_words=False, break_on_hyphens=False)
    escaped = [line.replace("\\", "\\\\").replace('"', '\\"') for line in lines]
    return [f"{line} " for line in escaped[:-1]] + escaped[-1:]


def c_function(name: str, about: str, rows: list[tuple[list[int], str]]) -> list[str]:
    """The lines of a function of the header."""
    lines = ["", *textwrap.wrap(f"/* {about} NULL: no rule has the number. */", 108, subsequent_indent=" * ")]
    lines += [f"static inline const char *{name}(uint32_t rule) {{", "    switch (rule) {"]
    for numbers, text in rows:
        lines += textwrap.wrap(" ".join(f"case {number}:" for number in numbers), WIDTH, initial_indent="    ", subsequent_indent="    ")
        first, *others = [f'"{piece}"' for piece in pieces(text)]
        literals = [f"        return {first}", *(f"               {other}" for other in others)]
        lines += [*literals[:-1], literals[-1] + ";"]
    return [*lines, "    default:", "        return NULL;", "    }", "}"]


def rust_function(name: str, about: str, rows: list[tuple[list[int], str]]) -> list[str]:
    """The lines of a function of the crate."""
    lines = ["", f"/// {about} None: no rule has the number.", "#[rustfmt::skip]"]
    lines += [f"pub fn {name}(rule: u32) -> Option<&'static str> {{", "    Some(match rule {"]
    for numbers, text in rows:
        lines += textwrap.wrap(" | ".join(map(str, numbers)), WIDTH, initial_indent="        ", subsequent_indent="        ")
        first, *others = pieces(text)
        literals = [f'            "{first}', *(f"             {other}" for other in others)]
        lines[-1] += " =>"
        lines += [*(f"{literal}\\" for literal in literals[:-1]), f'{literals[-1]}",']
    return [*lines, "        _ => return None,", "    })", "}"]


def header() -> str:
    """The text of the header."""
    lines = c_function("wethlorn_rule_text", TEXT, texts()) + c_function("wethlorn_rule_section", SECTION, sections())
    return HEAD_OF_HEADER + "\n".join([*lines, "", "#endif"]) + "\n"


def module() -> str:
    """The text of the module of the crate."""
    return HEAD_OF_MODULE + "\n".join(rust_function("rule_text", TEXT, texts()) + rust_function("rule_section", SECTION, sections())) + "\n"


WRITTEN: tuple[tuple[str, Callable[[], str]], ...] = ((HEADER, header), (MODULE, module))


def write(top: pathlib.Path) -> None:
    """Writes both."""
    for name, text in WRITTEN:
        (top / name).write_text(text(), encoding="utf-8")


def findings_of(top: pathlib.Path) -> list[str]:
    """Whether they are others, and which rule has several sentences in docs/rules.json and none alone, or is none."""
    others = [name for name, text in WRITTEN if (top / name).read_text(encoding="utf-8") != text()]
    found = [f"{name}: it is not what is written of docs/rules.json" for name in others]
    several = {number for number in rules.numbers() if len({rule.asks for rule in rules.of(number)}) > 1}
    found += [f"docs/rules.json: rule {number} has several sentences, and none in `alone`" for number in sorted(several - set(rules.ALONE))]
    return found + [f"docs/rules.json: {number} of `alone` is no rule" for number in sorted(set(rules.ALONE) - set(rules.numbers()))]
