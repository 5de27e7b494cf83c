"""Writes what is generated of the pages.

    tools/python -m wgsim.generated --write     writes docs/rules.md, docs/definitions.md behind its mark, the tables of other pages, and
                                                what rules ask for callers in C and Rust
    tools/python -m wgsim.generated --check     says what of these is not as it would be written, and which definition has no sentence
"""

from __future__ import annotations

import argparse
import sys

from wgsim import TOP
from wgsim.generated import definitions, rule_page, rule_texts, tables

GENERATED = (rule_page, rule_texts, definitions, tables)


def main() -> int:
    parser = argparse.ArgumentParser(prog="tools/python -m wgsim.generated", description=__doc__.split("\n\n", maxsplit=1)[0])
    which = parser.add_mutually_exclusive_group(required=True)
    which.add_argument("--write", action="store_true", help="write it")
    which.add_argument("--check", action="store_true", help="say what is not as it would be written")
    if parser.parse_args().write:
        for each in GENERATED:
            each.write(TOP)
    findings = [finding for each in GENERATED for finding in each.findings_of(TOP)]
    print(*findings, sep="\n", end="\n" if findings else "")
    return 1 if findings else 0


sys.exit(main())
