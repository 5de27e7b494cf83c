"""Checks of what is written in Python: that Python 3.8 reads it, that no module has the name of one of Python's own, what flake8 says of
it, and what mypy says of the types of what is public. Where flake8 or mypy is not installed (Debian: flake8, mypy), that is said."""

import ast
import os
import pathlib
import shutil
import subprocess
import sys

FOLDERS = ("tools", "model", "tests", "measure")
FIRST = b"#!/usr/bin/env python3\n"
# What mypy looks at, as mypy.ini has it.
TYPED = ("tools/wgsim", "model")


def files(top):
    """All texts in Python: those that say so by their name, and those that do by their first line."""
    yield top / "wgsim"
    for folder in FOLDERS:
        for path in sorted((top / folder).rglob("*")):
            if path.is_file() and "out" not in path.relative_to(top).parts and "__pycache__" not in path.parts:
                if path.suffix == ".py" or path.read_bytes().startswith(FIRST):
                    yield path


def check_read(top, findings):
    """Each text can be read by Python 3.8."""
    for path in files(top):
        try:
            ast.parse(path.read_text(encoding="utf-8"), feature_version=(3, 8))
        except (SyntaxError, ValueError) as error:
            findings.append(f"{path.relative_to(top)}: {error}")


def check_names(top, findings):
    """No module has the name of one of Python's own, where this Python tells those."""
    own = getattr(sys, "stdlib_module_names", frozenset())
    for path in files(top):
        if path.stem in own:
            findings.append(f"{path.relative_to(top)}: Python has a module {path.stem} of its own")


def said_by(top, words):
    """What a tool says of the files, a line for each finding; nothing where the tool is not there."""
    if shutil.which(words[0]) is None:
        print(f"notice: {words[0]} is not installed, so it looks at nothing (Debian: apt-get install {words[0]})")
        return []
    environment = {**os.environ, "MYPY_CACHE_DIR": str(top / "tools/out/mypy")}
    ran = subprocess.run(words, cwd=top, env=environment, stdout=subprocess.PIPE, stderr=subprocess.STDOUT, text=True, check=False)
    return [] if ran.returncode == 0 else [f"{words[0]}: {line}" for line in ran.stdout.splitlines()]


def check_style(top, findings):
    """flake8, by the file .flake8."""
    findings += said_by(top, ["flake8", *(str(path.relative_to(top)) for path in files(top))])


def check_types(top, findings):
    """mypy, by the file mypy.ini."""
    findings += said_by(top, ["mypy", *TYPED])


CHECKS = (check_read, check_names, check_style, check_types)


def findings_of(top: pathlib.Path):
    """What all checks find."""
    findings = []
    for check in CHECKS:
        check(top, findings)
    return findings
