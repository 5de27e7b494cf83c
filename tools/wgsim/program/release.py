"""A release: the tool with the program beside it, as `tools/release` writes it, with no sources and no need of the toolchain.

A folder is one where the file MANIFEST.json stands at its top. It tells of which commit the release is, by which toolchain it was proved,
and the checksum of each file."""

from __future__ import annotations

import functools
import hashlib
import json
import pathlib
from typing import Any

from wgsim import TOP, exit_status

NAME = "MANIFEST.json"
MANIFEST = TOP / NAME
# Where the program lies, below the top.
FILE = "program/wgsim"
PROGRAM = TOP / FILE


def is_one() -> bool:
    """Whether the tool stands in a release, and not in the repository."""
    return MANIFEST.is_file()


@functools.lru_cache(maxsize=None)
def manifest() -> dict[str, Any]:
    """What the release says of itself."""
    found: dict[str, Any] = json.loads(MANIFEST.read_text(encoding="utf-8"))
    return found


def sum_of(path: pathlib.Path) -> str:
    """The checksum of a file."""
    return hashlib.sha256(path.read_bytes()).hexdigest()


@functools.lru_cache(maxsize=None)
def is_whole() -> bool:
    """Whether the program is the one that the manifest has."""
    return PROGRAM.is_file() and sum_of(PROGRAM) == manifest()["files"][FILE]


def is_proved() -> bool:
    """Whether the program is there, and was of proved sources when the release was written."""
    return is_whole() and manifest()["program"]["is_of_the_commit"]


def said() -> str:
    """What the program is, for those who read its answers."""
    return "the proved program" if is_proved() else "the program of this release, of which its maker did not say that it is proved"


def program(is_unproved: bool) -> pathlib.Path:
    """The program, or an end that says why there is none."""
    if is_unproved:
        raise exit_status.End(exit_status.NOT_BUILT, "a release has no sources, so none can be compiled without proofs")
    if not is_whole():
        raise exit_status.End(exit_status.NOT_BUILT, f"{PROGRAM} is not the program of {MANIFEST}: take the release anew")
    return PROGRAM


def version() -> list[str]:
    """Which release this is, and what answers."""
    told = manifest()
    return [
        f"wgsim of Wethlorn {told['version']}, a release of the commit {told['commit'][:12]}",
        f"answers are from {said()}" if is_whole() else f"the program is not there, or is not that of {NAME}",
        f"it was built by {told['toolchain']}",
    ]
