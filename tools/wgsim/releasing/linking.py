"""The libraries of a release: one archive with all that the C interface is linked with, and a shared library of it.

Both have the functions of the header as the only names that a program sees which is linked with them. The toolchain's heap, which other
archives of its may bring too, is joined in, and its names are kept inside."""

from __future__ import annotations

import pathlib
import re
import subprocess
from typing import Sequence

from wgsim import TOP, exit_status

HEADER = TOP / "include/wethlorn.h"
FUNCTION = re.compile(r"^uint32_t (wethlorn_\w+)\(", re.M)
GLIBC = re.compile(rb"\bGLIBC_(\d+)\.(\d+)")


def run(words: Sequence[str | pathlib.Path]) -> str:
    """What a command writes on standard output, or an end with its own words where it fails."""
    try:
        ran = subprocess.run([str(word) for word in words], stdin=subprocess.DEVNULL, capture_output=True, text=True)
    except OSError as error:
        raise exit_status.End(exit_status.NOT_BUILT, f"{words[0]} cannot be run: {error.strerror}") from None
    if ran.returncode:
        said = f"`{' '.join(map(str, words))}` ended with {ran.returncode}:\n{ran.stdout}{ran.stderr}"
        raise exit_status.End(exit_status.NOT_BUILT, said)
    return ran.stdout


def functions() -> list[str]:
    """The functions that the header declares."""
    return sorted(FUNCTION.findall(HEADER.read_text(encoding="utf-8")))


def names(library: pathlib.Path, *which: str) -> list[str]:
    """The names of a library that a linker sees, without those of the versions of the C library."""
    listed = run(["nm", "--format=posix", "--extern-only", *which, library])
    return sorted({line.split()[0].partition("@")[0] for line in listed.splitlines() if len(line.split()) > 1})


def check_names(library: pathlib.Path, *which: str) -> None:
    """That a library has the functions of the header, and no other name."""
    found, wanted = names(library, "--defined-only", *which), functions()
    if found != wanted:
        differ = sorted({*found} ^ {*wanted})
        raise exit_status.End(exit_status.NOT_BUILT, f"{library.name} is to have the functions of the header alone: {differ}")


def archive(given: Sequence[pathlib.Path], into: pathlib.Path, folder: pathlib.Path) -> None:
    """Joins archives into one that has one object."""
    whole, alone = folder / "joined.o", folder / "wethlorn.o"
    run(["ld", "-r", "--whole-archive", *given, "-o", whole])
    run(["objcopy", "--wildcard", "--keep-global-symbol=wethlorn_*", "--strip-debug", whole, alone])
    into.unlink(missing_ok=True)
    run(["ar", "rcsD", into, alone])
    check_names(into)


def shared(static: pathlib.Path, into: pathlib.Path, name: str) -> None:
    """Makes a shared library of the archive, by which programs find it under a name. Text that would have to be changed as it is loaded,
    or a name that nothing has, is an end."""
    alone = [f"-Wl,{word}" for word in (f"-soname,{name}", "-z,defs", "-z,text", "-z,noexecstack", "--whole-archive")]
    run(["gcc", "-shared", *alone, static, "-Wl,--no-whole-archive", "-o", into])
    run(["strip", "--strip-unneeded", into])
    check_names(into, "--dynamic")


def least_glibc(paths: Sequence[pathlib.Path]) -> str:
    """The least version of the GNU C library that has what some programs and libraries name of it."""
    found = [found for path in paths for found in GLIBC.findall(run(["objdump", "--private-headers", path]).encode())]
    most = max(((int(major), int(minor)) for major, minor in found), default=(2, 0))
    return f"{most[0]}.{most[1]}"
