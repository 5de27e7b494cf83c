"""Which files a release has: those of the repository that a user needs, and those that stand in it alone."""

from __future__ import annotations

import pathlib
import shutil

from wgsim import TOP
from wgsim.releasing import manifest

# What goes into a release as the repository has it. Files that git does not know are no part of it.
TAKEN = ("CHANGELOG.md", "VERSION", "docs", "examples", "include", "model", "tools", "wgsim")
# What of that is for the repository alone.
LEFT = ("tools/release", "tools/wgsim/releasing/", "tools/wgsim/generated/")
OWN = pathlib.Path(__file__).resolve().parent / "files"
# Where what stands in a release alone goes, each with whether it is executable.
PLACES = {
    "README.md": ("README.md", False),
    "install": ("install", True),
    "wethlorn.pc": ("lib/pkgconfig/wethlorn.pc", False),
    "wethlorn-shared.pc": ("lib/pkgconfig/wethlorn-shared.pc", False),
    "wethlornConfig.cmake": ("lib/cmake/wethlorn/wethlornConfig.cmake", False),
    "wethlornConfigVersion.cmake": ("lib/cmake/wethlorn/wethlornConfigVersion.cmake", False),
}


def taken() -> list[str]:
    """The files of the repository that a release has."""
    listed = manifest.git("ls-files", "-z", "--", *TAKEN).split("\0")
    return sorted(name for name in listed if name and not name.startswith(LEFT) and (TOP / name).is_file())


def copy(folder: pathlib.Path) -> None:
    """Puts them into a folder."""
    for name in taken():
        put(TOP / name, folder / name, bool((TOP / name).stat().st_mode & 0o100))


def put(source: pathlib.Path, target: pathlib.Path, is_executable: bool) -> None:
    target.parent.mkdir(parents=True, exist_ok=True)
    shutil.copyfile(source, target)
    target.chmod(0o755 if is_executable else 0o644)


def soname(version: str) -> str:
    """By which name programs find the shared library: before 1.0 each minor version may change what they see."""
    major, minor, _ = version.split(".")
    return f"libwethlorn.so.{major}.{minor}" if major == "0" else f"libwethlorn.so.{major}"


def fill(folder: pathlib.Path, words: dict[str, str]) -> None:
    """Writes what stands in a release alone, with each @WORD@ as it is in this one."""
    for name, (place, is_executable) in PLACES.items():
        target = folder / place
        put(OWN / name, target, is_executable)
        text = target.read_text(encoding="utf-8")
        for word, means in words.items():
            text = text.replace(f"@{word}@", means)
        target.write_text(text, encoding="utf-8")
