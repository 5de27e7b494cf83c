"""What a release says of itself: its version and commit, by which toolchain what was proved, and the checksum of each file."""

from __future__ import annotations

import datetime
import json
import pathlib
import subprocess
from typing import Any, Sequence

from wgsim import TOP, exit_status
from wgsim.program import building, crates, release
from wgsim.releasing import packing

SUMS = "SHA256SUMS"
# What the toolchain compiles for where it is not told otherwise, as `rt lib` prints it.
PROCESSOR = "x86-64-v2"


def git(*words: str) -> str:
    """What git says of the repository."""
    try:
        ran = subprocess.run(["git", *words], cwd=TOP, stdin=subprocess.DEVNULL, capture_output=True, text=True)
    except OSError:
        raise exit_status.End(exit_status.NOT_BUILT, "git is needed: a release is of a commit") from None
    if ran.returncode:
        raise exit_status.End(exit_status.NOT_BUILT, f"a release is of a commit: `git {' '.join(words)}` says\n{ran.stderr}")
    return ran.stdout


def commit_time() -> int:
    """When the commit was made, in seconds: the time of each file of a release."""
    return int(git("log", "-1", "--format=%ct"))


def version() -> str:
    return (TOP / "VERSION").read_text(encoding="utf-8").strip()


def changed(files: Sequence[str]) -> list[str]:
    """The files of the release and the crates that differ from the commit, or that it does not have."""
    lines = git("status", "--porcelain", "--no-renames", "--untracked-files=all", "--", "crates", "crates.txt", *files).splitlines()
    return [line[3:] for line in lines]


def told(is_program: bool, is_archive: bool, files: Sequence[str], least_glibc: str) -> dict[str, Any]:
    """What a release says, but for the checksums. Of the program and the archive it is told whether they are known to be of the proved
    sources of the commit, or were named as they are."""
    committed = datetime.datetime.fromtimestamp(commit_time(), datetime.timezone.utc)
    return {
        "name": "wethlorn",
        "version": version(),
        "platform": "x86_64-linux",
        "commit": git("rev-parse", "HEAD").strip(),
        "committed": committed.isoformat(),
        "differs_from_the_commit": changed(files),
        "toolchain": building.toolchain() or "unknown",
        "program": {"file": release.FILE, "is_of_the_commit": is_program, "proved_crates": crates.needed("wgsim")},
        "archive": {"file": "lib/libwethlorn.a", "is_of_the_commit": is_archive, "proved_crates": crates.needed("wg_c")},
        "needs": {"processor": PROCESSOR, "glibc": least_glibc, "python": "3.8, for the tool"},
    }


def write(folder: pathlib.Path, says: dict[str, Any]) -> None:
    """Writes the manifest with the checksum of each other file, and all checksums as `sha256sum --check` reads them."""
    names = [name for name in packing.files_in(folder) if not (folder / name).is_symlink()]
    says["files"] = {name: release.sum_of(folder / name) for name in names}
    (folder / release.NAME).write_text(json.dumps(says, indent=1) + "\n", encoding="utf-8")
    lines = [f"{release.sum_of(folder / name)}  {name}\n" for name in sorted([*names, release.NAME])]
    (folder / SUMS).write_text("".join(lines), encoding="utf-8")
