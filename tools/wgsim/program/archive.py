"""The archive of the C interface, and what it is linked with.

`rt lib` in crates/wg_c builds it, and proves what it stands on where that was not kept. The gate proves all of it too, and leaves the
libraries, with no stamp that `rt lib` would go by; of the crate itself, as of any static library, it leaves nothing: it runs `rattle check`
without `-o`. So where the libraries are there, the archive is built over them as they are, by the toolchain's own `rattle build`, over
what `rt check` or `rt lib` kept of the crate in out/incremental: then nothing is proved twice. Where nothing was kept, as right after a
gate, the crate is checked once more, and kept.
"""

from __future__ import annotations

import os
import pathlib
import shutil
import subprocess

from wgsim import TOP
from wgsim.program import building, crates

CRATE = TOP / "crates/wg_c"
ARCHIVE = CRATE / "out/libwg_c.a"
STAMP = CRATE / "out/libwg_c.sources"


def is_there() -> bool:
    """Whether the repository has the crate of the exports."""
    return "wg_c" in crates.listed()


def kit() -> pathlib.Path | None:
    """The folder of the toolchain, or None."""
    found = shutil.which("rt")
    return pathlib.Path(found).resolve().parent.parent if found else None


def libc() -> pathlib.Path:
    """What the archive takes of the C library, as the toolchain has it: its heap."""
    return pathlib.Path(f"{kit()}/c/liblibc_c.a")


def below() -> list[str]:
    """The crates of the repository that the exports stand on, by others too."""
    return [name for name in crates.needed("wg_c") if name != "wg_c"]


def library(name: str) -> pathlib.Path:
    return TOP / "crates" / name / "out/rlib" / f"{name}.rlib"


def build() -> str | None:
    """Proves the crate of the exports over the libraries that are there, and writes the archive. Returns what was said, if that failed."""
    of_repository, rlibs = crates.listed(), f"{kit()}/rlibs"
    words = [f"{kit()}/bin/rattle", "build", "--crate-name", "wg_c", "src/lib.rt", "--crate-type", "staticlib"]
    for name in dict.fromkeys(["std", *crates.words()["wg_c"]]):
        words += ["--extern", f"{name}={library(name) if name in of_repository else f'{rlibs}/{name}.rlib'}"]
    words += ["-L", f"dependency={rlibs}"]
    for name in below():
        words += ["-L", f"dependency={library(name).parent}"]
    words += ["--antt-project", f"{kit()}/rattle/logic/antt-project.json", "--logic-built", f"{kit()}/logic_built", "--links", "wg_c="]
    words += [
        "--jobs",
        str(min(4, len(os.sched_getaffinity(0)))),
        "--toolchain", f"{kit()}/toolchain", "--backend", "llvm", "-o",
        str(ARCHIVE),
    ]
    ARCHIVE.parent.mkdir(exist_ok=True)
    ran = subprocess.run(
        words, cwd=CRATE, stdin=subprocess.DEVNULL, stdout=subprocess.PIPE, stderr=subprocess.STDOUT, text=True, errors="replace"
    )
    return ran.stdout if ran.returncode else None


def is_built() -> bool:
    """Whether the archive is there and of the sources as they are now."""
    sources = crates.sum_of(crates.needed("wg_c"))
    return ARCHIVE.exists() and STAMP.exists() and STAMP.read_text(encoding="utf-8") == building.stamp_of(ARCHIVE, sources)


def found() -> tuple[pathlib.Path | None, str | None]:
    """The archive of the sources as they are, built if need be, and None; or None, and why there is none."""
    if kit() is None:
        return None, building.NEEDS_RT.format("build the archive of the C interface")
    if is_built():
        return ARCHIVE, None
    sources, lacking = crates.sum_of(crates.needed("wg_c")), lacks()
    if lacking:
        how = "`rt ci` at the top proves all, and `rt lib` in crates/wg_c what the archive needs"
        return None, f"these are not proved here: {' '.join(lacking)}. {how}"
    failed = build()
    if failed:
        return None, f"the archive was not built:\n{failed}"
    STAMP.write_text(building.stamp_of(ARCHIVE, sources), encoding="utf-8")
    return ARCHIVE, None


def lacks() -> list[str]:
    """The crates below the exports of which no library is there."""
    return [name for name in below() if not library(name).is_dir()]
