"""The words of `tools/release`, and what they do."""

from __future__ import annotations

import argparse
import os
import pathlib
import sys
import tempfile

from wgsim import exit_status
from wgsim.program import archive, building, release
from wgsim.releasing import contents, linking, manifest, packing

ABOUT = """\
Writes wethlorn-VERSION-x86_64-linux.tar.gz, and its checksum beside it: the proved program with the tool, the library with
header, packages for pkg-config and CMake and the crate in Rust, the examples and the pages. Whoever has it needs no
toolchain. The same commit, program and archive make the same bytes.

The program is the one that `./wgsim prove` built of the sources as they are, and the archive is built of these where all
that it stands on is proved. --program, --archive and --libc name others, which the manifest then tells.
"""


def parser() -> argparse.ArgumentParser:
    reader = argparse.ArgumentParser(prog="tools/release", description=ABOUT, formatter_class=argparse.RawDescriptionHelpFormatter)
    reader.add_argument("--into", metavar="FOLDER", default="tools/out", help="where the release is written (tools/out)")
    reader.add_argument("--program", metavar="FILE", help="the program, in place of the proved one of these sources")
    reader.add_argument("--archive", metavar="FILE", help="the archive of the C interface, in place of that of these sources")
    reader.add_argument("--libc", metavar="FILE", help="what stands for the heap of the C library in place of the toolchain's")
    return reader


def program_of(named: str | None) -> pathlib.Path:
    """The program of the release."""
    if named:
        return pathlib.Path(named)
    if not building.is_built():
        raise exit_status.End(exit_status.NOT_BUILT, "the proved program is not built from these sources: `./wgsim prove` builds it")
    return building.PROGRAM


def archives_of(named: str | None, libc: str | None) -> list[pathlib.Path]:
    """The archive of the release, and the heap that it takes memory from."""
    found, why = (pathlib.Path(named), None) if named else archive.found()
    if found is None:
        raise exit_status.End(exit_status.NOT_BUILT, f"there is no archive of the C interface: {why}")
    if not libc and archive.kit() is None:
        why = "the heap of the toolchain `rt` is needed, and `rt` is not on the PATH; --libc names another"
        raise exit_status.End(exit_status.NOT_BUILT, why)
    return [found, pathlib.Path(libc) if libc else archive.libc()]


def libraries(folder: pathlib.Path, given: list[pathlib.Path]) -> pathlib.Path:
    """Puts both libraries into a release, and returns the shared one."""
    version = manifest.version()
    names = [f"libwethlorn.so.{version}", contents.soname(version), "libwethlorn.so"]
    (folder / "lib/shared").mkdir(parents=True)
    with tempfile.TemporaryDirectory() as room:
        linking.archive(given, folder / "lib/libwethlorn.a", pathlib.Path(room))
    shared = folder / "lib/shared" / names[0]
    linking.shared(folder / "lib/libwethlorn.a", shared, names[1])
    shared.chmod(0o755)
    for name, means in zip(names[1:], names):
        os.symlink(means, folder / "lib/shared" / name)
    return shared


def write(words: argparse.Namespace) -> pathlib.Path:
    """Writes the release, and returns where it lies."""
    into, version = pathlib.Path(words.into), manifest.version()
    program, given = program_of(words.program), archives_of(words.archive, words.libc)
    name = f"wethlorn-{version}-x86_64-linux"
    into.mkdir(parents=True, exist_ok=True)
    with tempfile.TemporaryDirectory() as room:
        folder = pathlib.Path(room) / name
        contents.copy(folder)
        contents.put(program, folder / release.FILE, True)
        shared = libraries(folder, given)
        least = linking.least_glibc([folder / release.FILE, shared])
        says = manifest.told(not words.program, not (words.archive or words.libc), contents.taken(), least)
        means = {"VERSION": version, "SONAME": contents.soname(version), "NAME": name, "GLIBC": least, "COMMIT": says["commit"]}
        contents.fill(folder, means)
        manifest.write(folder, says)
        packing.pack(folder, into / f"{name}.tar.gz", manifest.commit_time())
    packed = into / f"{name}.tar.gz"
    (into / f"{name}.tar.gz.sha256").write_text(f"{release.sum_of(packed)}  {packed.name}\n", encoding="utf-8")
    for changed in says["differs_from_the_commit"]:
        print(f"tools/release: {changed} is not as the commit has it, which the manifest tells", file=sys.stderr)
    return packed


def main(given: list[str]) -> int:
    """Does what the words ask, and returns the exit status."""
    try:
        packed = write(parser().parse_args(given))
    except exit_status.End as end:
        print(f"tools/release: {end.why}", file=sys.stderr)
        return end.status
    except OSError as error:
        print(f"tools/release: {error}", file=sys.stderr)
        return exit_status.UNWRITTEN
    print(packed)
    return exit_status.SAME
