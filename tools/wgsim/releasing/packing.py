"""A release as one file: a folder of files, packed so that the same files make the same bytes."""

from __future__ import annotations

import gzip
import io
import os
import pathlib
import tarfile


def files_in(folder: pathlib.Path) -> list[str]:
    """The files and the links below a folder, by their names from there, in order."""
    return sorted(path.relative_to(folder).as_posix() for path in folder.rglob("*") if path.is_symlink() or path.is_file())


def member(path: pathlib.Path, name: str, seconds: int) -> tarfile.TarInfo:
    """What the file says of one of its own: owned by nobody, of one time, and executable where it is so."""
    told = tarfile.TarInfo(name)
    told.mtime = seconds
    if path.is_symlink():
        told.type, told.linkname, told.mode = tarfile.SYMTYPE, os.readlink(path), 0o777
    else:
        told.size, told.mode = path.stat().st_size, 0o755 if path.stat().st_mode & 0o100 else 0o644
    return told


def pack(folder: pathlib.Path, into: pathlib.Path, seconds: int) -> None:
    """Packs a folder, whose name each of its files then has before its own."""
    packed = io.BytesIO()
    with tarfile.open(fileobj=packed, mode="w", format=tarfile.USTAR_FORMAT) as tar:
        for name in files_in(folder):
            told = member(folder / name, f"{folder.name}/{name}", seconds)
            tar.addfile(told, io.BytesIO((folder / name).read_bytes()) if told.isreg() else None)
    with open(into, "wb") as file, gzip.GzipFile(filename="", mode="wb", compresslevel=9, fileobj=file, mtime=0) as zipped:
        zipped.write(packed.getvalue())
