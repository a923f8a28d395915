"""Archives with the same bytes whoever makes them, and whenever: sorted, owned by root, with one time for all files."""
from __future__ import annotations

import gzip
import io
import tarfile
from typing import Iterable

from .tree import Entry

_OF_A_FOLDER = 0o755
_OF_A_LINK = 0o777


def tar_of(entries: Iterable[Entry], time: int) -> bytes:
    """An archive of the entries and their folders."""
    by_path = {entry.path: entry for entry in entries}
    written = io.BytesIO()
    with tarfile.open(fileobj=written, mode="w", format=tarfile.GNU_FORMAT) as archive:
        for path in sorted({*by_path, *_folders_of(by_path)}):
            archive.addfile(*_member(path, by_path.get(path), time))
    return written.getvalue()


def _folders_of(paths: Iterable[str]) -> set[str]:
    parts = [path.split("/") for path in paths]
    return {"/".join(it[:length]) for it in parts for length in range(1, len(it))}


def _member(path: str, entry: Entry | None, time: int) -> tuple[tarfile.TarInfo, io.BytesIO]:
    """The header, with the same owner and time for all, and the contents. Without an entry it is a folder."""
    head = tarfile.TarInfo(path)
    head.uname = head.gname = "root"
    head.mtime = time
    if entry is None:
        head.type, head.mode = tarfile.DIRTYPE, _OF_A_FOLDER
    elif entry.target:
        head.type, head.mode, head.linkname = tarfile.SYMTYPE, _OF_A_LINK, entry.target
    else:
        head.size, head.mode = len(entry.data), entry.mode
    return head, io.BytesIO(entry.data if entry else b"")


def gzip_of(data: bytes, time: int = 0) -> bytes:
    """The compressed data. The header has the time, and no name."""
    written = io.BytesIO()
    with gzip.GzipFile(filename="", mode="wb", compresslevel=9, fileobj=written, mtime=time) as file:
        file.write(data)
    return written.getvalue()


def ar_of(members: Iterable[tuple[str, bytes]], time: int) -> bytes:
    """An archive in the format of `ar`, in the given order: a Debian package has this format."""
    written = b"!<arch>\n"
    for name, data in members:
        head = f"{name:<16}{time:<12}{0:<6}{0:<6}{'100644':<8}{len(data):<10}`\n"
        written += head.encode("ascii") + data + b"\n" * (len(data) % 2)
    return written
