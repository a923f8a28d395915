"""A release as a Debian package: the places of its files, its dependencies, and its descriptions."""
from __future__ import annotations

import hashlib
import lzma
import os
import re
import subprocess
import tempfile
from dataclasses import replace
from datetime import datetime, timezone

from ..command import NOT_BUILT, REFUSED, Stop, with_installed_names
from ..template import Template

from .archives import ar_of, gzip_of, tar_of
from .port_library import EXAMPLES, LIBRARY, PKG_CONFIG, below_usr
from .tree import MANUAL, PROGRAMS, Entry, Release

_HOME = "usr/lib/tpr"
_PAGES = "usr/share/man/man1"
_DOCS = "usr/share/doc/tpr"
_LIBRARIES = "usr/lib/x86_64-linux-gnu"
_PAGE_OF_LIBRARY = "docs/EMBEDDING.md"

_OLDEST_PYTHON = "3.9"  # for the tools
# The package of each library that the program may be linked with, and how the versions of its symbols begin.
_PACKAGES = {
    "ld-linux-x86-64.so.2": ("libc6", b"GLIBC_"),
    "libc.so.6": ("libc6", b"GLIBC_"),
    "libm.so.6": ("libc6", b"GLIBC_"),
    "libgcc_s.so.1": ("libgcc-s1", b"GCC_"),
}
_OF_THE_KERNEL = "linux-vdso.so.1"

# Texts of a package.
_TEXTS = Template(os.path.join(os.path.dirname(os.path.realpath(__file__)), "package"))


def package_of(release: Release) -> bytes:
    entries = _placed(release)
    depends = ", ".join([*_libraries_of(release.programs), f"python3 (>= {_OLDEST_PYTHON})"])
    return _package(_control_of(release, entries, "control", depends=depends), entries, release.time)


def library_package_of(release: Release) -> bytes:
    """The package of the library for C and C++, with its headers where a compiler looks for them."""
    entries = _placed_library(release)
    return _package(_control_of(release, entries, "control_of_library"), entries, release.time)


def _package(control: str, entries: list[Entry], time: int) -> bytes:
    sums = "".join(f"{hashlib.md5(it.data).hexdigest()}  {it.path}\n" for it in entries if not it.target)
    about = [Entry("control", control.encode()), Entry("md5sums", sums.encode())]
    members = [
        ("debian-binary", b"2.0\n"),
        ("control.tar.xz", lzma.compress(tar_of(_below_a_dot(about), time))),
        ("data.tar.xz", lzma.compress(tar_of(_below_a_dot(entries), time))),
    ]
    return ar_of(members, time)


def _below_a_dot(entries: list[Entry]) -> list[Entry]:
    return [replace(it, path=f"./{it.path}") for it in entries]


def _placed(release: Release) -> list[Entry]:
    """The files at their places in a package, links to the commands, and the files that Debian requires."""
    entries = [_place(it) for it in release.entries]
    entries += [
        *_of_debian(release, "tpr", _DOCS),
        Entry("usr/share/lintian/overrides/tpr", _TEXTS.part("overrides").encode()),
        Entry("usr/bin/tpr", target="../lib/tpr/tpr"),
        # For --version, which reads it beside the tools.
        Entry(f"{_HOME}/VERSION", f"{release.version}\n".encode()),
    ]
    entries += [Entry(f"usr/bin/tpr-{tool}", target=f"../lib/tpr/tools/{tool}") for tool in release.tools()]
    entries += [Entry(f"{_PAGES}/tpr-{tool}.1.gz", target="tpr.1.gz") for tool in release.tools()]
    return sorted(entries, key=lambda it: it.path)


def _place(entry: Entry) -> Entry:
    """The program and its tools are in one folder, as in the repository, so that the tools find the program."""
    if entry.path == MANUAL:
        return Entry(f"{_PAGES}/tpr.1.gz", gzip_of(entry.data))
    if entry.path in PROGRAMS or entry.path.startswith("tools/") and not entry.path.endswith(".md"):
        return replace(entry, path=f"{_HOME}/{entry.path}", data=_with_debians_python(entry.data))
    data = _with_installed_names(entry.path, entry.data) if entry.path.endswith(".md") else entry.data
    return replace(entry, path=f"{_DOCS}/{entry.path}", data=data)


def _with_installed_names(path: str, data: bytes) -> bytes:
    """A document that names the commands as the package installs them."""
    text = with_installed_names(data.decode("utf-8", "surrogateescape"))
    if path == "README.md":
        title, _, rest = text.partition("\n")
        text = f"{title}\n{_TEXTS.part('of_the_readme')}{rest}"
    return text.encode("utf-8", "surrogateescape")


def _with_debians_python(data: bytes) -> bytes:
    """A command of a package runs with the system's python3, even if another one is first on PATH."""
    return re.sub(rb"\A#!/usr/bin/env python3\n", b"#!/usr/bin/python3\n", data)


def _date_of(time: int) -> str:
    return datetime.fromtimestamp(time, timezone.utc).strftime("%a, %d %b %Y %H:%M:%S +0000")


def _control_of(release: Release, entries: list[Entry], name: str, **more: str) -> str:
    kilobytes = sum((len(it.data) + 1023) // 1024 for it in entries)
    facts = {"version": release.version, "maintainer": release.maintainer, "kilobytes": str(kilobytes)}
    return _TEXTS.filled(name, {**facts, **more})


def _of_debian(release: Release, package: str, docs: str) -> list[Entry]:
    """The files that Debian requires, beside the documents of a package."""
    facts = {"package": package, "version": release.version, "maintainer": release.maintainer}
    changes = _TEXTS.filled("changelog", {**facts, "date": _date_of(release.time)})
    copyright = _TEXTS.part("copyright").encode()
    return [Entry(f"{docs}/changelog.gz", gzip_of(changes.encode())), Entry(f"{docs}/copyright", copyright)]


def _placed_library(release: Release) -> list[Entry]:
    """The library's files at their places in a package, with its page and the files that Debian requires."""
    package = "libtp-port-dev"
    docs = f"usr/share/doc/{package}"
    places = {LIBRARY: f"{_LIBRARIES}/libtp_port.a", PKG_CONFIG: f"{_LIBRARIES}/pkgconfig/tp_port.pc"}
    places.update((it, f"{docs}/{it}") for it in EXAMPLES)
    entries = [replace(it, path=places.get(it.path, f"usr/{it.path}")) for it in release.library]
    found = below_usr(release.version, _LIBRARIES).encode()
    entries = [replace(it, data=found) if it.path == places[PKG_CONFIG] else it for it in entries]
    page = next((it for it in release.entries if it.path == _PAGE_OF_LIBRARY), None)
    if page is not None:
        entries.append(Entry(f"{docs}/EMBEDDING.md", _with_installed_names(page.path, page.data)))
    entries += _of_debian(release, package, docs)
    return sorted(entries, key=lambda it: it.path)


def _libraries_of(programs: tuple[bytes, ...]) -> list[str]:
    """The packages of the libraries that the programs are linked with, each with the newest version of a symbol that a
    program needs from it."""
    needed: dict[str, list[tuple[int, ...]]] = {}
    for program in programs:
        for library in _linked_with(program):
            if library not in _PACKAGES:
                raise Stop(REFUSED, f"a program needs {library}, and it isn't known which package has that")
            package, beginning = _PACKAGES[library]
            asked = re.findall(rb"\0%b([0-9]+(?:\.[0-9]+)+)(?=\0)" % beginning, program)
            needed.setdefault(package, []).extend(tuple(map(int, it.split(b"."))) for it in asked)
    least = {package: ".".join(map(str, max(versions, default=()))) for package, versions in needed.items()}
    return [f"{package} (>= {least[package]})" if least[package] else package for package in sorted(needed)]


def _linked_with(program: bytes) -> list[str]:
    """The names of the libraries, as `ldd` prints them."""
    try:
        with tempfile.NamedTemporaryFile() as file:
            file.write(program)
            file.flush()
            os.chmod(file.name, 0o755)
            ran = _ldd(file.name)
    except OSError as error:
        told = f"a temporary file for ldd can't be written: {error.strerror}; TMPDIR can name another folder"
        raise Stop(NOT_BUILT, told) from None
    lines = ran.stdout.decode("utf-8", "replace").splitlines()
    if ran.returncode != 0 or not lines:
        raise Stop(REFUSED, "ldd doesn't take a program for one")
    named = [os.path.basename(line.split()[0]) for line in lines if "statically linked" not in line]
    return [name for name in named if name != _OF_THE_KERNEL]


def _ldd(file: str) -> subprocess.CompletedProcess[bytes]:
    try:
        return subprocess.run(["ldd", file], capture_output=True, check=False)
    except OSError as error:
        raise Stop(NOT_BUILT, f"ldd can't be run: {error.strerror}") from None
