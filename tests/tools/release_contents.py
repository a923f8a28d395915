"""Compares the archive and the packages of a release, with owners and times, with what they must contain."""
from __future__ import annotations

import re
import shutil
from collections.abc import Iterable
from pathlib import PurePosixPath

from release_tree import COMMITTED, Item, Made, Tree, in_the_archive, in_the_library_package, in_the_package
from tool_calls import difference, run

RIGHTS = {"f": "-rw-r--r--", "x": "-rwxr-xr-x", "d": "drwxr-xr-x", "l": "lrwxrwxrwx"}


def with_folders(items: Iterable[Item]) -> set[Item]:
    """The items, and the folders that contain them."""
    files = set(items)
    parents = {str(parent) for it in files for parent in PurePosixPath(it.path).parents}
    return files | {Item("d", it) for it in parents - {"."}}


def line_of(item: Item, beginning: str) -> str:
    """The line of tar for an item, with its path after this beginning."""
    ending = {"d": "/", "l": f" -> {item.target}"}.get(item.kind, "")
    rights = RIGHTS[item.kind]
    return f"{rights} 0/0 {rights} root/root {COMMITTED} {beginning}{item.path}{ending}"


def lines_to_be(items: Iterable[Item], beginning: str) -> str:
    """The expected lines of tar for these items, and for the folder that contains all."""
    head = f"{RIGHTS['d']} 0/0 {RIGHTS['d']} root/root {COMMITTED} {beginning}"
    lines = {head, *(line_of(it, beginning) for it in with_folders(items))}
    return "".join(f"{line}\n" for line in sorted(lines))


def lines_of(archive: bytes) -> str:
    """The lines of tar for the files of an archive: type and permissions, owner by number and by name, time, name, and
    the target of a link."""
    words, utc = ("tar", "--full-time", "-tvf", "-"), {"TZ": "UTC"}
    numbers = run(*words, "--numeric-owner", input=archive, more=utc).must_end(0).text.splitlines()
    names = run(*words, input=archive, more=utc).must_end(0).text.splitlines()
    lines = []
    for number, name in zip(numbers, names):
        lines.append(" ".join(number.split()[:2]) + " " + re.sub(r"^(\S+) +(\S+) +[0-9]+ ", r"\1 \2 ", name))
    return "".join(f"{line}\n" for line in sorted(lines))


def wrong_archive(tree: Tree, made: Made) -> str:
    unpacked = run("gzip", "-dc", made.archive).must_end(0).printed
    found = difference(lines_to_be(in_the_archive(tree), f"tpr-{tree.version}/"), lines_of(unpacked))
    version = (tree.folder / "VERSION").read_bytes()
    return found or difference(version, tree.said_in(made, "VERSION").must_end(0).printed)


def wrong_package(tree: Tree, made: Made) -> str:
    files = run("dpkg-deb", "--fsys-tarfile", made.package).must_end(0).printed
    found = difference(lines_to_be(in_the_package(tree), "./"), lines_of(files))
    if found:
        return found
    said = run("dpkg-deb", "-f", made.package, "Package", "Version", "Architecture").must_end(0)
    return difference(f"Package: tpr\nVersion: {tree.version}\nArchitecture: amd64\n", said.printed)


def wrong_library(tree: Tree, made: Made) -> str:
    """How the package of the library differs from the expected one, and its library from the one that was built."""
    files = run("dpkg-deb", "--fsys-tarfile", made.library).must_end(0).printed
    found = difference(lines_to_be(in_the_library_package(), "./"), lines_of(files))
    if found:
        return found
    said = run("dpkg-deb", "-f", made.library, "Package", "Version", "Architecture").must_end(0)
    head = f"Package: libtp-port-dev\nVersion: {tree.version}\nArchitecture: amd64\n"
    path = "./usr/lib/x86_64-linux-gnu/libtp_port.a"
    packed = run("tar", "-xOf", "-", path, input=files).must_end(0).printed
    unpacked = tree.said_in(made, "port/lib/libtp_port.a").must_end(0).printed
    built = tree.built_library.read_bytes()
    page = run("tar", "-xOf", "-", "./usr/share/doc/libtp-port-dev/EMBEDDING.md", input=files).must_end(0).text
    if "tpr-titan --port" not in page or "tools/titan --port" in page:
        return "+EMBEDDING.md without the installed names\n"
    return difference(head, said.printed) or ("" if packed == unpacked == built else "+another libtp_port.a\n")


def wrong_with(tree: Tree, made: Made) -> str:
    """How the archive and the packages differ from the expected ones in contents, owners, times and versions; empty if
    they don't. Without dpkg-deb only the archive is compared."""
    found = wrong_archive(tree, made)
    if found or not shutil.which("dpkg-deb"):
        return found
    return wrong_package(tree, made) or wrong_library(tree, made)
