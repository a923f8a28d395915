"""A repository with the files of a release and the tested program, from which tools/release makes releases."""
from __future__ import annotations

import os
import re
import shutil
from collections.abc import Iterator
from pathlib import Path
from typing import NamedTuple, Optional

from tool_calls import ROOT, Ended, must, run

OF_THE_LIBRARY = tuple(f"embedding/{it}" for it in ("tp_port.h", "tp_port.hpp", "soup.c", "soup.cpp"))
# Stands in for the library if none is given: the releases are inspected, but no program is linked with it.
STAND_IN = b"!<arch>\n"
PLACES = ("CHANGELOG.md", "LICENSE", "README.md", "VERSION", "docs", "examples", "tools")
UNRELEASED = "## [Unreleased]\n"
# The time of the commit in the tests, as tar prints it.
COMMITTED = "2026-01-02 03:04:05"
WHO = ("-c", "user.name=A Tester", "-c", "user.email=tester@tpr.example", "-c", "commit.gpgsign=false")
# If git runs ./test, for example in a hook, these variables may name its repository, but the tests commit to another
# one.
OF_ANOTHER = ("GIT_DIR", "GIT_WORK_TREE", "GIT_INDEX_FILE", "GIT_OBJECT_DIRECTORY", "GIT_COMMON_DIR", "GIT_PREFIX")


class Made(NamedTuple):
    """The files that tools/release makes in a folder of the room."""

    archive: Path
    package: Path
    library: Path


class Tree:
    """The repository, in a room in which releases are made."""

    def __init__(self, room: Path, program: Path, ordered: Path, library: Optional[Path] = None):
        self.room, self.program, self.ordered, self.library = room, program, ordered, library
        self.folder = room / "tree"
        self.built, self.built_ordered = (self.folder / "crates" / it / "out" / it for it in ("tpr", "tpr_ordered"))
        self.built_library = self.folder / "out" / "port" / "lib" / "libtp_port.a"
        self.version = (ROOT / "VERSION").read_text(encoding="utf-8").partition("\n")[0]

    def make(self) -> None:
        for name in OF_ANOTHER:
            os.environ.pop(name, None)
        for built in (self.built, self.built_ordered, self.built_library):
            built.parent.mkdir(parents=True)
        self.copy_places()
        self.release_changes()
        self.build()
        (self.folder / ".gitignore").write_text("out/\n", encoding="utf-8")
        self.git("init", "-q")
        self.commit()

    def copy_places(self) -> None:
        for place in PLACES:
            if (ROOT / place).is_dir():
                shutil.copytree(ROOT / place, self.folder / place, symlinks=True)
            else:
                shutil.copy2(ROOT / place, self.folder / place)
        (self.folder / "embedding").mkdir()
        for file in OF_THE_LIBRARY:
            shutil.copy2(ROOT / file, self.folder / file)

    def release_changes(self) -> None:
        """CHANGELOG.md gets no unreleased changes, as in the commit of a release."""
        path = self.folder / "CHANGELOG.md"
        before, _, rest = path.read_text(encoding="utf-8").partition(UNRELEASED)
        path.write_text(before + rest[rest.index(f"## [{self.version}]") :] if rest else before, encoding="utf-8")

    def build(self) -> None:
        """Puts in the tested programs, and the given library."""
        for program, built in ((self.program, self.built), (self.ordered, self.built_ordered)):
            shutil.copyfile(program, built)
            built.chmod(0o755)
        self.built_library.write_bytes(self.library.read_bytes() if self.library else STAND_IN)

    def git(self, *words: str) -> str:
        ended = run("git", "-C", self.folder, *words).must_end(0)
        return ended.text.removesuffix("\n")

    def commit(self) -> None:
        times = {"GIT_AUTHOR_DATE": f"{COMMITTED} +0000", "GIT_COMMITTER_DATE": f"{COMMITTED} +0000"}
        self.git("add", "-A")
        run("git", "-C", self.folder, *WHO, "commit", "-q", "-m", "tree", more=times).must_end(0)

    def restore(self) -> None:
        """Restores the tracked files as they were committed."""
        self.git("checkout", "-q", ".")

    def change(self, file: str, form: str, other: str) -> None:
        """Replaces the first match of the form in each line."""
        path = self.folder / file
        lines = path.read_text(encoding="utf-8").splitlines(keepends=True)
        changed = [re.sub(form, other, line, count=1) for line in lines]
        must(changed != lines, f"{form!r} isn't in {file}")
        path.write_text("".join(changed), encoding="utf-8")

    def append(self, file: str, text: str) -> None:
        with open(self.folder / file, "a", encoding="utf-8") as opened:
            opened.write(text)

    def release(self, *words: str) -> Ended:
        """Runs tools/release with these words, in the room."""
        return run(self.folder / "tools" / "release", *words, folder=self.room)

    def made(self, folder: str) -> Made:
        """The three files that it makes in the folder."""
        return Made(*(self.room / folder / it for it in names_of_all(self.version)))

    def said_in(self, made: Made, file: str) -> Ended:
        """The contents of a file in the archive."""
        return run("tar", "-xzOf", made.archive, f"tpr-{self.version}/{file}")


def names_of_all(version: str) -> tuple[str, str, str]:
    """The names of the archive, of the package, and of the package with the library."""
    return f"tpr-{version}-amd64.tar.gz", f"tpr_{version}_amd64.deb", f"libtp-port-dev_{version}_amd64.deb"


class Item(NamedTuple):
    """An item of a release: a folder `d`, a file `f`, an executable `x`, or a link `l` with its target."""

    kind: str
    path: str
    target: str = ""


def paths_below(folder: Path) -> Iterator[Path]:
    """The folder, and everything in it."""
    yield folder
    yield from sorted(folder.rglob("*") if folder.is_dir() else ())


def is_kept_back(path: str) -> bool:
    """Whether only developers of tpr need it."""
    name = path.rpartition("/")[2]
    return path == "tools/costs.py" or path.startswith(("tools/release", "tools/tpr_tools/release")) or name[0] == "."


def item_of(file: Path, path: str) -> Item:
    if file.is_dir():
        return Item("d", path)
    return Item("x" if re.fullmatch("tools/[a-z]+", path) else "f", path)


def in_the_tree(tree: Tree) -> list[Item]:
    """The items that come from the repository, by their places there."""
    items = [Item("x", "tpr"), Item("x", "tpr_ordered"), Item("f", "GATE")]
    for place in PLACES:
        found = [(it, str(it.relative_to(tree.folder))) for it in paths_below(tree.folder / place)]
        items += [item_of(file, path) for file, path in found if not is_kept_back(path)]
    return items


# Where each file of the library is in the package, by its place in the archive.
LIBRARY_PLACES = {
    "port/include/tp_port.h": "usr/include/tp_port.h",
    "port/include/tp_port.hpp": "usr/include/tp_port.hpp",
    "port/lib/libtp_port.a": "usr/lib/x86_64-linux-gnu/libtp_port.a",
    "port/lib/pkgconfig/tp_port.pc": "usr/lib/x86_64-linux-gnu/pkgconfig/tp_port.pc",
    "port/examples/soup.c": "usr/share/doc/libtp-port-dev/examples/soup.c",
    "port/examples/soup.cpp": "usr/share/doc/libtp-port-dev/examples/soup.cpp",
}


def in_the_archive(tree: Tree) -> list[Item]:
    """The items from the repository, and the library."""
    return [*in_the_tree(tree), *(Item("f", it) for it in LIBRARY_PLACES)]


def in_the_library_package() -> list[Item]:
    docs = ("EMBEDDING.md", "changelog.gz", "copyright")
    files = [*LIBRARY_PLACES.values(), *(f"usr/share/doc/libtp-port-dev/{it}" for it in docs)]
    return [Item("f", it) for it in files]


def tools_of(tree: Tree) -> list[str]:
    """The commands beside the program."""
    return [it.path.removeprefix("tools/") for it in in_the_tree(tree) if it.kind == "x" and "/" in it.path]


def place_in_package(path: str, kind: str) -> str:
    if path == "docs/tpr.1":
        return "usr/share/man/man1/tpr.1.gz"
    if kind == "x" or path.startswith("tools/tpr_tools/"):
        return f"usr/lib/tpr/{path}"
    return f"usr/share/doc/tpr/{path}"


def in_the_package(tree: Tree) -> list[Item]:
    """The items by their places in the package, and those that only a package has."""
    items = [Item(it.kind, place_in_package(it.path, it.kind)) for it in in_the_tree(tree) if it.kind != "d"]
    items += [Item("f", f"usr/share/doc/tpr/{it}") for it in ("changelog.gz", "copyright")]
    items.append(Item("f", "usr/share/lintian/overrides/tpr"))
    items.append(Item("f", "usr/lib/tpr/VERSION"))
    items.append(Item("l", "usr/bin/tpr", "../lib/tpr/tpr"))
    for tool in tools_of(tree):
        items.append(Item("l", f"usr/bin/tpr-{tool}", f"../lib/tpr/tools/{tool}"))
        items.append(Item("l", f"usr/share/man/man1/tpr-{tool}.1.gz", "tpr.1.gz"))
    return items
