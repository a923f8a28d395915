#!/usr/bin/env python3
"""The library for C and C++, called from programs in both, built by each compiler that is there.

    tests/embedding/embedded.py PORT FOLDER

PORT is a folder that `embedding/build` has made, and all is built into the FOLDER. It prints a line `passed NAME` for
each case, `left out NAME: WHY` for what this machine can't try, and `FAILED: NAME: WHY`.
"""
from __future__ import annotations

import argparse
import os
import re
import shutil
import subprocess
import sys
from dataclasses import dataclass
from pathlib import Path
from typing import Optional

sys.dont_write_bytecode = True

ROOT = Path(__file__).resolve().parents[2]
PROGRAMS = Path(__file__).resolve().with_name("programs")
PAGE = ROOT / "docs" / "EMBEDDING.md"
COMPILERS = (("gcc", "g++"), ("clang", "clang++"))
WARNINGS = ("-Wall", "-Wextra", "-Wpedantic", "-Wconversion", "-Werror")
ADDRESSES = ("-g", "-O1", "-fsanitize=address,undefined", "-fno-sanitize-recover=all")
THREADS = ("-g", "-O1", "-fsanitize=thread", "-pthread")
VALGRIND = ("valgrind", "-q", "--leak-check=full", "--errors-for-leak-kinds=all", "--error-exitcode=9")
WRAPPED = ("-Wl,--wrap=malloc", "-Wl,--wrap=realloc")
# For each header: how its example begins, the prefix of its lines, and the file that a program includes.
EXAMPLES = {
    "tp_port.h": ("tp_port port;", " *   ", "example_of_c.inc"),
    "tp_port.hpp": ("tp::Port<", "//     ", "example_of_cpp.inc"),
}
SEEDS = tuple(str(seed) for seed in range(1, 6))
MOST_SECONDS = 120


@dataclass(frozen=True)
class Build:
    """One way to build a program, its arguments for each run, and the words before its name."""

    name: str
    source: str
    flags: tuple[str, ...] = ("-O2", *WARNINGS)
    words: tuple[str, ...] = ()
    under: tuple[str, ...] = ()


PLAIN = (
    Build("sizes and numbers", "layout.c"),
    Build("each function", "calls.c"),
    Build("the example of tp_port.h", "example.c"),
    Build("the example of tp_port.hpp", "example.cpp"),
    Build("memory that is refused", "refused_memory.c", ("-O2", *WARNINGS, *WRAPPED)),
    Build("tp::Port", "owning.cpp"),
    Build("tp::Port in C++20", "owning.cpp", ("-O2", "-std=c++20", *WARNINGS)),
    Build("calls by chance", "by_chance.cpp", words=SEEDS),
    Build("a mutex round a port", "mutex.c", ("-O2", *WARNINGS, "-pthread")),
)
OF_ADDRESSES = (
    Build("sizes and numbers, by ASan and UBSan", "layout.c", ADDRESSES),
    Build("each function, by ASan and UBSan", "calls.c", ADDRESSES),
    Build("tp::Port, by ASan and UBSan", "owning.cpp", ADDRESSES),
    Build("calls by chance, by ASan and UBSan", "by_chance.cpp", ADDRESSES, SEEDS),
)
# The sanitizers check the headers and the programs; valgrind checks the library too.
OF_VALGRIND = (
    Build("each function, by valgrind", "calls.c", under=VALGRIND),
    Build("tp::Port, by valgrind", "owning.cpp", under=VALGRIND),
    Build("calls by chance, by valgrind", "by_chance.cpp", words=SEEDS[:1], under=VALGRIND),
)
OF_THREADS = (Build("a mutex round a port, by TSan", "mutex.c", THREADS),)
RACE = Build("TSan tells a message that is written after it arrived", "mutex.c", THREADS, ("late",))


class Room:
    """The folder where programs are built, and the library."""

    def __init__(self, port: Path, folder: Path):
        self.port, self.folder = port, folder
        self.failed = 0

    def tell(self, name: str, wrong: Optional[str]) -> None:
        self.failed += wrong is not None
        print(f"passed {name}" if wrong is None else f"FAILED: {name}: {wrong}", flush=True)

    def run(self, words: list[str], more: Optional[dict[str, str]] = None) -> tuple[int, str]:
        """The status, and the standard output and error together."""
        environment = {**os.environ, **(more or {})}
        try:
            ran = subprocess.run(
                words, cwd=self.folder, env=environment, stdin=subprocess.DEVNULL, stdout=subprocess.PIPE,
                stderr=subprocess.STDOUT, text=True, timeout=MOST_SECONDS, check=False,
            )
        except subprocess.TimeoutExpired:
            return 124, f"it took more than {MOST_SECONDS} seconds"
        return ran.returncode, ran.stdout

    def compiled(self, compilers: tuple[str, str], build: Build) -> tuple[str, Optional[str]]:
        """The program's name, and the compiler's messages if the compilation fails."""
        is_c = build.source.endswith(".c")
        made = re.sub(r"\W+", "_", f"{compilers[0]} {build.name}")
        words = [compilers[0], "-std=c11", "-D_GNU_SOURCE"] if is_c else [compilers[1], "-std=c++17"]
        words += [*build.flags, f"-I{self.port}/include", f"-I{PROGRAMS}", "-I.", str(PROGRAMS / build.source)]
        status, said = self.run([*words, f"{self.port}/lib/libtp_port.a", "-o", made])
        return made, said[:2000] if status else None

    def wrong(self, compilers: tuple[str, str], build: Build) -> Optional[str]:
        """Describes what is wrong with a program's compilation or its runs, one for each word."""
        made, wrong = self.compiled(compilers, build)
        for word in build.words or (None,):
            if wrong is not None:
                break
            status, said = self.run([*build.under, f"./{made}", *([word] if word else [])])
            wrong = f"status {status}: {said[:2000]}" if status or said else None
        return wrong

    def tells_race(self, compilers: tuple[str, str]) -> Optional[str]:
        made, wrong = self.compiled(compilers, RACE)
        if wrong is not None:
            return wrong
        status, said = self.run([f"./{made}", *RACE.words])
        return None if status and "data race" in said else f"status {status}, and no data race is told: {said[:500]}"


def can_sanitize(room: Room, compilers: tuple[str, str], flags: tuple[str, ...]) -> bool:
    """Whether the compiler can link the sanitizer of these flags."""
    (room.folder / "empty.c").write_text("int main(void) { return 0; }\n", encoding="utf-8")
    return room.run([compilers[0], *flags, "empty.c", "-o", "empty"])[0] == 0 and room.run(["./empty"])[0] == 0


def try_compilers(room: Room, compilers: tuple[str, str]) -> None:
    for build in PLAIN:
        room.tell(f"{build.name}, {compilers[0]}", room.wrong(compilers, build))
    if shutil.which("valgrind"):
        for build in OF_VALGRIND:
            room.tell(f"{build.name}, {compilers[0]}", room.wrong(compilers, build))
    else:
        print(f"left out the programs of {compilers[0]} by valgrind, because there is none", flush=True)
    for flags, builds in ((ADDRESSES, OF_ADDRESSES), (THREADS, OF_THREADS)):
        if not can_sanitize(room, compilers, flags):
            print(f"left out {flags[2]} of {compilers[0]}, because it can't link that", flush=True)
            continue
        for build in builds:
            room.tell(f"{build.name}, {compilers[0]}", room.wrong(compilers, build))
        if builds is OF_THREADS:
            room.tell(f"{RACE.name}, {compilers[0]}", room.tells_race(compilers))


def write_examples(room: Room) -> None:
    """Writes the example at the head of each header into the file that a program includes."""
    for header, (start, prefix, name) in EXAMPLES.items():
        lines = (room.port / "include" / header).read_text(encoding="utf-8").splitlines()
        shown = [it[len(prefix) :] for it in lines if it.startswith(prefix)]
        whole = shown[shown.index(next(it for it in shown if it.startswith(start))) :]
        (room.folder / name).write_text("\n".join(whole) + "\n", encoding="utf-8")


def links_into_a_shared_library(room: Room, compilers: tuple[str, str]) -> Optional[str]:
    words = [compilers[0], "-shared", "-o", "libshared.so", "-Wl,--whole-archive", f"{room.port}/lib/libtp_port.a"]
    status, said = room.run([*words, "-Wl,--no-whole-archive", "-Wl,-z,defs"])
    return f"status {status}: {said[:500]}" if status else None


# The page


def programs_of_page() -> list[tuple[str, str, str]]:
    """The programs of docs/EMBEDDING.md, each with its language and the lines that it prints, as in "It prints `first`,
    then `second`." Each is also a file."""
    form = re.compile(r"^```(c|cpp)\n(.*?)^```\n\n(?:It prints (`[^`]*`(?:, then `[^`]*`)*)\.)?", re.M | re.S)
    return [it for it in form.findall(PAGE.read_text(encoding="utf-8")) if "int main" in it[1]]


def commands_of_page() -> dict[str, str]:
    """The page's lines that compile them, by language."""
    lines = re.findall(r"^    ((?:cc|c\+\+) .*)$", PAGE.read_text(encoding="utf-8"), re.M)
    return {"cpp" if line.startswith("c++") else "c": line for line in lines}


def try_page(room: Room) -> None:
    """Tries the programs of the page, compiled by its own lines, as at the top of the repository."""
    if not shutil.which("pkg-config"):
        print("left out the programs of docs/EMBEDDING.md, because there is no pkg-config", flush=True)
        return
    found, commands = programs_of_page(), commands_of_page()
    languages = {it[0] for it in found}
    room.tell("the page shows a program in C and one in C++", None if languages == {"c", "cpp"} else str(languages))
    more = {"PKG_CONFIG_PATH": f"{room.port}/lib/pkgconfig"}
    (room.folder / "embedding").symlink_to(ROOT / "embedding")
    for number, (kind, text, wanted) in enumerate(found, 1):
        is_same = (ROOT / "embedding" / f"soup.{kind}").read_text(encoding="utf-8") == text
        room.tell(f"embedding/soup.{kind} is the program of the page", None if is_same else "it isn't")
        status, said = room.run(["sh", "-c", f"{commands.get(kind, 'false')} && ./soup"], more)
        lines = "".join(f"{line}\n" for line in re.findall("`([^`]*)`", wanted))
        is_so = status == 0 and said == lines
        room.tell(f"the program {number} of the page, in {kind}", None if is_so else f"status {status}: {said[:1000]}")


def main() -> int:
    words = argparse.ArgumentParser(description=(__doc__ or "").partition("\n")[0])
    words.add_argument("port", metavar="PORT", type=Path)
    words.add_argument("folder", metavar="FOLDER", type=Path)
    asked = words.parse_args()
    room = Room(asked.port.resolve(), asked.folder.resolve())
    write_examples(room)
    for compilers in COMPILERS:
        if all(shutil.which(it) for it in compilers):
            try_compilers(room, compilers)
            room.tell(f"a shared library, {compilers[0]}", links_into_a_shared_library(room, compilers))
        else:
            print(f"left out the programs by {compilers[0]}, because it or {compilers[1]} isn't there", flush=True)
    try_page(room)
    return 1 if room.failed else 0


if __name__ == "__main__":
    sys.exit(main())
