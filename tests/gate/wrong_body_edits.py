"""Wrong bodies: edits that the prover must refuse, each in the function that it names.

tests/wrong_bodies/CRATE.edits has a block for each. Its first line has the name of the edit and the function, as a
check prints it; its second line is the file. A line `- OLD` is a text that the file has exactly once, and the line
`+ NEW` after it replaces that. Each run of the gate tries an edit with a star before its name. `rt ci` tries one with
two stars, from crates/CRATE/must-fail/. An edit with a `!` there names what has been removed: each run of the gate
tries it too, and it must not compile.
"""
from __future__ import annotations

import os
import re
from collections.abc import Iterator
from typing import NamedTuple

ROOT = os.path.dirname(os.path.dirname(os.path.dirname(os.path.realpath(__file__))))
SHELF = f"{ROOT}/tests/wrong_bodies"
OF_RT, OF_EACH_RUN, UNCOMPILED = "**", "*", "!"

HEAD = re.compile(r"(?:(\*\*?|!) )?([\w.-]+): (\w+(?:::\w+)*)")
FUNCTION = re.compile(r"^ *(?:pub(?:\(\w+\))? )?(?:const )?(?:unsafe )?(?:extern \"C\" )?fn (\w+)", re.M)
# A comment, a raw string, a string, a character: these contain no names.
NO_NAMES = re.compile(
    r'//[^\n]*|/\*.*?\*/|b?r(#*)".*?"\1|b?"(?:\\.|[^"\\])*"' r"|b?'(?:\\(?:x..|u\{\w+\}|.)|[^\\'\n])'", re.S
)
# Words of the language and of the toolchain's library that edits have, but that may be in no source of ours.
OF_THE_KIT = frozenset(
    "Err MAX None Ok Some _ allocator and as bool break continue else false fn for if in is_err is_none is_ok iter let"
    " loop match max mem min move mut or position ref remove return rev reverse saturating_add saturating_sub self swap trim true"
    " truncate u16 u32 u64 u8 unwrap_or usize while".split()
)


class Unfit(Exception):
    """Why a block isn't valid, or can't be applied."""


class Edit(NamedTuple):
    """A wrong body: the stars that say who tries it, its names, and the texts that it replaces."""

    crate: str
    stars: str
    name: str
    function: str
    file: str
    pairs: tuple[tuple[str, str], ...]

    def title(self) -> str:
        return f"{self.crate}/{self.name}"

    def head(self) -> str:
        """The name of the function. For a closure, `fn::FUNCTION::CLOSURE`, that is the function around it."""
        words = self.function.split("::")
        return words[words.index("fn") + 1] if "fn" in words else words[-1]

    def applied(self, text: str) -> str:
        """The file's text with the edit in it."""
        for old, new in self.pairs:
            if text.count(old) != 1:
                raise Unfit(f"{self.file} holds a text {text.count(old)} times, and not once: {old}")
            text = text.replace(old, new)
        return text

    def key(self) -> str:
        """The function that it names, or its cycle of calls; empty if it edits something else."""
        path = f"{ROOT}/crates/{self.crate}/{self.file}"
        text = read(path) if os.path.exists(path) else ""
        heads = [*FUNCTION.finditer(text, 0, max(0, text.find(self.pairs[0][0])))]
        if not heads or heads[-1][1] != self.head():
            return ""
        start = heads[-1].start()
        cycle = re.search(r"#\[cycle\((\w+)\)\]", text[text.rfind("\n\n", 0, start) + 1 : start])
        return f"+{cycle[1]}" if cycle else self.function

    def added(self) -> set[str]:
        """The words that only its new texts have, and not its old ones."""
        olds, news = (" ".join(texts) for texts in zip(*self.pairs))
        return words_of(news) - words_of(olds)

    def unknown(self, known: set[str]) -> list[str]:
        """The words of its new texts that neither its old texts nor the known sources have: it won't compile."""
        news = " ".join(new for _, new in self.pairs)
        declared = words_of(" ".join(re.findall(r"\blet ([^=]*)=", news)))
        return sorted(self.added() - known - declared - OF_THE_KIT)

    def of_rt(self) -> str:
        """The edit as `rt ci` reads it."""
        return f"file: {self.file}\n" + "".join(f"old: {old}\nnew: {new}\n" for old, new in self.pairs)


def read(path: str) -> str:
    with open(path, encoding="utf-8") as file:
        return file.read()


def write(path: str, text: str) -> None:
    """Writes the text into a file beside this one, which it then replaces, so that nobody reads half a file."""
    os.makedirs(os.path.dirname(path), exist_ok=True)
    with open(f"{path}.new", "w", encoding="utf-8") as file:
        file.write(text)
    os.replace(f"{path}.new", path)


def words_of(text: str) -> set[str]:
    return {*re.findall(r"(?<![\w.])[A-Za-z_]\w*", NO_NAMES.sub(" ", text).replace(".", " "))}


def edit_of(crate: str, block: str) -> Edit:
    lines = block.split("\n")
    named, file, olds, news = HEAD.fullmatch(lines[0]), "".join(lines[1:2]), lines[2::2], lines[3::2]
    are_pairs = all(it.startswith("- ") for it in olds) and all(f"{it} ".startswith("+ ") for it in news)
    if not named or not file.startswith("src/") or not olds or len(olds) != len(news) or not are_pairs:
        raise Unfit(f"a block of {crate} can't be read: {lines[0]}")
    pairs = tuple((old[2:], new[2:]) for old, new in zip(olds, news))
    return Edit(crate, named[1] or "", named[2], named[3], file, pairs)


def crates() -> dict[str, list[str]]:
    """The crates of crates.txt, each with the crates that it names."""
    lines = [line.partition("#")[0].partition(":") for line in read(f"{ROOT}/crates.txt").split("\n")]
    return {head.split()[0]: named.split() for head, colon, named in lines if colon}


def below(crate: str, uses: dict[str, list[str]]) -> list[str]:
    """The crates of crates.txt below this one."""
    found: set[str] = set()
    left = [crate]
    while left:
        more = [it for it in uses[left.pop()] if it in uses and it not in found]
        found.update(more)
        left += more
    return sorted(found)


def edits_of(crate: str) -> list[Edit]:
    path = f"{SHELF}/{crate}.edits"
    blocks = read(path).strip("\n").split("\n\n") if os.path.exists(path) else []
    return [edit_of(crate, block) for block in blocks]


def all_edits() -> list[Edit]:
    return [edit for crate in crates() for edit in edits_of(crate)]


def sources_of(crate: str) -> Iterator[str]:
    for folder, _, names in os.walk(f"{ROOT}/crates/{crate}/src"):
        yield from (read(f"{folder}/{name}") for name in names)
