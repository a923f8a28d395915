#!/usr/bin/env python3
"""Tests that what the documents name exists, and that they aren't too long.

    document_names.py [ROOT]

It prints a line `passed ..` for each document, or lines `FAILED: ..`, by these rules:

- each file, each wrong body and each section that it names exists; each section that a source names exists too;
- each name of the code in a document on the code is a word of a source, and one source has both parts of `Type::name`;
- what a program counts (crates, wrong bodies, examples, cases) has no number in a document, and no other count is in
  two documents. CHANGELOG.md describes the past, and may have any;
- docs/ARCHITECTURE.md and docs/PROVED.md name each crate;
- the records of docs/DECISIONS.md are numbered consecutively, and have at most 120 words;
- README.md has at most 1,300 words, and all documents together have at most 47,000.
"""
import argparse
import glob
import os
import re
import sys
from collections.abc import Iterable, Iterator
from itertools import chain

PAGES_ON_THE_CODE = ("ARCHITECTURE", "CONTRACTS", "DECISIONS", "DEVELOPING", "MODEL", "PROVED")
ON_THE_CODE = frozenset(f"docs/{name}.md" for name in PAGES_ON_THE_CODE)
FOLDERS = ("bench", "crates", "docs", "examples", "tests", "tools", ".ci")
SOURCES = ("build", "crates", "crates.txt", "tests", "test", "tools", "tpr", "try", "bench", ".ci")
NO_SOURCE = frozenset(("out", "proofs", "wrong_bodies", "must-fail", "__pycache__"))
MOST_WORDS, MOST_WORDS_OF_README, MOST_WORDS_OF_A_RECORD = 47_000, 1_300, 120

_WORD = re.compile(r"[A-Za-z_][A-Za-z0-9_]*")
_LINK = re.compile(r"\]\(([^)\s]+)\)")
_CODE = re.compile(r"`([^`\n]+)`")
_NAME = re.compile(r"[A-Za-z_][A-Za-z0-9_]*(?:::[A-Za-z_][A-Za-z0-9_]*)*")
_BOLD = re.compile(r"\*\*([A-Za-z_][A-Za-z0-9_]*)\*\*")
_HEADING = re.compile(r"^#+ (.+)$", re.MULTILINE)
_SECTION = re.compile(r"\b([A-Z][A-Z_0-9]+)\.md(?:\)?, \"| \(\")([^\"]+)\"")
_COUNTED = re.compile(r"\b([0-9][0-9,]*) (crates|wrong bodies|examples|cases)\b(?!/)")
_COUNT = re.compile(r"\b([0-9][0-9,]*) ((?:small )?(?:scripts|queue files|orders|texts|plans|faults|reports))\b")
_RECORD = re.compile(r"^### ([0-9]+)\. .*$", re.MULTILINE)
_FENCED = re.compile(r"^ *```.*?^ *```$", re.DOTALL | re.MULTILINE)


def text_of(path: str) -> str:
    """The text of a file, whatever its bytes."""
    with open(path, encoding="utf-8", errors="replace") as file:
        return file.read()


def files_below(*places: str) -> Iterator[str]:
    """The files at and below these places, without those that are built or recorded, and without proofs."""
    for place in places:
        if os.path.isfile(place):
            yield place
        for folder, inner, names in os.walk(place):
            inner[:] = sorted(name for name in inner if name not in NO_SOURCE)
            yield from (f"{folder}/{name}" for name in sorted(names))


def find_documents() -> dict[str, str]:
    """The text of each document, by its path."""
    pages = [path for path in files_below(*FOLDERS) if path.endswith(".md") or path == "docs/tpr.1"]
    return {path: text_of(path) for path in (*sorted(glob.glob("*.md")), *pages)}


def anchor_of(heading: str) -> str:
    """The anchor that the repository's web page gives a heading."""
    shown = re.sub(r"\[([^\]]*)\]\([^)]*\)", r"\1", heading.strip()).lower()
    return re.sub(r"[^\w\- ]", "", shown).replace(" ", "-")


def headings_of(text: str) -> list[str]:
    """The headings of a document outside its fenced blocks."""
    return [heading.strip() for heading in _HEADING.findall(_FENCED.sub("", text))]


def lost_links(path: str, documents: dict[str, str]) -> Iterator[str]:
    """The files and sections to which a document links and which don't exist."""
    for link in _LINK.findall(documents[path]):
        if link.startswith("http"):
            continue
        file, _, anchor = link.partition("#")
        target = os.path.normpath(os.path.join(os.path.dirname(path), file)) if file else path
        if not os.path.exists(target):
            yield f"the file of the link {link}"
        elif anchor and anchor not in map(anchor_of, headings_of(documents.get(target, ""))):
            yield f"the section of the link {link}"


def spread(pattern: str) -> list[str]:
    """The patterns that a pattern with braces stands for: `ab` and `ac` for `a{b,c}`."""
    found = re.search(r"\{([^{}]*)\}", pattern)
    if not found:
        return [pattern]
    ends = (pattern[: found.start()] + one + pattern[found.end() :] for one in found[1].split(","))
    return list(chain.from_iterable(map(spread, ends)))


def words_of_code(text: str) -> list[str]:
    """The words in backquotes and in commands, each once."""
    shown = chain(_CODE.findall(text), re.findall(r"^ {4}.*$", text, re.MULTILINE))
    return sorted(set(chain.from_iterable(map(str.split, shown))))


def is_wrong_body(crate: str, name: str) -> bool:
    """Whether the crate has a wrong body of this name."""
    path = f"tests/wrong_bodies/{crate}.edits"
    return os.path.exists(path) and bool(re.search(rf"^(\*\*? )?{name}: ", text_of(path), re.MULTILINE))


def lost_wrong_bodies(text: str) -> Iterator[str]:
    """The wrong bodies `crate/name` that a document names and that don't exist."""
    for word in words_of_code(text):
        found = re.fullmatch(r"(tp[a-z]*_[a-z]+)/([a-z0-9_]+)", word)
        if found and not is_wrong_body(found[1], found[2]):
            yield f"the wrong body {word}"


def lost_files(text: str) -> Iterator[str]:
    """The files of the repository that a document names in backquotes or in a command, and that don't exist. A word in
    capitals stands for any name."""
    for word in words_of_code(text):
        path = word.removeprefix("./").removeprefix(">").rstrip(".,:;)")
        parts = path.split("/")
        if len(parts) < 2 or parts[0] not in FOLDERS or "out" in parts or not re.fullmatch(r"[\w./*{},\[\]-]+", path):
            continue
        pattern = re.sub(r"\b[A-Z]{2,}\b(?!\.md)", "*", path)
        if not all(glob.glob(one) for one in spread(pattern)):
            yield f"the file {word}"


def unnumbered(title: str) -> str:
    """A title without the number before it."""
    return re.sub(r"^[0-9]+\. ", "", title)


def lost_sections(text: str, documents: dict[str, str]) -> Iterator[str]:
    """The sections of documents that a text names, and that don't exist."""
    for name, section in _SECTION.findall(text):
        page = documents.get(f"docs/{name}.md", documents.get(f"{name}.md", ""))
        title = unnumbered(" ".join(section.split()))
        if not any(unnumbered(heading).startswith(title) for heading in headings_of(page)):
            yield f'the section {name}.md, "{title}"'


def names_of(text: str) -> set[str]:
    """The names in backquotes, and the names in bold that aren't plain words."""
    named = {name for name in _CODE.findall(_FENCED.sub("", text)) if _NAME.fullmatch(name)}
    return named | {name for name in _BOLD.findall(text) if "_" in name or name[1:].lower() != name[1:]}


def lost_names(text: str, sources: list[frozenset[str]], words: frozenset[str]) -> Iterator[str]:
    """The names of the code that no source has, and each `Type::name` whose parts no single source has."""
    for name in sorted(names_of(text)):
        parts = frozenset(name.split("::"))
        if not parts <= words or not any(parts <= one for one in sources):
            yield f"the name {name}"


def wrong_counts(documents: dict[str, str]) -> Iterator[tuple[str, str]]:
    """The documents with a count that a program makes, or that another document has too."""
    places: dict[str, str] = {}
    for path, text in documents.items():
        if path == "CHANGELOG.md":
            continue
        for number, what in _COUNTED.findall(text):
            yield path, f"the count {number} {what} is a program's to make"
        for count in sorted({f"{number} {what}" for number, what in _COUNT.findall(text)}):
            if places.setdefault(count, path) != path:
                yield path, f"the count {count} stands in {places[count]} too"


def wrong_records(text: str) -> Iterator[str]:
    """The faults of the records of docs/DECISIONS.md."""
    numbers = [int(number) for number in _RECORD.findall(text)]
    if not numbers or numbers != list(range(1, len(numbers) + 1)):
        yield "the records aren't numbered one after the other"
    bodies = _RECORD.split(text)[2::2]
    for number, body in zip(numbers, bodies):
        words = len(re.sub(r"^## .*", "", body, flags=re.MULTILINE).split())
        if words > MOST_WORDS_OF_A_RECORD:
            yield f"record {number} has {words} words"


def missing_crates(documents: dict[str, str]) -> Iterator[tuple[str, str]]:
    """The crates that a document about all crates doesn't name."""
    crates = re.findall(r"^([a-z_]+)\b", text_of("crates.txt"), re.MULTILINE)
    for path in ("docs/ARCHITECTURE.md", "docs/PROVED.md"):
        words = frozenset(_WORD.findall(documents[path]))
        yield from ((path, f"it doesn't name the crate {crate}") for crate in crates if crate not in words)


def long_documents(documents: dict[str, str]) -> Iterator[tuple[str, str]]:
    """The documents with too many words."""
    of_all = sum(len(text.split()) for text in documents.values())
    of_readme = len(documents["README.md"].split())
    if of_readme > MOST_WORDS_OF_README:
        yield "README.md", f"it has {of_readme} words, and {MOST_WORDS_OF_README} are the most"
    if of_all > MOST_WORDS:
        yield "README.md", f"all documents have {of_all} words, and {MOST_WORDS} are the most"


def faults_of(documents: dict[str, str]) -> Iterator[tuple[str, str]]:
    """Each fault, with the document or source that has it."""
    texts = {path: text_of(path) for path in files_below(*SOURCES) if path not in documents}
    sources = [frozenset(_WORD.findall(text)) for path, text in texts.items() if path != "tests/documents/document_names.py"]
    words: frozenset[str] = frozenset().union(*sources)
    for path, text in documents.items():
        lost: Iterable[str] = chain(lost_links(path, documents), lost_sections(text, documents))
        if path.endswith(".md"):
            lost = chain(lost, lost_files(text), lost_wrong_bodies(text))
        if path in ON_THE_CODE:
            lost = chain(lost, lost_names(text, sources, words))
        yield from ((path, f"it names what isn't there: {what}") for what in lost)
    for path, text in texts.items():
        yield from ((path, f"it names what isn't there: {what}") for what in lost_sections(text, documents))
    yield from chain(wrong_counts(documents), missing_crates(documents), long_documents(documents))
    yield from (("docs/DECISIONS.md", what) for what in wrong_records(documents["docs/DECISIONS.md"]))


def main() -> int:
    words = argparse.ArgumentParser(description="Whether the documents name what is there.")
    root = os.path.dirname(os.path.dirname(os.path.dirname(os.path.abspath(__file__))))
    words.add_argument("root", metavar="ROOT", nargs="?", default=root, help="the repository")
    os.chdir(words.parse_args().root)
    documents = find_documents()
    faults = list(faults_of(documents))
    for path, what in faults:
        print(f"FAILED: {path}: {what}")
    for path in documents:
        if path not in {faulty for faulty, _ in faults}:
            print(f"passed {path}")
    return 1 if faults else 0


if __name__ == "__main__":
    sys.exit(main())
