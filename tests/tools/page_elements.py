"""The page of a suite, read as a browser does: its elements, which must be closed in their order, and its links."""
from __future__ import annotations

from html.parser import HTMLParser
from pathlib import Path
from typing import Optional
from urllib.parse import unquote
from xml.etree.ElementTree import Element, TreeBuilder

from tool_calls import must

VOID = ("meta", "link", "input", "img", "wbr")


class _Reader(HTMLParser):
    def __init__(self) -> None:
        super().__init__()
        self.tree = TreeBuilder()
        self.open: list[str] = []
        self.handle_starttag("page", [])

    def handle_starttag(self, tag: str, attrs: list[tuple[str, Optional[str]]]) -> None:
        must(len(dict(attrs)) == len(attrs), f"{tag} has an attribute twice")
        self.tree.start(tag, {name: value or "" for name, value in attrs})
        self.open.append(tag)
        if tag in VOID:
            self.handle_endtag(tag)

    def handle_endtag(self, tag: str) -> None:
        must(self.open.pop() == tag, f"{self.getpos()}: </{tag}> closes another element")
        self.tree.end(tag)

    def handle_data(self, data: str) -> None:
        self.tree.data(data)


def page_in(file: Path) -> Element:
    reader = _Reader()
    reader.feed(file.read_text(encoding="utf-8"))
    reader.close()
    reader.handle_endtag("page")
    return reader.tree.close()


def text_in(element: Element) -> str:
    return "".join(element.itertext())


def each(element: Element, tag: str, of: str = "") -> list[Element]:
    """The elements in it with this tag and this class."""
    return [it for it in element.iter(tag) if not of or of in it.get("class", "").split()]


def cell(row: Element, of: str) -> str:
    """The text of the row's cell; empty if there is none."""
    return "".join(map(text_in, each(row, "span", of)))


def rows_of(page: Element) -> list[Element]:
    return each(page, "details", "row")


def row_of(page: Element, script: str) -> Element:
    (row,) = [it for it in rows_of(page) if cell(it, "script") == script]
    return row


def links_must_hold(page: Element, folder: Path) -> None:
    """Each link leads to a place of the page or to a file beside it, and nothing is loaded from elsewhere."""
    names = [it.get("id", "") for it in page.iter() if "id" in it.keys()]
    must(len(names) == len(set(names)), "two places have one name")
    must(not any(any(letter.isspace() for letter in name) for name in names), f"{names} have spaces")
    for element in page.iter():
        must(not any(it.startswith("on") for it in element.keys()), f"{element.tag} has code")
        for link in (link for it in ("href", "src") if (link := element.get(it)) is not None):
            if link.startswith("#"):
                must(unquote(link[1:]) in names, f"nothing is named {link}")
            elif link != "data:,":
                must((folder / unquote(link)).is_file(), f"there is no file {link}")
                must(":" not in link and not link.startswith("/"), f"{link} isn't beside the page")
