"""Places in a text, as editors count them: lines that end with LF, CR LF or CR, and columns in units of UTF-16."""
from __future__ import annotations

import re
from bisect import bisect_right

from .frames import Json

_BREAK = re.compile(r"\r\n|\n|\r")
_FEED = re.compile(r"\n")
_WIDE = re.compile("[\U00010000-\U0010ffff]")
_HALF = re.compile("[\ud800-\udfff]")


def without_halves(text: str) -> str:
    """The text with each half of a surrogate pair replaced, because no file encoding can hold one."""
    return _HALF.sub("\ufffd", text)


class Lines:
    """A text, and where its lines begin. An offset counts characters, from 0."""

    def __init__(self, text: str):
        self.text = text
        self.starts = [0, *(found.end() for found in _BREAK.finditer(text))]
        # The tools count only LF as the end of a line.
        self._feeds = self.starts
        if "\r" in text:
            self._feeds = [0, *(found.end() for found in _FEED.finditer(text))]
        self._has_wide = _WIDE.search(text) is not None

    def end(self, line: int) -> int:
        """The offset after the last character of the line."""
        if line + 1 >= len(self.starts):
            return len(self.text)
        end = self.starts[line + 1] - 1
        return end - 1 if self.text[end - 1 : end + 1] == "\r\n" else end

    def position(self, offset: int) -> Json:
        line = bisect_right(self.starts, offset) - 1
        offset = min(offset, self.end(line))
        before = self.text[self.starts[line] : offset] if self._has_wide else ""
        return {"line": line, "character": offset - self.starts[line] + len(_WIDE.findall(before))}

    def told(self, line: int, column: int, length: int) -> Json:
        """The range for a place that a tool names, which ends on the line where it begins."""
        offset = self.offset_told(line, column)
        line = bisect_right(self.starts, offset) - 1
        end = max(offset, min(offset + length, self.end(line)))
        return self.region(offset, end)

    def region(self, start: int, end: int) -> Json:
        return {"start": self.position(start), "end": self.position(end)}

    def whole_line(self, number: int) -> Json:
        """The range of a line that a tool names, counted from 1, without the spaces before its text."""
        start = self.offset_told(number, 1)
        line = bisect_right(self.starts, start) - 1
        shown = self.text[start : self.end(line)]
        return self.region(start + len(shown) - len(shown.lstrip()), self.end(line))

    def offset(self, line: int, character: int) -> int:
        """The offset of an editor's position. A position beyond the end of a line or of the text means that end."""
        if line >= len(self.starts):
            return len(self.text)
        start, end = self.starts[line], self.end(line)
        if not self._has_wide:
            return min(start + character, end)
        offset = start
        while offset < end and character > 0:
            character -= 2 if self.text[offset] > "\uffff" else 1
            offset += 1
        return offset

    def offset_told(self, line: int, column: int) -> int:
        """The offset of a place that a tool names: line and column are counted from 1, columns in characters."""
        line = max(1, min(line, len(self._feeds)))
        return min(self._feeds[line - 1] + column - 1, len(self.text))
