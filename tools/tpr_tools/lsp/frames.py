"""The frames of the Language Server Protocol 3.17: a header with a length, and a message in JSON."""
from __future__ import annotations

import json
from typing import Any, BinaryIO, Optional, Union

from ..command import NOT_WRITTEN, Stop

# Any value that a message may contain.
Json = Any

PARSE_ERROR, INVALID_REQUEST, METHOD_NOT_FOUND, INVALID_PARAMS, INTERNAL_ERROR = -32700, -32600, -32601, -32602, -32603
NOT_INITIALIZED, CANCELLED, CONTENT_MODIFIED = -32002, -32800, -32801

MOST_BYTES = 64 * 1024 * 1024  # of a message: a script has at most 1 MiB
_LONGEST_LINE = 8192  # of a header
_MOST_HEADERS = 32
_AT_ONCE = 1 << 16


class Refused(Exception):
    """A request that isn't possible; or bytes that aren't a message, after which the reader continues."""

    def __init__(self, code: int, text: str):
        super().__init__(text)
        self.code = code
        self.text = text


def read_message(source: BinaryIO) -> Optional[dict[str, Json]]:
    """The next message; None at the end of the input."""
    length = _length_in_header(source)
    if length is None:
        return None
    if length > MOST_BYTES:
        while length > 0 and (piece := source.read(min(length, _AT_ONCE))):
            length -= len(piece)
        raise Refused(INVALID_REQUEST, f"a message has more than {MOST_BYTES:,} bytes")
    body = source.read(length)
    if len(body) < length:
        return None
    try:
        message = json.loads(body)
    except (ValueError, RecursionError) as error:
        raise Refused(PARSE_ERROR, f"a message isn't JSON: {error}") from None
    if not isinstance(message, dict):
        raise Refused(INVALID_REQUEST, "a message isn't a JSON object")
    return message


def _length_in_header(source: BinaryIO) -> Optional[int]:
    """The length of the message; None at the end of the input."""
    length: Optional[int] = None
    for _ in range(_MOST_HEADERS):
        line = source.readline(_LONGEST_LINE)
        if not line:
            return None
        name, colon, value = line.partition(b":")
        if line in (b"\r\n", b"\n"):
            if length is None:
                raise Refused(PARSE_ERROR, "a header has no Content-Length")
            return length
        if not colon or not line.endswith(b"\n"):
            raise Refused(PARSE_ERROR, "a line of a header isn't `NAME: VALUE`")
        if name.strip().lower() == b"content-length":
            digits = value.strip()
            if not digits.isdigit() or len(digits) > 12:
                raise Refused(PARSE_ERROR, "the Content-Length isn't a number")
            length = int(digits)
    raise Refused(PARSE_ERROR, f"a header has more than {_MOST_HEADERS} lines")


class Writer:
    """Sends messages to the client. Only one thread uses it."""

    def __init__(self, target: BinaryIO):
        self._target = target
        self._requests = 0

    def _send(self, message: dict[str, Json]) -> None:
        # Only ASCII: a lone surrogate of the client can't be encoded in any other way.
        body = json.dumps({"jsonrpc": "2.0", **message}).encode("ascii")
        try:
            self._target.write(b"Content-Length: %d\r\n\r\n" % len(body) + body)
            self._target.flush()
        except BrokenPipeError:
            raise Stop(NOT_WRITTEN, "the editor has closed the connection") from None
        except OSError:
            raise Stop(NOT_WRITTEN, "the answer can't be written") from None

    def notify(self, method: str, params: Json) -> None:
        self._send({"method": method, "params": params})

    def request(self, method: str, params: Json = None) -> None:
        """Asks the client for something. The server needs none of the answers."""
        self._requests += 1
        asked: dict[str, Json] = {"id": f"tpr-{self._requests}", "method": method}
        self._send(asked if params is None else {**asked, "params": params})

    def answer(self, number: Union[int, str], result: Json) -> None:
        self._send({"id": number, "result": result})

    def refuse(self, number: Union[int, str, None], refused: Refused) -> None:
        self._send({"id": number, "error": {"code": refused.code, "message": refused.text}})
