"""A client of tools/lsp, for tests and measurements: it sends frames, and keeps messages until they are asked for."""
from __future__ import annotations

import json
import os
import queue
import subprocess
import sys
import threading
from pathlib import Path
from typing import Any, Callable, Optional

ROOT = Path(__file__).resolve().parents[2]
MOST_SECONDS = 60
URI = "file:///nowhere/script.ttcn"
PUBLISHED = "textDocument/publishDiagnostics"
ALL = {
    "workspace": {"codeLens": {"refreshSupport": True}, "inlayHint": {"refreshSupport": True}},
    "window": {"showDocument": {"support": True}},
    "textDocument": {"documentSymbol": {"hierarchicalDocumentSymbolSupport": True}},
}


def frame(message: Any) -> bytes:
    body = json.dumps(message).encode()
    return b"Content-Length: %d\r\n\r\n" % len(body) + body


class Client:
    """A server, and the version of the script that is open in it."""

    def __init__(self, program: str, *words: str, is_initialized: bool = True, can: Any = None):
        command = [sys.executable, "-B", str(ROOT / "tools" / "lsp"), "--tpr", program, "--delay", "20", *words]
        pipe = subprocess.PIPE
        self.process = subprocess.Popen(command, stdin=pipe, stdout=pipe, stderr=pipe, env={**os.environ, "TPR": ""})
        self.incoming: queue.Queue[Any] = queue.Queue()
        self.kept: list[Any] = []
        self.requests = self.version = 0
        threading.Thread(target=self._read, daemon=True).start()
        if is_initialized:
            self.ask("initialize", {"capabilities": ALL if can is None else can})
            self.tell("initialized", {})

    def _read(self) -> None:
        stream = self.process.stdout
        assert stream is not None
        while line := stream.readline():
            length = int(line.removeprefix(b"Content-Length: "))
            stream.readline()
            self.incoming.put(json.loads(stream.read(length)))
        self.incoming.put(None)

    def write(self, data: bytes) -> None:
        assert self.process.stdin is not None
        self.process.stdin.write(data)
        self.process.stdin.flush()

    def tell(self, method: str, params: Any) -> None:
        self.write(frame({"jsonrpc": "2.0", "method": method, "params": params}))

    def begin(self, method: str, params: Any = None) -> int:
        """Sends a request, and returns its number."""
        self.requests += 1
        self.write(frame({"jsonrpc": "2.0", "id": self.requests, "method": method, "params": params}))
        return self.requests

    def next(self, wanted: Callable[[Any], Any]) -> Any:
        """Returns the next message that is wanted, and keeps the others."""
        for number, message in enumerate(self.kept):
            if wanted(message):
                return self.kept.pop(number)
        while message := self.incoming.get(timeout=MOST_SECONDS):
            if wanted(message):
                return message
            self.kept.append(message)
        raise EOFError("the server has ended")

    def answer(self, number: Optional[int]) -> Any:
        return self.next(lambda it: it.get("id", "") == number and "method" not in it)

    def ask(self, method: str, params: Any = None) -> Any:
        """Sends a request, and returns its result or its error."""
        answer = self.answer(self.begin(method, params))
        return answer["result"] if "result" in answer else answer["error"]

    def notice(self, method: str) -> Any:
        return self.next(lambda it: it.get("method") == method).get("params")

    # The script

    def open(self, text: str, uri: str = URI) -> None:
        self.version = 1
        item = {"uri": uri, "version": 1, "languageId": "ttcn", "text": text}
        self.tell("textDocument/didOpen", {"textDocument": item})

    def change(self, text: str, span: Any = None) -> None:
        """Replaces the text, or a piece of it."""
        self.version += 1
        change = {"text": text} if span is None else {"text": text, "range": span}
        params = {"textDocument": {"uri": URI, "version": self.version}, "contentChanges": [change]}
        self.tell("textDocument/didChange", params)

    def diagnostics(self, text: Optional[str] = None) -> list[Any]:
        """The diagnostics of the script, or of another text that replaces it."""
        if text is not None:
            self.change(text)
        found = self.next(lambda it: it.get("method") == PUBLISHED and it["params"].get("version") == self.version)
        return list(found["params"]["diagnostics"])

    def of(self, request: str, **more: Any) -> Any:
        """The result of a request on the script."""
        return self.ask(f"textDocument/{request}", {"textDocument": {"uri": URI}, **more})

    def end(self, is_shut_down: bool = True) -> int:
        """Ends the server, and returns its status."""
        if is_shut_down:
            self.ask("shutdown")
            self.tell("exit", None)
        assert self.process.stdin is not None
        self.process.stdin.close()
        return self.process.wait(MOST_SECONDS)

    def __enter__(self) -> Client:
        return self

    def __exit__(self, *_: object) -> None:
        with self.process:  # which closes its streams
            self.process.terminate()
