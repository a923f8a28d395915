"""The language server: one thread handles messages, the ends of programs and deadlines, in the order of their arrival.
A second thread reads messages, so that a request can be cancelled before its turn."""
from __future__ import annotations

import json
import os
import queue
import re
import shutil
import sys
import tempfile
import threading
import time
from functools import partial
from pathlib import Path
from typing import Any, BinaryIO, Callable, Optional, Union

from ..command import Stop
from . import frames
from .diagnostics import Found, explained, found_in
from .documents import SHOW_RUNS, Document, Held, verdict_told
from .frames import Json, Refused, Writer
from .hovering import definition_of, flat, hover_of, symbols_of
from .jobs import Job
from .positions import Lines, without_halves

_CHECK_SECONDS = 5.0
_LISTING_SECONDS = 60.0
_RUN_SECONDS = 5.0
_HOLD_SECONDS = 2.0  # for which a request waits for a program
_CAPABILITIES = {
    "positionEncoding": "utf-16",
    "textDocumentSync": {"openClose": True, "change": 2, "save": {"includeText": False}},
    "hoverProvider": True,
    "definitionProvider": True,
    "documentSymbolProvider": True,
    "codeLensProvider": {"resolveProvider": False},
    "inlayHintProvider": True,
    "executeCommandProvider": {"commands": [SHOW_RUNS]},
}
# The action when a program has ended.
Then = Callable[[Document, Job], None]
Number = Union[int, str]  # of a request


class Server:
    """Calls the program, and starts the tools below `root`. After a change it waits `delay` seconds for the next."""

    def __init__(self, program: str, root: str, delay: float, source: BinaryIO, target: BinaryIO):
        self.program, self.tools, self.delay = program, os.path.join(root, "tools"), delay
        self.source = source
        self.client = Writer(target)
        self.events: queue.Queue[Callable[[], None]] = queue.Queue()
        self.documents: dict[str, Document] = {}
        self.room = ""  # for the documents that show where runs diverge
        self.cancelled: set[Number] = set()
        self.status: Optional[int] = None
        self.is_initialized = self.is_shut_down = False
        self.can: Json = {}
        # A program that can't be run isn't tried again at each change, only when a text is saved.
        self.program_fails = False

    def serve(self) -> int:
        """Works until the client ends it. Returns the status of the process."""
        threading.Thread(target=self._read, daemon=True).start()
        try:
            while self.status is None:
                try:
                    self.events.get(timeout=self._pause())()
                except queue.Empty:
                    pass
                if self.events.empty():
                    self._do_what_is_due()
        finally:
            for document in self.documents.values():
                document.cancel_jobs()
            if self.room:
                shutil.rmtree(self.room, ignore_errors=True)
        return self.status

    # Events

    def _read(self) -> None:
        was_broken = False
        while True:
            try:
                message = frames.read_message(self.source)
            except Refused as broken:
                # Bytes without any frame are refused once, however many they are.
                if not was_broken:
                    self.events.put(partial(self.client.refuse, None, broken))
                was_broken = broken.code == frames.PARSE_ERROR
                continue
            except (OSError, ValueError):
                message = None
            was_broken = False
            number = at(message, "params", "id") if at(message, "method") == "$/cancelRequest" else None
            if isinstance(number, (int, str)):
                self.cancelled.add(number)
            self.events.put(partial(self._end if message is None else self._message, message))
            if message is None:
                return

    def _end(self, _: object) -> None:
        self.status = 0 if self.is_shut_down else 1

    def _pause(self) -> Optional[float]:
        """The time until the next deadline."""
        due = [it.check_at for it in self.documents.values() if it.check_at is not None]
        due += [held.until for it in self.documents.values() for held in it.held if held.until is not None]
        return max(0.0, min(due) - time.monotonic()) if due else None

    def _message(self, message: dict[str, Json]) -> None:
        number, method = message.get("id"), message.get("method")
        number = number if isinstance(number, (int, str)) else None
        if not isinstance(method, str):
            if "result" not in message and "error" not in message:
                what = "a message has neither a method nor a result"
                self.client.refuse(None, Refused(frames.INVALID_REQUEST, what))
            return
        try:
            if number is not None and number in self.cancelled:
                raise Refused(frames.CANCELLED, "the request was cancelled")
            result = self._called(method, message.get("params"), number)
            if number is not None and not isinstance(result, Held):
                self.client.answer(number, result)
        except Refused as refused:
            self._refuse(number, refused)
        except Stop:
            raise
        except Exception as error:  # A fault of the server must not end the session.
            self._refuse(number, Refused(frames.INTERNAL_ERROR, f"{method}: {type(error).__name__}: {error}"))
        if number is not None:
            self.cancelled.discard(number)

    def _refuse(self, number: Optional[Number], refused: Refused) -> None:
        if number is not None:
            self.client.refuse(number, refused)
        elif refused.code != frames.METHOD_NOT_FOUND and self.is_initialized:
            self._log(refused.text)

    def _called(self, method: str, params: Json, number: Optional[Number]) -> Any:
        """The result of a request; the caller drops that of a notification."""
        if method == "exit":
            return self._end(None)
        if method == "initialize" and not self.is_initialized:
            return self._initialize(params)
        if not self.is_initialized:
            raise Refused(frames.NOT_INITIALIZED, "the first request must be `initialize`")
        if self.is_shut_down or method == "initialize":
            raise Refused(frames.INVALID_REQUEST, f"`{method}` isn't possible now")
        if method not in _METHODS:
            raise Refused(frames.METHOD_NOT_FOUND, f"there is no method `{method}`")
        return _METHODS[method](self, params, number)

    def _initialize(self, params: Json) -> Json:
        self.is_initialized = True
        self.can = at(params, "capabilities")
        return {"capabilities": _CAPABILITIES, "serverInfo": {"name": "tpr"}}

    def _client_can(self, *names: str) -> bool:
        return bool(at(self.can, *names))

    def _refresh(self, what: str) -> None:
        """Has the client ask again, if it can."""
        if self._client_can("workspace", what, "refreshSupport"):
            self.client.request(f"workspace/{what}/refresh")

    def _log(self, text: str) -> None:
        self.client.notify("window/logMessage", {"type": 2, "message": text})

    # Texts

    def did_open(self, params: Json, _: object) -> None:
        item = wanted(params, dict, "textDocument")
        uri, text = wanted(item, str, "uri"), wanted(item, str, "text")
        if uri in self.documents:
            self._forget(self.documents[uri])
        self.documents[uri] = Document(uri, item.get("version"), Lines(without_halves(text)))
        self._check_soon(self.documents[uri])

    def did_change(self, params: Json, _: object) -> None:
        document = self._document(params)
        text = document.lines.text
        for change in wanted(params, list, "contentChanges"):
            piece, start, end = wanted(change, str, "text"), 0, len(text)
            if at(change, "range") is not None:
                lines = Lines(text)
                start, end = (_offset(lines, at(change, "range", it)) for it in ("start", "end"))
            text = text[:start] + piece + text[max(start, end) :]
        self._forget(document)
        document.change(at(params, "textDocument", "version"), text)
        self._check_soon(document)

    def did_save(self, params: Json, _: object) -> None:
        document = self._document(params)
        document.is_saved = True
        if self.program_fails:
            self.program_fails = False
            self._check_soon(document)
        elif document.is_accepted:
            self._start_ways(document)

    def did_close(self, params: Json, _: object) -> None:
        document = self._document(params)
        self._forget(document)
        del self.documents[document.uri]
        document.found, document.version = [], None
        self._send_diagnostics(document)

    def _document(self, params: Json) -> Document:
        uri = wanted(params, str, "textDocument", "uri")
        if uri not in self.documents:
            raise Refused(frames.INVALID_PARAMS, f"`{uri}` isn't open")
        return self.documents[uri]

    def _forget(self, document: Document) -> None:
        """Ends the programs that were started for this version."""
        document.cancel_jobs()
        for held in document.held:
            self.client.refuse(held.number, Refused(frames.CONTENT_MODIFIED, "the text has changed"))
        document.held.clear()

    def _check_soon(self, document: Document) -> None:
        document.check_at = time.monotonic() + self.delay

    def _do_what_is_due(self) -> None:
        now = time.monotonic()
        for document in list(self.documents.values()):
            if document.check_at is not None and document.check_at <= now:
                document.check_at = None
                if self.program_fails:
                    self._publish(document, None)
                else:
                    self._start(document, "check", self._checked, _CHECK_SECONDS, self.program, "check")
            for held in [it for it in document.held if it.until is not None and it.until <= now]:
                self._answer_held(document, held)

    # Programs

    def _start(self, document: Document, name: str, then: Then, seconds: Optional[float], *command: str) -> None:
        """Starts a program, and cancels an earlier one of this name. `then` isn't called for a cancelled program."""

        def ended(job: Job) -> None:
            if document.jobs.get(name) is job:
                del document.jobs[name]
                then(document, job)

        if name in document.jobs:
            document.jobs[name].cancel()
        document.jobs[name] = Job(command, document.data, seconds, lambda job: self.events.put(partial(ended, job)))

    def _tool(self, name: str, *words: str) -> list[str]:
        return [sys.executable, "-B", os.path.join(self.tools, name), *words]

    def _start_ways(self, document: Document) -> None:
        command = self._tool("lsp", "--work", "ways", self.program, str(_RUN_SECONDS))
        self._start(document, "ways", self._ran, 2 * _RUN_SECONDS, *command)

    def _checked(self, document: Document, job: Job) -> None:
        said = job.printed.removesuffix("\n")
        self.program_fails = not re.fullmatch(r"accepted|refused [^\n]+", said)
        if self.program_fails:
            self._log(f"tpr check failed, so the server checks the script by itself: {said[:200] or job.why}")
        self._publish(document, None if self.program_fails else said)

    def _publish(self, document: Document, said: Optional[str]) -> None:
        """Shows the diagnostics, and starts the programs that need the answer."""
        explanations = explained(document.file, document.data, said)
        document.found = found_in(document.lines, explanations)
        document.is_accepted = explanations[0].number is None
        self._send_diagnostics(document)
        if not document.is_accepted:
            command = self._tool("lsp", "--work", "constructs", document.file, said or "")
            self._start(document, "constructs", self._listed, _LISTING_SECONDS, *command)
        elif said is not None:
            self._start(document, "verdicts", self._decided, None, self.program, "verdicts")
            if document.is_saved:
                self._start_ways(document)
        else:
            document.verdict = "no verdicts: tpr can't be run"
        self._answer_ready(document)
        _ = document.outline  # computes it before the first hover

    def _send_diagnostics(self, document: Document) -> None:
        found = [it.as_json(document.uri) for it in document.found]
        params: Json = {"uri": document.uri, "diagnostics": found}
        if document.version is not None:
            params["version"] = document.version
        self.client.notify("textDocument/publishDiagnostics", params)

    def _listed(self, document: Document, job: Job) -> None:
        if listed := _listed(job):
            document.found = [Found(**it) for it in listed]
            self._send_diagnostics(document)

    def _decided(self, document: Document, job: Job) -> None:
        document.verdict = verdict_told(job.printed, job.why)
        if document.has_early_lens:
            self._refresh("codeLens")
        self._answer_ready(document)

    def _ran(self, document: Document, job: Job) -> None:
        document.hints = [_hint(document.lines, line, label) for line, label in _listed(job)]
        self._refresh("inlayHint")
        self._answer_ready(document)

    def _explored(self, document: Document, job: Job) -> None:
        text = job.printed or f"tools/explore printed nothing: {job.why}\n"
        waiting = [it for it in document.held if it.wants == "runs"]
        try:
            path = self._written(document, text)
        except OSError as error:
            refused = Refused(frames.INTERNAL_ERROR, f"the runs can't be written: {error.strerror}")
            for held in waiting:
                document.held.remove(held)
                self.client.refuse(held.number, refused)
            return
        uri = path.as_uri()
        if self._client_can("window", "showDocument", "support"):
            self.client.request("window/showDocument", {"uri": uri, "takeFocus": True})
        else:
            self.client.notify("window/showMessage", {"type": 3, "message": f"The runs are in {path}."})
        for held in waiting:
            document.held.remove(held)
            self.client.answer(held.number, {"uri": uri, "text": text})

    def _written(self, document: Document, text: str) -> Path:
        """The file of this text. Its name has no NUL, no half of a surrogate pair, and at most 255 bytes."""
        self.room = self.room or tempfile.mkdtemp(prefix="tpr-lsp-")
        name = re.sub(r"[^\w .+-]", "_", os.path.splitext(os.path.basename(document.file))[0])[:60] or "script"
        path = Path(self.room) / f"{name}.runs.txt"
        path.write_text(text, encoding="utf-8", errors="replace")
        return path

    # Requests

    def at_place(self, params: Json, _: object, answer: Callable[[Document, int], Json]) -> Json:
        document = self._document(params)
        return answer(document, _offset(document.lines, at(params, "position")))

    def symbols(self, params: Json, _: object) -> Json:
        document = self._document(params)
        found = symbols_of(document.outline, document.lines)
        names = ("textDocument", "documentSymbol", "hierarchicalDocumentSymbolSupport")
        return found if self._client_can(*names) else flat(found, document.uri)

    def execute(self, params: Json, number: Number) -> Held:
        if wanted(params, str, "command") != SHOW_RUNS:
            raise Refused(frames.INVALID_PARAMS, f"the only command is `{SHOW_RUNS}`")
        uri = next(iter(wanted(params, list, "arguments")), None)
        document = self._document({"textDocument": {"uri": uri}})
        file = document.file if document.is_in_file() else "/dev/stdin"
        self._start(document, "runs", self._explored, None, *self._tool("explore", file))
        return self._hold(document, Held(number, "runs", None))

    def cancel(self, params: Json, _: object) -> None:
        number = at(params, "id")
        for document in self.documents.values():
            for held in [it for it in document.held if it.number == number]:
                document.held.remove(held)
                self.client.refuse(held.number, Refused(frames.CANCELLED, "the request was cancelled"))
                if held.wants == "runs" and "runs" in document.jobs:
                    document.jobs.pop("runs").cancel()
        self.cancelled.discard(number)

    def shut_down(self, *_: object) -> None:
        self.is_shut_down = True

    # Requests that wait

    def now_or_later(self, params: Json, number: Number, wants: str) -> Any:
        document = self._document(params)
        if document.has_ready(wants):
            return document.result(wants)
        return self._hold(document, Held(number, wants, time.monotonic() + _HOLD_SECONDS))

    def _hold(self, document: Document, held: Held) -> Held:
        document.held.append(held)
        return held

    def _answer_held(self, document: Document, held: Held) -> None:
        document.held.remove(held)
        is_early = held.wants == "lenses" and not document.has_ready("lenses")
        document.has_early_lens = document.has_early_lens or is_early
        self.client.answer(held.number, document.result(held.wants))

    def _answer_ready(self, document: Document) -> None:
        for held in [it for it in document.held if document.has_ready(it.wants)]:
            self._answer_held(document, held)


def _nothing(*_: object) -> None:
    """A notification that changes nothing here."""


_METHODS: dict[str, Callable[..., Any]] = {
    "initialized": _nothing,
    "$/setTrace": _nothing,
    "$/cancelRequest": Server.cancel,
    "textDocument/didOpen": Server.did_open,
    "textDocument/didChange": Server.did_change,
    "textDocument/didSave": Server.did_save,
    "textDocument/didClose": Server.did_close,
    "textDocument/hover": partial(Server.at_place, answer=hover_of),
    "textDocument/definition": partial(Server.at_place, answer=definition_of),
    "textDocument/documentSymbol": Server.symbols,
    "textDocument/codeLens": partial(Server.now_or_later, wants="lenses"),
    "textDocument/inlayHint": partial(Server.now_or_later, wants="hints"),
    "workspace/executeCommand": Server.execute,
    "shutdown": Server.shut_down,
}


def _listed(job: Job) -> list[Json]:
    """The list that a worker has printed; empty if it was killed."""
    return list(json.loads(job.printed or "[]"))


def at(value: Json, *names: str) -> Json:
    """The value at the end of this path of names; None if there is none."""
    for name in names:
        value = value.get(name) if isinstance(value, dict) else None
    return value


def wanted(value: Json, kind: type, *names: str) -> Any:
    found = at(value, *names)
    if not isinstance(found, kind):
        raise Refused(frames.INVALID_PARAMS, f"`{'.'.join(names)}` is missing, or has the wrong type")
    return found


def _offset(lines: Lines, position: Json) -> int:
    line, character = wanted(position, int, "line"), wanted(position, int, "character")
    if line < 0 or character < 0:
        raise Refused(frames.INVALID_PARAMS, "a position is negative")
    return lines.offset(line, character)


def _hint(lines: Lines, line: int, label: str) -> Json:
    """A label after the last character of a line."""
    end = lines.whole_line(line)["end"]
    return {"position": end, "label": label, "paddingLeft": True}
