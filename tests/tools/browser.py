"""Controls a headless Chromium through a pipe (the DevTools protocol), without a library.

Keys and clicks are the same as a user's. Messages on the console are kept.
"""
from __future__ import annotations

import base64
import json
import os
import select
import shutil
import subprocess
import tempfile
import time
from typing import Any, Optional
from urllib.parse import quote

NAMES = ("chromium", "chromium-browser", "google-chrome")
SECONDS = 120  # for any one answer, on a machine that has other work


def program() -> Optional[str]:
    """The browser's path, or nothing."""
    return next((path for path in (shutil.which(name) for name in NAMES) if path), None)


class Browser:
    """One page in a window of its own."""

    def __init__(self, width: int = 1280, height: int = 800) -> None:
        self.folder = tempfile.TemporaryDirectory(ignore_cleanup_errors=True)
        self.number = 0
        self.console: list[str] = []
        self.requests: list[str] = []
        theirs_in, self.to = os.pipe()
        self.back, theirs_out = os.pipe()
        words = ["--headless=new", "--no-sandbox", "--disable-gpu", "--no-first-run", "--remote-debugging-pipe"]
        words += [f"--user-data-dir={self.folder.name}", f"--window-size={width},{height}", "about:blank"]
        quiet = subprocess.DEVNULL

        def take_pipes() -> None:
            # The browser reads from file 3 and writes to file 4.
            kept_in, kept_out = os.dup(theirs_in), os.dup(theirs_out)
            os.dup2(kept_in, 3)
            os.dup2(kept_out, 4)

        self.process = subprocess.Popen(
            [program() or NAMES[0], *words], stdin=quiet, stdout=quiet, stderr=quiet, close_fds=False, preexec_fn=take_pipes
        )
        os.close(theirs_in)
        os.close(theirs_out)
        self.rest = b""
        self.session: Optional[str] = None
        target = self.ask("Target.createTarget", url="about:blank")["targetId"]
        self.session = self.ask("Target.attachToTarget", targetId=target, flatten=True)["sessionId"]
        for domain in ("Page", "Runtime", "Log", "Network"):
            self.ask(f"{domain}.enable")

    def ask(self, method: str, **words: Any) -> Any:
        """Sends a command, and returns its result."""
        self.number += 1
        command = {"id": self.number, "method": method, "params": words}
        if self.session:
            command["sessionId"] = self.session
        os.write(self.to, json.dumps(command).encode() + b"\0")
        while True:
            answer = self.next()
            if answer.get("id") == self.number:
                if "error" in answer:
                    raise RuntimeError(f"{method}: {answer['error']}")
                return answer["result"]
            self.note(answer)

    def next(self) -> dict[str, Any]:
        until = time.monotonic() + SECONDS
        while b"\0" not in self.rest:
            ready, _, _ = select.select([self.back], [], [], max(until - time.monotonic(), 0))
            more = os.read(self.back, 1 << 16) if ready else b""
            if not more:
                raise RuntimeError("the browser says nothing more")
            self.rest += more
        answer, _, self.rest = self.rest.partition(b"\0")
        told: dict[str, Any] = json.loads(answer)
        return told

    def note(self, event: dict[str, Any]) -> None:
        method, told = event.get("method"), event.get("params", {})
        if method in ("Runtime.consoleAPICalled", "Runtime.exceptionThrown", "Log.entryAdded"):
            self.console.append(json.dumps(told)[:500])
        elif method == "Network.requestWillBeSent":
            self.requests.append(told["request"]["url"][:200])

    def open(self, file: str, shows: str = "#view path", place: str = "") -> None:
        """Opens the page anew, at a place of it, and waits until it shows this."""
        self.ask("Page.navigate", url="about:blank")
        self.ask("Page.navigate", url=f"file://{quote(os.path.abspath(file))}{place}")
        self.wait(f"document.readyState === 'complete' && document.querySelector({json.dumps(shows)}) !== null")

    def look(self, width: int, height: int, scheme: str = "light") -> None:
        """Sets the size of the visible part, and whether the user prefers a dark page."""
        self.ask("Emulation.setDeviceMetricsOverride", width=width, height=height, deviceScaleFactor=1, mobile=False)
        self.ask("Emulation.setEmulatedMedia", features=[{"name": "prefers-color-scheme", "value": scheme}])
        self.drawn()

    def picture(self, file: str) -> None:
        """Writes the visible part as PNG."""
        with open(file, "wb") as opened:
            opened.write(base64.b64decode(self.ask("Page.captureScreenshot", format="png")["data"]))

    def value(self, code: str) -> Any:
        """The value of the code, evaluated in the page."""
        result = self.ask("Runtime.evaluate", expression=code, returnByValue=True, awaitPromise=True)
        if "exceptionDetails" in result:
            raise RuntimeError(f"{code}: {result['exceptionDetails']}")
        return result["result"].get("value")

    def wait(self, code: str) -> None:
        until = time.monotonic() + SECONDS
        while not self.value(code):
            if time.monotonic() > until:
                raise RuntimeError(f"it never came: {code}")
            time.sleep(0.02)

    def drawn(self) -> None:
        """Waits until everything requested is drawn."""
        self.value("new Promise((done) => requestAnimationFrame(() => requestAnimationFrame(done)))")

    def click(self, x: float, y: float) -> None:
        for kind in ("mousePressed", "mouseReleased"):
            self.ask("Input.dispatchMouseEvent", type=kind, x=x, y=y, button="left", clickCount=1)
        self.drawn()

    def click_on(self, selector: str) -> None:
        box = self.value(f"(({{x, y, width, height}}) => [x + width / 2, y + height / 2])"
                         f"(document.querySelector({json.dumps(selector)}).getBoundingClientRect())")
        self.click(*box)

    def key(self, key: str) -> None:
        text = {"text": key} if len(key) == 1 else {"text": "\r"} if key == "Enter" else {}
        self.ask("Input.dispatchKeyEvent", type="keyDown", key=key, **text)
        self.ask("Input.dispatchKeyEvent", type="keyUp", key=key)
        self.drawn()

    def write(self, text: str) -> None:
        self.ask("Input.insertText", text=text)
        self.drawn()

    def end(self) -> None:
        try:
            self.session = None
            self.ask("Browser.close")
            self.process.wait(30)
        except (RuntimeError, OSError, subprocess.TimeoutExpired):
            self.process.kill()
            self.process.wait()
        self.folder.cleanup()
