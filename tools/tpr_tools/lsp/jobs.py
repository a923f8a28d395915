"""Programs in the background. A change of a text ends the programs that were given the text."""
from __future__ import annotations

import subprocess
import threading
from typing import Callable, Optional, Sequence

from ..program import kill_session


class Job:
    """A program that reads a text from its standard input. When it ends, another thread passes two things to `post`:
    its output (nothing if it was killed, couldn't be started, or took too long), and how it ended."""

    def __init__(self, command: Sequence[str], data: bytes, seconds: Optional[float], post: Callable[[Job], None]):
        self.command, self.printed, self.why = command, "", ""
        self._lock = threading.Lock()
        self._process: Optional[subprocess.Popen[bytes]] = None
        self._is_cancelled = False
        threading.Thread(target=self._work, args=(data, seconds, post), daemon=True).start()

    def cancel(self) -> None:
        """Kills the program and everything that it has started."""
        with self._lock:
            self._is_cancelled = True
            if self._process is not None and self._process.returncode is None:
                kill_session(self._process)

    def _work(self, data: bytes, seconds: Optional[float], post: Callable[[Job], None]) -> None:
        try:
            self._run(data, seconds)
        except subprocess.TimeoutExpired:
            self.cancel()
            self.why = f"{self.command[0]} took more than {seconds} seconds"
        except (OSError, ValueError) as error:
            self.why = f"{self.command[0]} can't be run: {getattr(error, 'strerror', None) or error}"
        post(self)

    def _run(self, data: bytes, seconds: Optional[float]) -> None:
        with self._lock:
            if self._is_cancelled:
                return
            pipe, nothing = subprocess.PIPE, subprocess.DEVNULL
            process = subprocess.Popen(self.command, stdin=pipe, stdout=pipe, stderr=nothing, start_new_session=True)
            self._process = process
        printed, _ = process.communicate(data, seconds)
        self.why = f"it ended with status {process.returncode}"
        if process.returncode >= 0:
            self.printed = printed.decode("utf-8", "replace")
