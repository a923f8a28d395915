"""Ends a tool that is interrupted while its modules are imported as later on: with status 130, and without a traceback.

Each tool calls `let_interrupts_end` before it imports anything else, and `command.run` calls `let_interrupts_raise`.
"""
from __future__ import annotations

import os
import signal

INTERRUPTED = 130


def let_interrupts_end() -> None:
    """Lets an interrupt end the process at once, unless the tool ignores interrupts. KeyboardInterrupt could be lost,
    because Python only prints an exception in some calls of its import system."""
    if signal.getsignal(signal.SIGINT) is signal.default_int_handler:
        signal.signal(signal.SIGINT, _end)


def let_interrupts_raise() -> None:
    """Lets an interrupt raise KeyboardInterrupt again, so that the tool ends what it has started."""
    if signal.getsignal(signal.SIGINT) is _end:
        signal.signal(signal.SIGINT, signal.default_int_handler)


def _end(*_: object) -> None:
    os._exit(INTERRUPTED)
