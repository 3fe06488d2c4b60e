"""Signals that end a program, deferred while a trial is taken back.

A signal's handler runs between any two steps of the main thread, and what it raises breaks off whatever is done there. So
within some functions it only waits, and is raised again once they have returned.
"""

from __future__ import annotations

import signal
import threading
from collections.abc import Callable
from types import CodeType, FrameType
from typing import Any

ENDING = (signal.SIGINT, signal.SIGTERM, signal.SIGHUP)
"""Signals that end a program."""


class DeferredSignals:
    """From `start` to `end` a signal that comes inside some functions waits, wherever it comes where none is named.

    Elsewhere it ends the program as before. One whose action is the system's, which ends a program at once, is an exception
    meanwhile, and ends the program at `end`.
    Only the main thread can set what signals do, and only it meets their exceptions: in another one this does nothing.
    """

    def __init__(self, *functions: Callable[..., Any]) -> None:
        self._deferring: frozenset[CodeType] = frozenset(function.__code__ for function in functions)
        self._before: dict[signal.Signals, Any] = {}
        self._waiting: list[int] = []

    def start(self) -> None:
        """Starts to defer signals. It has to be called within one of the functions, if some are named."""
        if threading.current_thread() is not threading.main_thread():
            return
        for number in ENDING:
            before = signal.getsignal(number)
            if before not in (None, signal.SIG_IGN):
                self._before[number] = before
                signal.signal(number, self._meet)

    def end(self) -> None:
        """Gives signals their actions back, and raises those that waited. To be called last."""
        for number, before in self._before.items():
            if signal.getsignal(number) == self._meet:
                signal.signal(number, before)
        for waiting in self._waiting:
            signal.raise_signal(waiting)

    def _meet(self, number: int, frame: FrameType | None) -> None:
        before = self._before[signal.Signals(number)]
        if self._is_within(frame):
            self._waiting.append(number)
        elif callable(before):
            before(number, frame)
        else:
            self._waiting.append(number)
            raise SystemExit(128 + number)

    def _is_within(self, frame: FrameType | None) -> bool:
        if not self._deferring:
            return True
        while frame is not None:
            if frame.f_code in self._deferring:
                return True
            frame = frame.f_back
        return False
