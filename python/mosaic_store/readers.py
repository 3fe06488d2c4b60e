"""Readers of one store, side by side, beside whoever edits it."""

from __future__ import annotations

import contextlib
import os
import queue
from collections.abc import Iterable, Iterator
from types import TracebackType
from typing import TypeVar

from .errors import Refusal
from .questions import Question
from .session import Session, read_store
from .stores import PathLike

Answer = TypeVar("Answer")


class Readers:
    """A pool of readers of a store, each a program of its own. Any number of threads may ask: none waits for another's question
    while a reader is idle.

        with Readers("valley") as readers:
            print(readers.ask(questions.Fill(45000, -125100)))
    """

    def __init__(
        self, path: PathLike, number: int | None = None, program: PathLike | None = None, timeout: float | None = None
    ) -> None:
        """`number` readers, as many as there are processors where it isn't given; the rest is as for `read_store`."""
        self._idle: queue.LifoQueue[Session] = queue.LifoQueue()
        self._ending = contextlib.ExitStack()
        with contextlib.ExitStack() as opened:
            for _ in range(number or os.cpu_count() or 1):
                self._idle.put(opened.enter_context(read_store(path, program, timeout, restart=True)))
            self._ending = opened.pop_all()

    @contextlib.contextmanager
    def reader(self) -> Iterator[Session]:
        """A reader that no other thread uses meanwhile; the one that answered last, which has most in its memory."""
        reader = self._idle.get()
        try:
            yield reader
        finally:
            self._idle.put(reader)

    def ask(self, question: Question[Answer]) -> Answer:
        """As `Session.ask`."""
        with self.reader() as reader:
            return reader.ask(question)

    def ask_many(self, asked: Iterable[Question[Answer]]) -> list[Answer | Refusal]:
        """As `Session.ask_many`, by one reader."""
        with self.reader() as reader:
            return reader.ask_many(asked)

    def close(self) -> None:
        """Ends the readers."""
        self._ending.close()

    def __enter__(self) -> Readers:
        return self

    def __exit__(
        self, kind: type[BaseException] | None, error: BaseException | None, trace: TracebackType | None
    ) -> None:
        self.close()
