"""A copy of a store in memory, on which trials are made."""

from __future__ import annotations

import contextlib
import time
from collections.abc import Callable
from typing import Any

from ..errors import MosaicError, Outside, SessionDied, Void
from ..questions import Command
from ..session import Session

SECONDS_AT_ONCE = 0.3
"""How long tiles are copied within one request."""


class Copy:
    """A copy that is made tile after tile, then flooded tile after tile, so that it can be dropped in between."""

    def __init__(self, store: Session, begin: Callable[[], Session]) -> None:
        """`begin` makes an empty mosaic in memory of the same side, with room for all tiles."""
        self._store, self._begin = store, begin
        self.session: Session | None = None
        self._left: list[str] = []
        """The tiles that it doesn't have yet."""
        self._is_flooded = False

    @property
    def is_whole(self) -> bool:
        """Whether it has all that the store has, and its levels are found."""
        return self.session is not None and not self._left and self._is_flooded

    def go_on(self) -> None:
        """Copies or floods tiles for a moment. A copy that fails midway is dropped."""
        until = time.monotonic() + SECONDS_AT_ONCE
        if self.session is None:
            self.session, self._left, self._is_flooded = self._begin(), self._store.tiles(), False
        try:
            while not self.is_whole:
                self._next(self.session)
                if time.monotonic() >= until:
                    return
        except BaseException:
            self.drop()
            raise

    def _next(self, session: Session) -> None:
        if not self._left:
            self._is_flooded = session.step() is None
            return
        session.import_tile(self._left[0], self._store.export(self._left[0]))
        del self._left[0]
        if not self._left:
            for y, x in set(self._store.sinks()) - set(session.sinks()):
                with contextlib.suppress(Outside, Void):  # where there is no ground a sink counts for nothing
                    session.sink(y, x)

    def follow(self, command: Command) -> None:
        """Makes a command of the store in the copy, too; a copy that can't is made again when it is needed."""
        try:
            if self.session is not None:
                self.session.ask(command)
        except MosaicError:
            self.drop()

    def living(self) -> Session | None:
        """The copy's session, if it is whole and its program runs."""
        if not self.is_whole or self.session is None:
            return None
        try:
            self.session.count()
        except SessionDied:
            self.drop()
        return self.session

    def drop(self) -> None:
        """Gives it up, with the memory that it takes."""
        if self.session is not None:
            self.session.close()
        self.session, self._left, self._is_flooded = None, [], False

    def described(self, total: int) -> dict[str, Any]:
        """How many of the store's tiles it has, and whether trials can be made on it."""
        done = 0 if self.session is None else total - len(self._left)
        return {"done": done, "total": total, "bytes": total * 2 * self._store.side**2, "whole": self.is_whole}
