"""Trials: edits that are taken back exactly.

Before an edit reaches a tile, its own HGT bytes are exported. Where burns and walls alone were made, and all tiles that hold a
changed point had one height for it, a burn or a wall gives it back, which costs no more than the edit did. Else whole tiles
are put back by remove and import, which gives each its very samples, also where tiles disagree on a seam or a void was
patched.
"""

from __future__ import annotations

import itertools
import math
from collections import defaultdict
from collections.abc import Callable, Iterator, Mapping
from types import TracebackType
from typing import TYPE_CHECKING

from .errors import BadArgument, Failed, SessionDied
from .lattice import GREATEST_HEIGHT, MOST_POINTS, VOID, Corner, Point, corner_of, corners_of
from .lines import commands
from .questions import Burn, Command, Elevation, Import, Patch, Remove, Sinks, Unsink, Wall
from .signals import DeferredSignals

if TYPE_CHECKING:
    from .session import Session

Tiles = Mapping[str, "bytes | None"]
"""Tiles by their names: HGT bytes, or None of one that isn't there."""

_MOST_BY_POINTS = 64 * MOST_POINTS
"""The most points that are given their heights back by edits: beyond them whole tiles cost less."""


class Trial:
    """Edits of a session that are kept or taken back together. Made by `Session.trial` or `Session.begin_trial`."""

    def __init__(self, session: Session, sinks: list[Point], known: Tiles, end: Callable[[], None]) -> None:
        """`known` are some tiles as they are now."""
        self._session = session
        self._sinks = sinks
        self._known = known
        self._before: dict[str, bytes | None] = {}
        self._points: set[Point] | None = set()
        """What its burns and walls name; None where it has other edits of tiles, too."""
        self._end = end
        self.is_open = True
        """Whether it was neither kept nor taken back."""

    @property
    def touched(self) -> list[str]:
        """The names of the tiles that its edits may have reached, in the order of tiles."""
        return sorted(self._before, key=lambda name: corner_of(name) or Corner(0, 0))

    def keep(self) -> None:
        """Keeps the edits, and ends the trial."""
        self._close()

    def take_back(self) -> None:
        """Gives every touched tile its samples and the store its sinks as they were, and ends the trial.

        A session that died or is failed is begun anew for it. May be called again where it failed midway: only what differs is
        put back. A signal that ends the program waits until it is done.
        """
        deferred = DeferredSignals(Trial.take_back)
        try:
            deferred.start()
            self._take_back()
        finally:
            deferred.end()

    def _take_back(self) -> None:
        session = self._session
        with session._lock:
            if not self.is_open:
                raise BadArgument("this trial has ended")
            session._trial = None  # what takes edits back is no edit of the trial
            try:
                if not _is_well(session):
                    session.reopen()
                for command in self.inverse():
                    session.ask(command)
                self._restore_sinks()
            except BaseException:
                session._trial = self
                raise
            session._tiles_known = session.acknowledged, self._before
            self._close()

    def prepare(self, command: Command) -> None:
        """Exports what a command is about to touch. A command that couldn't be taken back is a BadArgument."""
        untouched = [name for name in dict.fromkeys(self._reached(command)) if name not in self._before]
        present = set() if all(name in self._known for name in untouched) else set(self._session.tiles())
        for name in untouched:
            self._before[name] = self._session.export(name) if name in present else self._known.get(name)
        if isinstance(command, (Import, Remove, Patch)):
            self._points = None
        elif isinstance(command, (Burn, Wall)) and self._points is not None:
            self._points.update(Point(*point) for point in command.points)
        if isinstance(command, Unsink) and self._is_lost(Point(command.y, command.x)):
            raise BadArgument(f"the sink {command.y} {command.x} lay on no ground: it couldn't be declared again")

    def _close(self) -> None:
        self.is_open = False
        self._end()

    def _reached(self, command: Command) -> Iterator[str]:
        """The names of the tiles whose samples a command may change, or that hold a sink that it takes back."""
        if isinstance(command, (Import, Remove)):
            corner = corner_of(command.name)
            if corner is not None:
                yield corner.name
        elif isinstance(command, (Burn, Wall)):
            for point in command.points:
                yield from (corner.name for corner in corners_of(Point(*point), self._session.side))
        elif isinstance(command, Patch):
            yield from self._boxed(command)
        elif isinstance(command, Unsink):
            yield from (corner.name for corner in corners_of(Point(command.y, command.x), self._session.side))

    def _boxed(self, command: Patch) -> Iterator[str]:
        box, side = command.box, self._session.side
        if not (0 <= box.y1 - box.y0 < side and 0 <= box.x1 - box.x0 < side):
            return  # the program refuses it
        ends = itertools.product({box.y0, box.y1}, {box.x0, box.x1})
        yield from (corner.name for end in ends for corner in corners_of(Point(*end), side))

    def _is_lost(self, sink: Point) -> bool:
        """Whether a point was a sink before the trial, and no ground."""
        held = [(corner, self._before[corner.name]) for corner in corners_of(sink, self._session.side)]
        samples = [VOID if data is None else _sample(data, corner, sink) for corner, data in held]
        return sink in self._sinks and all(sample == VOID for sample in samples)

    def inverse(self) -> list[Command]:
        """What gives every touched tile its samples back, as the tiles are now; sinks aside."""
        edits = self._by_points()
        if edits is not None:
            return edits
        self._points = None  # if this ends midway a tile may be missing, which points don't show
        session = self._session
        present = set(session.tiles())
        now = {name: session.export(name) if name in present else None for name in self._before}
        changed = [name for name, data in self._before.items() if now[name] != data]
        commands: list[Command] = [Remove(name) for name in changed if self._before[name] is None]
        for name in changed:  # one after another: wherever this ends, one tile at most is away
            if (data := self._before[name]) is not None:
                commands += [Remove(name)] * (name in present)
                commands.append(Import(name, data))
        return commands

    def _by_points(self) -> list[Command] | None:
        """The burns and walls that restore the points' heights; None if there are none, or too many."""
        if self._points is None or len(self._points) > _MOST_BY_POINTS:
            return None
        samples = {point: held for point in sorted(self._points) if (held := self._samples_before(point))}
        parts: defaultdict[tuple[type[Burn] | type[Wall], int], list[Point]] = defaultdict(list)
        for point, now in zip(samples, self._session.ask_many(Elevation(*point) for point in samples)):
            height, was = now if isinstance(now, int) else VOID, samples[point].pop()
            if samples[point] or height - was > GREATEST_HEIGHT or (height != was and VOID in (height, was)):
                return None
            kind: type[Burn] | type[Wall] = Wall if height < was else Burn
            if height != was:
                parts[kind, was if height < was else height - was].append(point)
        return [kind(amount, tuple(part)) for (kind, amount), points in parts.items() for part in commands(points)]

    def _samples_before(self, point: Point) -> set[int]:
        """The different samples of a point in the tiles that had it before the trial."""
        held = ((corner, self._before.get(corner.name)) for corner in corners_of(point, self._session.side))
        return {_sample(data, corner, point) for corner, data in held if data is not None}

    def _restore_sinks(self) -> None:
        session = self._session
        now, before = set(session.sinks()), set(self._sinks)
        for sink in sorted(now - before):
            session.unsink(*sink)
        for sink in sorted(before - now):
            session.sink(*sink)


class TrialBlock:
    """A trial for a `with`: edits that aren't kept are taken back at its end, however it ends. Made by `Session.trial`."""

    def __init__(self, session: Session) -> None:
        self._session = session
        self._signals = DeferredSignals(TrialBlock.__enter__, TrialBlock.__exit__)
        self._trial: Trial | None = None

    def __enter__(self) -> Trial:
        self._session._lock.acquire()
        try:
            self._signals.start()
            self._trial = self._session.begin_trial()
            return self._trial
        except BaseException:
            self._session._lock.release()
            self._signals.end()
            raise

    def __exit__(self, kind: type[BaseException] | None, error: BaseException | None, trace: TracebackType | None) -> None:
        try:
            if self._trial is not None and self._trial.is_open:
                self._trial.take_back()
        finally:
            self._session._lock.release()
            self._signals.end()


def _is_well(session: Session) -> bool:
    """Whether a session's program lives, and the drive has failed at no call of it."""
    try:
        return not isinstance(session.ask_many([Sinks()])[0], Failed)
    except SessionDied:
        return False


def _sample(data: bytes, corner: Corner, point: Point) -> int:
    """A point's own sample in a tile that has it."""
    side = _side_of(data)
    index = ((corner.latitude + 1) * (side - 1) - point.y) * side + point.x - corner.longitude * (side - 1)
    return int.from_bytes(data[2 * index : 2 * index + 2], "big", signed=True)


def _side_of(data: bytes) -> int:
    return math.isqrt(len(data) // 2)
