"""Turns: what is done for one tile of a region, by whichever process, and who does them.

A turn is told all that it needs, and what it finds for every sample it writes to a file of the tile, whole or not at all. So
one that is lost with its process is done again by another, and nothing else is lost.
"""

from __future__ import annotations

import atexit
import collections
import contextlib
import functools
import multiprocessing
import os
import pathlib
import threading
from collections.abc import Callable, Iterator, Sequence
from concurrent.futures import ProcessPoolExecutor
from concurrent.futures.process import BrokenProcessPool
from dataclasses import dataclass, field
from typing import TYPE_CHECKING, Any, TypeVar

import numpy as np

from .errors import SessionDied
from .joining import Edge, Exits, Flats, Labelling, directed, exits_of, labelling_of, labels_of, raised, reaching, receivers, runs_of, summed
from .lattice import Corner
from .samples import array_of
from .session import Session, memory_table
from .stores import PathLike

if TYPE_CHECKING:
    from .samples import Array

Turn_ = TypeVar("Turn_")
Result = TypeVar("Result")

_ALONE = "N00E000"
"""The name of a tile in a table that has no other."""

_MOST_DEATHS = 8
"""How many processes may end one after another without a turn that is done."""

_WORTH_PROCESSES = 1 << 22
"""How many samples the tiles of some turns have where other processes are begun for them."""


_TOGETHER, _MOST_TOGETHER = 1 << 18, 16
"""How many samples tiles have whose turns go together, and how many tiles at most."""

# ---- the files of a tile ----

KINDS = {"labels": 4, "directions": 1}
"""Its files, and how many bytes each has for a sample."""


@dataclass(frozen=True)
class Place:
    """The file with the results for each sample of a tile."""

    folder: str
    corner: Corner
    side: int

    def labels(self) -> tuple[Array, Array]:
        """Its levels and labels, flooded by itself."""
        planes = np.fromfile(self._path("labels"), np.uint16, 2 * self.side**2).reshape(2, self.side, self.side)
        return planes[0].view(np.int16), planes[1]

    def codes(self) -> Array:
        """The direction codes of its samples in the region."""
        return np.fromfile(self._path("directions"), np.uint8, self.side**2).reshape(self.side, self.side)

    def label_at(self, sample: int) -> tuple[int, int]:
        """The level and the label of one sample."""
        level, label = (self._one("labels", np.uint16, at) for at in (sample, sample + self.side**2))
        return int(level.view(np.int16)[0]), int(label[0])

    def code_at(self, sample: int) -> int:
        """The direction code of one sample."""
        return int(self._one("directions", np.uint8, sample)[0])

    def write(self, kind: str, digest: bytes, *planes: Array) -> None:
        """Replaces stored planes, whole or not at all, followed by a digest of their input."""
        made = self._path(kind).with_suffix(f".{os.getpid()}-{threading.get_ident()}")
        with open(made, "wb") as file:
            for plane in planes:
                file.write(plane.tobytes())
            file.write(digest)
        os.replace(made, self._path(kind))

    def sync(self) -> None:
        """Has its files reach the drive."""
        for kind in KINDS:
            with open(self._path(kind), "rb") as file:
                os.fsync(file.fileno())

    def digest(self, kind: str) -> bytes | None:
        """The digest after planes; None if there are none."""
        try:
            with open(self._path(kind), "rb") as file:
                file.seek(KINDS[kind] * self.side**2)
                return file.read()
        except FileNotFoundError:
            return None

    def remove(self) -> None:
        """Takes its files away."""
        for kind in KINDS:
            self._path(kind).unlink(missing_ok=True)

    def _path(self, kind: str) -> pathlib.Path:
        return pathlib.Path(self.folder) / f"{self.corner.name}.{kind}"

    def _one(self, name: str, kind: Any, at: int) -> Array:
        return np.fromfile(self._path(name), kind, 1, offset=at * np.dtype(kind).itemsize)


# ---- turns ----


@dataclass(frozen=True)
class Label:
    """Floods a tile by itself, by the program."""

    place: Place
    program: PathLike | None
    samples: bytes = field(repr=False)
    """Its heights in the region as HGT bytes."""
    sinks: tuple[int, ...]
    """The numbers of the samples that are declared sinks."""
    digest: bytes

    def __call__(self) -> Labelling:
        levels, codes = _flooded(self)
        labels = labels_of(levels, codes)
        self.place.write("labels", self.digest, levels, labels)
        return labelling_of(array_of(self.samples), levels, labels, np.array(self.sinks, np.int64))


@dataclass(frozen=True)
class Direct:
    """Finds the directions of a tile's samples; its flat distances near its edge, and its flats that come to its rim."""

    place: Place
    edge: Edge
    told: Array
    beyond: Array
    digest: bytes

    def __call__(self) -> tuple[Array, Flats]:
        levels, labels = self.place.labels()
        codes, near, flats = directed(raised(levels, labels, self.edge.rim), self.edge, self.told, self.beyond)
        self.place.write("directions", self.digest, codes)
        return near, flats


@dataclass(frozen=True)
class Leave:
    """Finds where water flows from a tile into others."""

    place: Place
    own: Array

    def __call__(self) -> Exits:
        return exits_of(self.place.codes(), self.own, self.place.corner)


@dataclass(frozen=True)
class Gather:
    """Finds the points of a tile whose paths in it come to some: as runs, and which samples they are."""

    place: Place
    own: Array
    targets: Array

    def __call__(self) -> Array:
        mask = self.mask()
        return runs_of(mask, self.place.corner.window(self.place.side))

    def mask(self) -> Array:
        """Of each sample whether it is one of them."""
        codes = self.place.codes()
        return reaching(receivers(codes, self.own), self.targets).reshape(codes.shape)


@dataclass(frozen=True)
class Count:
    """Counts the points that drain through each of a tile's own samples, uint64; 0 at those of other tiles."""

    place: Place
    own: Array
    entries: Array
    """The numbers of the samples where water comes in."""
    entering: Array
    """How many points each brings."""

    def __call__(self) -> Array:
        codes = self.place.codes()
        values = (self.own & (codes != 255)).ravel().astype(np.int64)
        np.add.at(values, self.entries, self.entering)
        return summed(receivers(codes, self.own), values).astype(np.uint64).reshape(codes.shape)


# ---- the table of a process ----

_local = threading.local()


def _flooded(turn: Label) -> tuple[Array, Array]:
    """The levels and the codes of a tile in a mosaic that has no other."""
    side = turn.place.side
    with contextlib.suppress(SessionDied):
        return _asked(_table(turn.program, side), turn)
    del _local.tables[turn.program, side]  # it ended, perhaps long ago
    return _asked(_table(turn.program, side), turn)


def _asked(table: Session, turn: Label) -> tuple[Array, Array]:
    table.import_tile(_ALONE, turn.samples)
    points = [(turn.place.side - 1 - sink // turn.place.side, sink % turn.place.side) for sink in turn.sinks]
    for point in points:
        table.sink(*point)
    found = table.levels(_ALONE), table.directions(_ALONE)
    for point in points:
        table.unsink(*point)
    table.remove(_ALONE)
    return found


def _table(program: PathLike | None, side: int) -> Session:
    """A table of this thread, for one tile of a side."""
    tables: dict[Any, Session] = _local.__dict__.setdefault("tables", {})
    if (program, side) not in tables:
        tables[program, side] = memory_table(side, 1, program)
        atexit.register(tables[program, side].close)
    return tables[program, side]


# ---- who does them ----


def done(turns: Sequence[Callable[[], Result]]) -> list[Result]:
    """What turns find, one after another."""
    return [turn() for turn in turns]


def _is_done(future: Any) -> bool:
    """Whether some turns were done before their process ended."""
    return future.done() and not future.cancelled() and future.exception() is None


class Workers:
    """Whoever does turns: a Dask client or any executor, else processes of this machine, else this process."""

    def __init__(self, client: Any = None, count: int | None = None) -> None:
        """`client` has `submit`. Without it `count` processes are begun where there is much to do; with 0 none is."""
        self._client, self._count = client, os.cpu_count() or 1 if count is None else count
        self._pool: ProcessPoolExecutor | None = None

    def each(self, names: Sequence[str], turn_of: Callable[[str], Callable[[], Result]], side: int) -> Iterator[tuple[str, Result]]:
        """What the turns of some tiles find, in order. Few wait at a time, as each may have a tile's samples with it.

        Turns of small tiles go together. Where a process ends, what it had is handed to another one.
        """
        if self._client is None and (self._count < 2 or self._pool is None and len(names) * side * side < _WORTH_PROCESSES):
            yield from ((name, turn_of(name)()) for name in names)
            return
        together = max(1, min(_MOST_TOGETHER, _TOGETHER // side**2))
        parts = iter([names[at : at + together] for at in range(0, len(names), together)])
        waiting: collections.deque[tuple[Sequence[str], list[Callable[[], Result]], Any]] = collections.deque()
        deaths = 0
        while True:
            while len(waiting) < 4 * max(2, self._count) and (part := next(parts, None)) is not None:
                turns = [turn_of(name) for name in part]
                waiting.append((part, turns, self._submit(turns)))
            if not waiting:
                return
            part, turns, future = waiting[0]
            try:
                found = future.result()
            except BrokenProcessPool:
                deaths += 1
                if deaths > _MOST_DEATHS:
                    raise SessionDied("processes that flood tiles end again and again: look to the machine's memory") from None
                self.close()
                waiting = collections.deque((part, turns, future if _is_done(future) else self._submit(turns)) for part, turns, future in waiting)
                continue
            deaths = 0
            waiting.popleft()
            yield from zip(part, found)

    def _submit(self, turns: list[Callable[[], Any]]) -> Any:
        if self._client is None:
            if self._pool is None:
                self._pool = ProcessPoolExecutor(self._count, multiprocessing.get_context("spawn"))
            try:
                return self._pool.submit(done, turns)
            except BrokenProcessPool:  # another turn's process ended meanwhile
                self.close()
                return self._submit(turns)
        submit = functools.partial(self._client.submit, pure=False) if hasattr(self._client, "gather") else self._client.submit
        return submit(done, turns)

    def close(self) -> None:
        """Ends the processes that it began."""
        if self._pool is not None:
            self._pool.shutdown(wait=True, cancel_futures=True)
            self._pool = None
