"""Tiles into a store: from files, or from another store. Each has an outcome with its cause and cure."""

from __future__ import annotations

import collections
import enum
import hashlib
from collections.abc import Callable, Iterable, Iterator
from dataclasses import dataclass

from .archives import Source, Trouble, Unreadable, files_below, sources_of
from .errors import Device, Failed, Full, MosaicError, Refusal
from .lattice import GREATEST_SIDE, MOST_TILES, VOID_SAMPLE, Corner, side_of
from .samples import voids_in
from .session import Session
from .warping import ENDINGS as RASTERS
from .warping import RESAMPLING, Warped, tiles_of


@dataclass(frozen=True)
class Shape:
    """What a store is made for."""

    side: int
    """The side of each tile, in samples."""
    capacity: int
    """The greatest number of tiles."""


def room_for(tiles: int) -> int:
    """The capacity of a store for some tiles and as many more: its file takes as much of the drive as its tiles do."""
    return min(MOST_TILES, max(4, 2 * tiles))


class Kind(enum.Enum):
    """What became of a file."""

    IMPORTED = "imported"
    THERE = "there already"
    PASSED_BY = "passed by"
    FAILED = "failed"


@dataclass(frozen=True)
class Outcome:
    """What became of a file or a tile."""

    shown: str
    """Its path or its name."""
    kind: Kind
    cause: str = ""
    cure: str = ""
    filled: int = 0
    """How many voids of the tile got a height."""
    voids: int = 0
    """How many samples of a tile that was imported are voids."""

    def __str__(self) -> str:
        return ": ".join(part for part in (self.shown, self.kind.value, self.cause, self.cure) if part)


@dataclass(frozen=True)
class Found:
    """The files in some folders."""

    files: int
    """How many files there are."""
    sources: list[Source]
    troubles: list[Trouble]

    @property
    def corners(self) -> set[Corner]:
        """The corners that the names of its files name."""
        return {source.corner for source in self.sources if source.corner is not None}

    def shape(self, side: int | None = None, capacity: int | None = None) -> Shape:
        """The side that most of them have, and room for twice as many tiles: for a store to be made of them."""
        sides = collections.Counter(filter(None, (source.side for source in self._named())))
        if side is None and not sides:
            lengths = (source for source in self._named() if source.length is None)
            sides.update(filter(None, (side_of(_length(source)) for source in lengths)))
        if side is None and not sides:
            raise MosaicError("no file is a tile by its name and length (2 * side * side bytes): nothing to make a store of")
        if capacity is None and len(self.corners) > MOST_TILES:
            raise MosaicError(f"{len(self.corners)} tiles, and a store takes at most {MOST_TILES}: name a new folder, and they go into a region, or give --capacity")
        if side is None:
            side = max(sides, key=lambda at: (sides[at], at))
        return Shape(side, room_for(len(self.corners)) if capacity is None else capacity)

    def _named(self) -> Iterator[Source]:
        return (source for source in self.sources if source.corner is not None)


def find(paths: Iterable[str], resampling: str = RESAMPLING[0]) -> Found:
    """The files in folders and the files named. MosaicError if a path leads nowhere."""
    files = files_below(paths)
    rasters = [path for path in files if path.name.lower().endswith(RASTERS)]
    parts = [part for path in files if path not in rasters for part in sources_of(path)]
    parts += tiles_of(rasters, resampling)
    # If several files are of one tile, the one with the tile's plain name goes before its copies.
    sources = sorted((part for part in parts if isinstance(part, Source)), key=lambda source: not source.is_plain)
    return Found(len(files), sources, [part for part in parts if isinstance(part, Trouble)])


Change = Callable[[bytes], "tuple[bytes, int]"]
"""What is made of a tile's bytes, and how many voids got a height by it."""


def unchanged(data: bytes) -> tuple[bytes, int]:
    """A tile as it is."""
    return data, 0


def load(session: Session, found: Found, change: Change = unchanged) -> Iterator[Outcome]:
    """Imports what was found, a tile after another; the outcome of each. Tiles that are there are left as they are.

    What stops all that follows, as a drive that fails, is raised.
    """
    for trouble in found.troubles:
        kind = Kind.FAILED if trouble.cure else Kind.PASSED_BY
        yield Outcome(trouble.shown, kind, trouble.cause, trouble.cure)
    loader = _Loader(session, set(session.tiles()), collections.Counter(source.corner for source in found.sources), change)
    for source in found.sources:
        yield loader.load(source)


def copy(session: Session, other: Session, change: Change = unchanged) -> Iterator[Outcome]:
    """Imports every tile of another store, and declares its sinks; the outcome of each."""
    if session.side != other.side:
        raise MosaicError(f"sides {session.side} and {other.side}: tiles move between stores of one side")
    present = set(session.tiles())
    for name in other.tiles():
        data, filled = change(other.export(name))
        if name not in present:
            session.import_tile(name, data)
            yield Outcome(name, Kind.IMPORTED, name, filled=filled, voids=voids_in(data))
        elif session.export(name) == data:
            yield Outcome(name, Kind.THERE)
        else:
            yield Outcome(name, Kind.FAILED, "the tile is there with other samples", "remove one of them first")
    declared = set(session.sinks())
    for sink in other.sinks():
        if sink not in declared:
            yield _declared(session, sink.y, sink.x)


def _declared(session: Session, y: int, x: int) -> Outcome:
    try:
        session.sink(y, x)
    except (Device, Failed):
        raise
    except Refusal as refusal:
        return Outcome(f"sink {y} {x}", Kind.FAILED, f"{refusal.number} {refusal.word}: {refusal.cause}", refusal.cure)
    return Outcome(f"sink {y} {x}", Kind.IMPORTED)


class _Loader:
    """Imports one file after another, and knows which tiles several files hold."""

    def __init__(self, session: Session, present: set[str], files_of: collections.Counter[Corner | None], change: Change) -> None:
        self._session, self._present, self._files_of, self._change = session, present, files_of, change
        self._first: dict[Corner, tuple[Source, bytes]] = {}
        """Of each tile the first file that was read, and a digest of its bytes."""

    def load(self, source: Source) -> Outcome:
        """Imports the file's tile; its outcome."""
        corner = source.corner
        if corner is None:
            return _failed(source, "its name is no tile's", "rename it after its south-west corner, as N37W105.hgt")
        is_there = corner.name in self._present
        if is_there and self._files_of[corner] == 1:
            return Outcome(source.shown, Kind.THERE, corner.name)
        wanted = 2 * self._session.side**2
        if source.length not in (None, wanted):
            return _failed(source, *_misfit(source.length or 0, self._session.side))
        try:
            data = source.read(wanted)
        except Unreadable as fault:
            return _failed(source, str(fault).removeprefix(f"{source.shown}: "), "fetch it again")
        if len(data) != wanted:
            return _failed(source, *_misfit(len(data), self._session.side))
        return self._again(source, corner, data) or self._imported(source, corner, data, is_there)

    def _again(self, source: Source, corner: Corner, data: bytes) -> Outcome | None:
        """What becomes of a file whose tile an earlier one had, also in a run before this one; None of the first."""
        digest = hashlib.sha256(data).digest()
        first, known = self._first.setdefault(corner, (source, digest))
        if first is source:
            return None
        if digest == known:
            return Outcome(source.shown, Kind.THERE, f"the same as {first.shown}")
        return _failed(source, f"the same tile as {first.shown}, with other samples", "keep the one that is right")

    def _imported(self, source: Source, corner: Corner, data: bytes, is_there: bool) -> Outcome:
        if is_there:
            return Outcome(source.shown, Kind.THERE, corner.name)
        is_void = data == VOID_SAMPLE * (len(data) // 2)
        if is_void and isinstance(source, Warped):
            return Outcome(source.shown, Kind.PASSED_BY, f"{corner.name} would be void throughout")
        changed, filled = self._change(data)
        try:
            self._session.import_tile(corner.name, changed)
        except Full as full:
            return _failed(source, full.cause, full.cure)
        if is_void:
            return Outcome(source.shown, Kind.IMPORTED, f"{corner.name} is void throughout", "water leaves the mosaic there", voids=len(data) // 2)
        return Outcome(source.shown, Kind.IMPORTED, corner.name, filled=filled, voids=voids_in(changed))


def _failed(source: Source, cause: str, cure: str) -> Outcome:
    return Outcome(source.shown, Kind.FAILED, cause, cure)


def _misfit(length: int, side: int) -> tuple[str, str]:
    """Why a tile of a length doesn't go into a store of a side, and what to do."""
    other = side_of(length)
    longer = "or more " if length > 2 * side**2 else ""
    wanted = f"the store's tiles have {side} x {side} samples, {2 * side**2} bytes"
    if other is None:
        cause = "of another kind" if longer else "cut short"
        return f"{length} {longer}bytes are no tile; {wanted}", f"fetch it again: it may be {cause}"
    return f"a tile of {other} x {other} samples; {wanted}", f"load it to a store of side {other}, or resample it"


def _length(source: Source) -> int:
    try:
        return len(source.read(2 * GREATEST_SIDE**2))
    except Unreadable:
        return 0
