"""A region: any number of tiles over stores in a folder, as one mosaic.

    with open_place("region") as region:
        print(region.fill(y, x), region.watershed(y, x).cells)

Each store holds some of the tiles, and an edit goes to every store that holds its points. What was found of each tile, and of
the tiles together, is kept in the folder `joined`, with the stamp of each store that it was found for. What no longer fits
is found anew, before the next question, and nothing else is: the tiles whose heights changed are flooded, stores whose
tiles tell another outline are joined, and tiles get new directions where levels around them changed. See `joining`.
"""

from __future__ import annotations

import contextlib
import hashlib
import json
import os
import pathlib
import shutil
import tempfile
from collections.abc import Callable, Iterable, Iterator, Sequence
from concurrent.futures import ThreadPoolExecutor
from dataclasses import dataclass, field
from typing import TYPE_CHECKING, Any, TypeVar, cast

import numpy as np

from . import questions
from .errors import BadArgument, BadName, MosaicError, NoTile, Outside, Refusal, StoreExists, Void
from .files import replacing, sync_folder
from .joining import (
    OUT,
    UNREACHED,
    AROUND,
    Edge,
    Exits,
    Flats,
    Labelling,
    Links,
    first_height,
    frame_of,
    laid,
    maximal,
    numbers_of,
    point_numbers,
    points_numbered,
    raised,
    reaching,
    shared_rim,
    summed,
)
from .kept import Kept, read_kept, write_kept
from .lattice import VOID, Corner, Direction, Point, Run, corner_of, corners_named, corners_of
from .questions import Command, Question, Watershed
from .region_edits import Edits, finish_edit
from .samples import array_of
from .session import Recovery, Session, open_store
from .stores import FILE, PathLike, Report, format_store
from .turns import Count, Direct, Gather, Label, Leave, Place, Workers

if TYPE_CHECKING:
    from .samples import Array

Answer = TypeVar("Answer")

KEPT = "joined"
"""The folder of what was found, in that of the stores."""

SQUARE = 15
"""How many degrees a store of a region is high and wide, so that it has at most 225 tiles."""

_OPENED_AT_ONCE = 16
_WORTH_KEEPING = 64
"""Of how many tiles something is found where it is kept at once, and not at the end."""

_MOST_COUNTED = 8
"""For how many tiles the counts of all samples are cached."""


@dataclass(eq=False)
class Tile:
    """A tile of a region, with the results computed for it."""

    corner: Corner
    place: Place
    samples: Array | None = None
    """Its own samples near its edge; None where they have to be read."""
    content: bytes = b""
    """A digest of all its own samples."""
    flooded: bytes = b""
    """A digest of what it was flooded by itself for."""
    labelling: Labelling | None = None
    mask: Array | None = None
    """Of each rim point to which neighbours it is adjacent in the region."""
    rim: Array | None = None
    """The levels of its rim points in the region."""
    near: Array | None = None
    """The levels in the region of its samples near its edge."""
    distance: Array | None = None
    """The flat distances of these."""
    flats: Flats | None = None
    """Its flats that come to its rim; None where they aren't known."""
    directed: bytes = b""
    """A digest of what its directions were found for, but for distances."""
    settled: bytes = b""
    """A digest of all that they were found for."""
    exits: Exits | None = None
    beside: list[tuple[tuple[int, int], Tile]] = field(default_factory=list)
    """The present tiles around it, itself among them, in order, each with where it lies."""

    @property
    def name(self) -> str:
        """Its name."""
        return self.corner.name

    def check(self) -> None:
        """Drops the tile's stored results whose files belong to another state."""
        if self.place.digest("labels") != self.flooded:
            self.flooded, self.labelling = b"", None
        if self.place.digest("directions") != self.settled:
            self.directed = b""

    def others(self) -> list[tuple[tuple[int, int], Tile]]:
        """The present tiles around it."""
        return [(where, tile) for where, tile in self.beside if tile is not self]

    def own(self) -> Array:
        """Which of its samples are points that no earlier tile has: bool."""
        side = self.place.side
        own = np.ones((side, side), bool)
        own.ravel()[frame_of(side).rim] = ~shared_rim(side, [where for where, tile in self.others() if tile.corner < self.corner])
        return own

    def sample(self, point: tuple[int, int]) -> int:
        """The number of the sample that a point is."""
        window = self.corner.window(self.place.side)
        return (window.y1 - point[0]) * self.place.side + point[1] - window.x0

    def samples_of(self, numbers: Array) -> Array:
        """The numbers of the samples that points are by their numbers in the region."""
        ys, xs = points_numbered(numbers, self.place.side)
        window = self.corner.window(self.place.side)
        return (window.y1 - ys) * self.place.side + xs - window.x0


@dataclass(eq=False)
class Part:
    """A store of a region."""

    name: str
    session: Session
    names: list[str] = field(default_factory=list)
    """Its tiles, in order."""
    sinks: list[Point] = field(default_factory=list)
    outline: Links | None = None
    shared: Array | None = None
    """The numbers of the points that its tiles share with those of other stores."""
    levels: Array | None = None
    """The levels of these in the region."""
    is_stale: bool = True
    """Whether the rims of its tiles changed since its outline was made."""


class Region(Session):
    """A session with a region: the questions and commands of a store's, answered as one store of all tiles would.

    Its count is the sum of its stores' counts. Only this session may have the stores open. Any number of threads may use it.
    """

    def __init__(
        self, folder: PathLike, program: PathLike | None = None, client: Any = None, workers: int | None = None, wait: float = 0.0
    ) -> None:
        """`client` is a Dask client, or any executor, that does the tiles' turns; without it processes of this machine do.

        MosaicError where the folder is no region; what `open_store` raises of its stores.
        """
        super().__init__((), None, None, False)
        self._folder = pathlib.Path(os.path.abspath(os.fsdecode(folder)))
        self._program, self._wait = program, wait
        self._workers = Workers(client, workers)
        about = read_region(self._folder)
        self._side, self._square = about["side"], about["square"]
        self._frame = frame_of(about["side"])
        self._edits = Edits(self)
        self._begin(about["stores"])

    def _begin(self, stores: list[str]) -> None:
        """Opens all stores. Nothing is known of them before."""
        self._parts: dict[str, Part] = {}
        self._held: dict[str, Tile] = {}
        self._store_of: dict[str, Part] = {}
        self._suspects: set[str] = set()
        """The tiles whose samples, neighbours or sinks may have changed since they were flooded."""
        self._is_arranged = self._is_joined = self._is_refreshing = False
        self._flow: _Flow | None = None
        self._counted: dict[str, Array] = {}
        self._joined_for: dict[str, list[int]] = {}
        """The stamp of each store that it was joined for."""
        self._unkept: set[str] = set()
        """The tiles of which something was found that isn't kept yet."""
        try:
            self._open(stores)
        except BaseException:
            self.close()
            raise

    # ---- the stores ----

    @property
    def folder(self) -> pathlib.Path:
        """The folder of the stores."""
        return self._folder

    @property
    def stores(self) -> dict[str, tuple[str, ...]]:
        """Of each store, by the name of its file, the tiles."""
        return {part.name: tuple(part.names) for part in self._parts.values()}

    @property
    def parts(self) -> dict[str, Part]:
        """Its stores by their names."""
        return self._parts

    @property
    def held(self) -> dict[str, Tile]:
        """Its tiles by their names, in order."""
        return self._held

    @property
    def capacity(self) -> int | None:
        """None: it takes any number of tiles."""
        return None

    @property
    def takes_whole_tiles(self) -> bool:
        """It does."""
        return True

    @property
    def pid(self) -> int | None:
        """None: it has a process for each store."""
        return None

    def part_of(self, name: str) -> Part:
        """The store that has a tile."""
        return self._store_of[name]

    def holders(self, point: tuple[int, int]) -> list[Tile]:
        """The present tiles that hold a point, in order."""
        names = (corner.name for corner in corners_of(Point(*point), self.side))
        return [self._held[name] for name in names if name in self._held]

    def _open(self, names: list[str]) -> None:
        """Opens all stores, finishes an edit that was broken off, and takes what was kept, as far as it fits."""
        with ThreadPoolExecutor(_OPENED_AT_ONCE) as pool:
            opened = [pool.submit(self._opened, name) for name in names]
            for name, session in zip(names, opened):
                with contextlib.suppress(Exception):  # its fault is raised below, once all that were opened are known
                    self._parts[name] = Part(name, session.result())
            for session in opened:
                session.result()
        finish_edit(self)
        for part in self._parts.values():
            part.names, part.sinks = part.session.tiles(), part.session.sinks()
            for name in part.names:
                if name in self._store_of:
                    raise MosaicError(f"{name} stands in {self._store_of[name].name} and in {part.name}: remove it from one of them")
                self._store_of[name] = part
        for corner in sorted(corners_named(self._store_of)):
            self._held[corner.name] = Tile(corner, Place(str(self._folder / KEPT), corner, self.side))
        self._acknowledged = self._summed_counts()
        self._arrange()
        self._take_kept()

    def _opened(self, name: str) -> Session:
        path = self._folder / name
        session = open_store(path, self._program, wait=self._wait, restart=True)
        if session.side != self.side:
            session.close()
            raise MosaicError(f"{path}: its tiles have the side {session.side}, and the region's {self.side}: move it away")
        return session

    def _summed_counts(self) -> int:
        return sum(part.session.count() for part in self._parts.values())

    def _arrange(self) -> None:
        """Finds which tiles are neighbours, and which points stores have in common."""
        for tile in self._held.values():
            tile.beside = self._around(tile.corner)
        for part in self._parts.values():
            shared = self._shared(part)
            if part.shared is None or not np.array_equal(shared, part.shared):
                part.shared, part.levels = shared, None
            part.is_stale = True
        self._is_arranged = True

    def _around(self, corner: Corner) -> list[tuple[tuple[int, int], Tile]]:
        """The present tiles around a corner, and that of it, in order, each with where it lies."""
        names = ((where, Corner(corner.latitude + where[0], corner.longitude + where[1]).name) for where in AROUND)
        return [(where, self._held[name]) for where, name in names if name in self._held]

    def _shared(self, part: Part) -> Array:
        found = [np.empty(0, np.int64)]
        for name in part.names:
            tile = self._held[name]
            foreign = [where for where, other in tile.others() if self._store_of[other.name] is not part]
            if foreign:
                found.append(point_numbers(tile.corner, self.side)[shared_rim(self.side, foreign)])
        return np.unique(np.concatenate(found))

    def add_store(self, name: str) -> Part:
        """The store of this name, made if the region has none."""
        if name not in self._parts:
            path = self._folder / name
            if not path.exists():  # else it is left of a region whose file wasn't written
                format_store(path, self.side, self._square**2, self._program)
            self._parts[name] = Part(name, self._opened(name))
            write_region(self._folder, self.side, self._square, list(self._parts))
        return self._parts[name]

    def store_for(self, corner: Corner) -> Part:
        """The store that takes a tile: that of its square of degrees."""
        south, west = (at // self._square * self._square for at in corner)
        square = f"{'S' if south < 0 else 'N'}{abs(south):02d}{'W' if west < 0 else 'E'}{abs(west):03d}"
        return self.add_store(f"store_{square}")

    # ---- what was kept ----

    def _take_kept(self) -> None:
        """Takes what was kept of each store; what doesn't fit its stamp, or the other stores', is to be found anew."""
        stamps = self._stamps()
        fits = True
        for part in self._parts.values():
            kept = read_kept(self._kept_path(part), self.side)
            if kept is None or kept.names != part.names:
                fits, kept = False, kept if kept is not None else Kept.nothing()
            fits &= kept.stamps == stamps
            self._take(part, kept, kept.stamps.get(part.name) == stamps[part.name])
        fits &= all(tile.flooded and tile.directed for tile in self._held.values())
        for part in self._parts.values():
            part.is_stale = False
        self._suspects = set()
        if not fits:
            self._invalidate()
        self._is_joined, self._joined_for = fits, stamps

    def _stamps(self) -> dict[str, list[int]]:
        """Of each store its count and when its file changed last: a copy of another day may have the same count."""
        files = {part.name: os.stat(self._folder / part.name) for part in self._parts.values()}
        return {name: [part.session.count(), files[name].st_mtime_ns] for name, part in self._parts.items()}

    def _invalidate(self) -> None:
        """Has the next refresh look at every tile again, and join all outlines."""
        for part in self._parts.values():
            part.is_stale, part.outline, part.levels = True, None, None
        for tile in self._held.values():
            tile.mask = tile.near = tile.rim = tile.flats = None
            tile.directed = b""
        self._suspects = set(self._held)

    def _take(self, part: Part, kept: Kept, is_current: bool) -> None:
        for name, record in kept.tiles.items():
            tile = self._held.get(name)
            if tile is not None and self._store_of[name] is part:
                record.give(tile)
                tile.check()
                if not is_current:
                    tile.samples = None
        if kept.names == part.names:
            part.outline, part.levels = kept.outline, kept.levels

    def _kept_path(self, part: Part) -> pathlib.Path:
        return self._folder / KEPT / f"{part.name}.npz"

    def _keep(self) -> None:
        """Stores the results, once all files of tiles that they name are on the drive."""
        with ThreadPoolExecutor(_OPENED_AT_ONCE) as pool:
            for _ in pool.map(lambda name: self._held[name].place.sync(), [name for name in self._unkept if name in self._held]):
                pass
        for part in self._parts.values():
            write_kept(self._kept_path(part), self._joined_for, part, [self._held[name] for name in part.names])
        self._unkept.clear()

    # ---- what changed ----

    def suspect(self, names: Iterable[str]) -> None:
        """Notes that samples or sinks of some tiles change."""
        for name in names:
            self._held[name].samples = None
            self._suspects.update(other.name for _, other in self._around(self._held[name].corner))
        self._is_joined = False

    def changed(self, names: Iterable[str]) -> None:
        """Notes that samples or sinks of some tiles changed."""
        self.suspect(names)
        self._acknowledged = self._summed_counts()

    def tiles_changed(self, part: Part) -> None:
        """Records that a tile was added to a store, or removed."""
        before = set(part.names)
        part.names = part.session.tiles()
        for name in before - set(part.names):
            tile = self._held.pop(name)
            tile.place.remove()
            del self._store_of[name]
            self._suspects.discard(name)
            for _, other in self._around(tile.corner):
                other.mask = None
                self._suspects.add(other.name)
        for corner in corners_named(set(part.names) - before):
            self._held[corner.name] = Tile(corner, Place(str(self._folder / KEPT), corner, self.side))
            self._store_of[corner.name] = part
        self._held = dict(sorted(self._held.items(), key=lambda pair: pair[1].corner))
        self._is_arranged = False
        self.changed(set(part.names) - before)

    def sinks_changed(self, part: Part, point: Point) -> None:
        """Notes that a point became a sink in a store, or is one no more."""
        part.sinks = part.session.sinks()
        self.changed(tile.name for tile in self.holders(point))
        for tile in self.holders(point):
            self._store_of[tile.name].is_stale = True

    def samples_near(self, tile: Tile) -> Array:
        """A tile's own samples near its edge."""
        if tile.samples is None:
            data = self._store_of[tile.name].session.export(tile.name)
            tile.samples = array_of(data).ravel()[self._frame.near]
            tile.content = hashlib.blake2b(data, digest_size=16).digest()
        return tile.samples

    def _inner_sinks(self, tile: Tile) -> list[int]:
        window = tile.corner.window(self.side)
        return sorted(tile.sample(point) for part in self._parts.values() for point in part.sinks if window.holds(point))

    def _rim_heights(self, tile: Tile) -> Array:
        told = [(where, self.samples_near(other)) for where, other in tile.beside]
        return laid(self.side, told, VOID, "int16", first_height)[1]

    # ---- joining ----

    def refresh(self, told: Callable[[int, int], None] | None = None) -> None:
        """Computes again what edits changed. `told` is called with the number of finished turns of tiles and that of all known so far."""
        with self._lock:
            self._edits.finish()
            if self._is_joined:
                return
            (self._folder / KEPT).mkdir(exist_ok=True)
            progress = _Turns(told)
            if not self._is_arranged:
                self._arrange()
            if self._is_refreshing:  # the one before was ended midway
                self._invalidate()
            self._is_refreshing = True
            changed = self._label(progress)
            changed |= self._join(changed)
            self._direct(changed, progress)
            self._suspects.clear()
            self._is_joined, self._is_refreshing, self._flow = True, False, None
            self._joined_for = self._stamps()
            self._counted.clear()
            if len(self._unkept) >= _WORTH_KEEPING:
                self._keep()

    def _label(self, progress: _Turns) -> set[str]:
        """Floods the tiles whose heights changed, each by itself. Gives the names of all tiles that this may have changed."""
        wanted: dict[str, tuple[Array, tuple[int, ...], bytes]] = {}
        for name in sorted(self._suspects):
            tile = self._held[name]
            rim, sinks = self._rim_heights(tile), self._inner_sinks(tile)
            digest = hashlib.blake2b(tile.content + rim.tobytes() + repr(sinks).encode(), digest_size=16).digest()
            if digest != tile.flooded or tile.labelling is None:
                wanted[name] = rim, tuple(sinks), digest
        changed: set[str] = set()
        progress.more(len(wanted), 2)
        for name, labelling in self._turns(list(wanted), lambda name: self._label_turn(name, *wanted[name]), progress):
            tile = self._held[name]
            if not labelling.same_outline(tile.labelling):
                for _, other in tile.beside:
                    other.mask = None
                    self._store_of[other.name].is_stale = True
            tile.labelling, tile.flooded = labelling, wanted[name][2]
            tile.near = None
            changed.update(other.name for _, other in tile.beside)
        for name in (name for name in self._held if self._held[name].mask is None):
            self._held[name].mask = self._mask(self._held[name])
            changed.add(name)
        return changed | self._suspects

    def _label_turn(self, name: str, rim: Array, sinks: tuple[int, ...], digest: bytes) -> Label:
        tile = self._held[name]
        samples = array_of(self._store_of[name].session.export(name))
        samples.ravel()[self._frame.rim] = rim
        inner = [sink for sink in sinks if self._is_inner(sink) and samples.ravel()[sink] != VOID]
        return Label(tile.place, self._program, samples.astype(">i2").tobytes(), tuple(inner), digest)

    def _is_inner(self, sample: int) -> bool:
        row, column = divmod(sample, self.side)
        return 0 < row < self.side - 1 and 0 < column < self.side - 1

    def _mask(self, tile: Tile) -> Array:
        """To which neighbours a tile's rim points are adjacent, in whichever tile."""
        told = []
        for where, other in tile.beside:
            near = np.zeros(self._frame.near.size, np.uint8)
            near[self._frame.rim_in_near] = _found(other.labelling).mask
            told.append((where, near))
        return laid(self.side, told, 0, "uint8", np.bitwise_or)[1]

    def _join(self, changed: set[str]) -> set[str]:
        """The levels of all rim points. Answers the tiles whose rims have changed levels, and their neighbours."""
        links: dict[str, Links] = {}
        moved = False
        for part in self._parts.values():
            if part.is_stale:
                links[part.name] = self._links(part)
                outline = links[part.name].outline(_found(part.shared))
                moved |= part.outline is None or not _same(part.outline, outline)
                part.outline = outline
        stale = {part.name for part in self._parts.values() if part.is_stale or part.levels is None}
        if moved or any(part.levels is None for part in self._parts.values()):
            everything = Links.of(_found(part.outline) for part in self._parts.values())
            for part in self._parts.values():
                levels = everything.levels(_found(part.shared))
                if part.levels is None or not np.array_equal(levels, part.levels):
                    stale.add(part.name)
                part.levels = levels
        risen: set[str] = set()
        for name in sorted(stale):
            part = self._parts[name]
            self._raise_rims(part, links.get(name) or self._links(part), risen)
            part.is_stale = False
        for name in changed:
            self._raise_near(self._held[name])
        return {other.name for name in risen for _, other in self._held[name].beside}

    def _links(self, part: Part) -> Links:
        """The links of a store's tiles, and those of its outlets."""
        found = []
        sinks = {sink for other in self._parts.values() for sink in other.sinks}
        for name in part.names:
            tile, labelling = self._held[name], _found(self._held[name].labelling)
            numbers = point_numbers(tile.corner, self.side)
            outlets = (_found(tile.mask) != 255) & (labelling.heights != VOID)
            window = tile.corner.window(self.side)
            held = [sink for sink in sinks if window.holds(sink)]
            if held:
                ys, xs = np.array(held, np.int64).T
                declared = numbers_of(ys, xs, self.side)
                outlets |= np.isin(numbers, declared) & (labelling.heights != VOID)
            found += [labelling.links(numbers), Links.to_drain(numbers[outlets], labelling.heights[outlets])]
        return Links.of(found)

    def _raise_rims(self, part: Part, links: Links, risen: set[str]) -> None:
        """Gives a store's tiles the levels of their rim points, from those of the points that it shares."""
        shared = _found(part.shared)
        joined = Links.of([links, Links.to_drain(shared, _found(part.levels))])
        numbers = [point_numbers(self._held[name].corner, self.side) for name in part.names]
        levels = joined.levels(np.concatenate([np.empty(0, np.int64), *numbers]))
        for name, own in zip(part.names, np.split(levels, len(part.names)) if part.names else ()):
            tile = self._held[name]
            rim = np.where(_found(tile.labelling).heights == VOID, VOID, own).astype(np.int16)
            if tile.rim is None or not np.array_equal(rim, tile.rim):
                tile.rim, tile.near = rim, None
                risen.add(name)
            self._raise_near(tile)

    def _raise_near(self, tile: Tile) -> None:
        if tile.near is None:
            labelling = _found(tile.labelling)
            tile.near = raised(labelling.near_level, labelling.near_label, _found(tile.rim))

    # ---- directions ----

    def _direct(self, names: set[str], progress: _Turns) -> None:
        """Finds the directions of the tiles around which something changed. On flats distances go from tile to tile."""
        edges = {name: self._edge(self._held[name]) for name in names}
        digests = {name: _edge_digest(self._held[name], edge) for name, edge in edges.items()}
        changed = {name for name in names if digests[name] != self._held[name].directed or self._held[name].distance is None}
        heard: dict[str, tuple[Array, Array]] = {}

        def find(wanted: Iterable[str]) -> None:
            names = sorted(wanted)
            progress.more(len(names))
            for name, (near, flats) in self._turns(names, lambda name: self._direct_turn(name, edges[name], digests[name], heard), progress):
                tile = self._held[name]
                tile.distance, tile.flats, tile.exits = near, flats, None

        unsettled = self._unsettled(self._moved(changed, find))
        for name, levels in unsettled.items():
            self._forget(self._held[name], levels)
            if name not in edges:
                edges[name] = self._edge(self._held[name])
                digests[name] = _edge_digest(self._held[name], edges[name])
        find(unsettled)
        while waiting := [name for name in heard if self._hears_more(self._held[name], edges[name], *heard[name])]:
            find(waiting)
        for name in {*changed, *unsettled}:
            self._held[name].directed = digests[name]

    def _moved(self, changed: set[str], find: Callable[[Iterable[str]], None]) -> dict[str, set[int] | None]:
        """Of the tiles around which something changed those with other flats than before, with their levels; None stands for all.

        It finds the directions of those whose flats are known, by what others told before.
        """
        before = {name: flats for name in changed if (flats := self._held[name].flats) is not None}
        find(before)
        moved: dict[str, set[int] | None] = dict.fromkeys(changed - set(before))
        for name, flats in before.items():
            if levels := _found(self._held[name].flats).moved(flats):
                moved[name] = levels
        return moved

    def _edge(self, tile: Tile) -> Edge:
        around, _ = laid(self.side, [(where, _found(other.near)) for where, other in tile.others()], VOID, "int16", np.maximum)
        sinks = np.array(self._inner_sinks(tile), np.int64)
        return Edge(_found(tile.rim), around, _found(tile.mask), sinks)

    def _distances(self, tile: Tile) -> tuple[Array, Array]:
        """The flat distances around a tile, and of its rim points, from other tiles."""
        told = [(where, _found(other.distance)) for where, other in tile.others() if other.distance is not None]
        return laid(self.side, told, UNREACHED, "int32", np.minimum)

    def _hears_more(self, tile: Tile, edge: Edge, around: Array, rim: Array) -> bool:
        """Whether distances from other tiles changed that a flat of the tile may lead to."""
        flat = (_found(tile.distance)[self._frame.rim_in_near] > 0) & (edge.rim != VOID)
        if not flat.any():
            return False
        now = self._distances(tile)
        leads = np.isin(edge.around, edge.rim[flat])
        return bool((around != now[0])[leads].any() or (rim != now[1])[flat].any())

    def _direct_turn(self, name: str, edge: Edge, digest: bytes, heard: dict[str, tuple[Array, Array]]) -> Direct:
        tile = self._held[name]
        around, rim = heard[name] = self._distances(tile)
        tile.settled = hashlib.blake2b(digest + around.tobytes() + rim.tobytes(), digest_size=16).digest()
        return Direct(tile.place, edge, rim, around, tile.settled)

    def _unsettled(self, moved: dict[str, set[int] | None]) -> dict[str, set[int] | None]:
        """Tiles with flats of some levels, None for all, and those to which these flats lead: their distances are found anew.

        Two flats of one level in a tile are taken for one.
        """
        found = dict(moved)
        waiting = list(moved.items())
        while waiting:
            name, levels = waiting.pop()
            for where, other in self._held[name].others():
                known = found.get(other.name, set())
                if known is None:
                    continue
                met = self._flats_shared(self._held[name], other, where)
                more = (met if levels is None else met & levels) - known
                if more:
                    found[other.name] = known | more
                    waiting.append((other.name, more))
        return found

    def _flats_shared(self, tile: Tile, other: Tile, where: tuple[int, int]) -> set[int]:
        """The levels of the points that both tiles hold and that lie on a flat, as far as is known."""
        if other.distance is None:
            return set()
        distance, levels = laid(self.side, [(where, other.distance)], 0, "int32", np.maximum)[1], _found(tile.rim)
        return set(levels[(distance > 0) & (levels != VOID)].tolist())

    def _forget(self, tile: Tile, levels: set[int] | None) -> None:
        """Lets go of a tile's distances on flats of some levels, or of all."""
        if levels is None or tile.distance is None:
            tile.distance = np.full(self._frame.near.size, UNREACHED, np.int32)
        else:
            tile.distance = np.where(np.isin(_found(tile.near), list(levels)), np.int32(UNREACHED), tile.distance)

    def _turns(self, names: list[str], turn_of: Callable[[str], Callable[[], Any]], progress: _Turns) -> Iterator[tuple[str, Any]]:
        self._unkept.update(names)
        for name, found in self._workers.each(names, turn_of, self.side):
            yield name, found
            progress.one_is_done()

    # ---- flow from tile to tile ----

    def _flows(self) -> _Flow:
        """The forest of all exits."""
        self.refresh()
        if self._flow is None:
            unknown = [name for name, tile in self._held.items() if tile.exits is None]
            for name, exits in self._workers.each(unknown, lambda name: Leave(self._held[name].place, self._held[name].own()), self.side):
                self._held[name].exits = exits
            self._flow = _Flow(self)
            self._unkept.update(unknown)
        return self._flow

    def owner(self, point: tuple[int, int]) -> Tile:
        """The first present tile with a point. Outside or Void if there is none, or the point has no height."""
        holders = self.holders(point)
        if not holders:
            raise Outside()
        if self.height(point) is None:
            raise Void()
        return holders[0]

    def height(self, point: tuple[int, int]) -> int | None:
        """The height of a point by the seam rule; None if it is void."""
        holders = self.holders(point)
        parts = {self._store_of[tile.name].name for tile in holders}
        if len(parts) == 1:
            return self._parts[parts.pop()].session.elevation(*point)
        for tile in holders:
            found = int(self.samples_near(tile)[np.searchsorted(self._frame.near, tile.sample(point))])
            if found != VOID:
                return found
        return None

    def upstream_count(self, y: int, x: int) -> int:
        """How many points drain through a point: the cells of its watershed."""
        with self._lock:
            tile = self.owner((y, x))
            return int(self._counts(tile).ravel()[tile.sample((y, x))])

    def upstream(self, name: str) -> Array:
        """As of a session, uint64: a basin may have more points than 32 bits count."""
        with self._lock:
            tile = self._tile(name)
            self._flows()
            whole = self._counts(tile).copy()
            for where, other in tile.others():
                if other.corner < tile.corner:
                    near = self._counts(other).ravel()[self._frame.near]
                    rim = laid(self.side, [(where, near)], 0, "uint64", np.maximum)[1]
                    whole.ravel()[self._frame.rim] = np.maximum(whole.ravel()[self._frame.rim], rim)
            return whole

    def _counts(self, tile: Tile) -> Array:
        """The counts at a tile's own samples."""
        flow = self._flows()
        if tile.name not in self._counted:
            entries, entering = flow.entering(tile)
            while len(self._counted) >= _MOST_COUNTED:
                self._counted.pop(next(iter(self._counted)))
            self._counted[tile.name] = Count(tile.place, tile.own(), entries, entering)()
        return self._counted[tile.name]

    def _watershed(self, point: tuple[int, int]) -> Watershed:
        tile, flow = self.owner(point), self._flows()
        own = Gather(tile.place, tile.own(), np.array([tile.sample(point)]))
        mask = own.mask()
        targets = flow.above(tile, mask)
        names = list(targets)
        runs = dict(self._workers.each(names, lambda name: self._gather(name, targets[name], point), self.side))
        if tile.name not in runs:
            runs[tile.name] = own()
        found = maximal(np.concatenate(list(runs.values())))
        cells = int((found[:, 2] - found[:, 1] + 1).sum())
        return Watershed(cells, tuple(map(Run._make, found.tolist())))

    def _gather(self, name: str, targets: Array, point: tuple[int, int]) -> Gather:
        tile = self._held[name]
        if tile is self.holders(point)[0]:
            targets = np.append(targets, tile.sample(point))
        return Gather(tile.place, tile.own(), targets)

    def _trace(self, point: tuple[int, int]) -> list[Point]:
        tile = self.owner(point)
        self.refresh()
        path = [Point(*point)]
        while True:
            codes, window = tile.place.codes(), tile.corner.window(self.side)
            while window.holds(path[-1]):
                onward = Direction(int(codes.ravel()[tile.sample(path[-1])])).onward(path[-1])
                if onward is None:
                    return path
                path.append(onward)
            tile = self.holders(path[-1])[0]

    # ---- questions and commands ----

    def _tile(self, name: str) -> Tile:
        """A tile by its name, letters in either case. BadName or NoTile."""
        corner = corner_of(name)
        if corner is None:
            raise BadName()
        if corner.name not in self._held:
            raise NoTile()
        return self._held[corner.name]

    def _asked(self, question: Question[Answer], line: str) -> Answer:
        self._living()
        try:
            return cast(Answer, self._answer(question))
        except Refusal as refusal:
            raise type(refusal)(line) from None

    def _answer(self, question: Question[Any]) -> Any:
        if isinstance(question, Command):
            return self._edits.make(question)
        answer = _ANSWERS.get(type(question))
        if answer is None:
            raise BadArgument(f"a region doesn't answer {question.line()!r}")
        return answer(self, question)

    def _pipelined(self, batch: list[Question[Answer]], lines: list[str]) -> list[Answer | Refusal]:
        answers: list[Answer | Refusal] = []
        for question, line in zip(batch, lines):
            try:
                answers.append(self._asked(question, line))
            except Refusal as refusal:
                answers.append(refusal)
        return answers

    def _elevation(self, question: questions.Elevation) -> int | None:
        if not self.holders((question.y, question.x)):
            raise Outside()
        return self.height((question.y, question.x))

    def _fill(self, question: questions.Fill) -> int:
        tile = self.owner((question.y, question.x))
        self.refresh()
        level, label = tile.place.label_at(tile.sample((question.y, question.x)))
        return level if label == OUT else max(level, int(_found(tile.rim)[label]))

    def _direction(self, question: questions.FlowDirection) -> Direction:
        tile = self.owner((question.y, question.x))
        self.refresh()
        return Direction(tile.place.code_at(tile.sample((question.y, question.x))))

    def _levels(self, question: questions.Levels) -> bytes:
        tile = self._tile(question.name)
        self.refresh()
        return raised(*tile.place.labels(), _found(tile.rim)).astype(">i2").tobytes()

    def _codes(self, question: questions.FlowDirections) -> bytes:
        tile = self._tile(question.name)
        self.refresh()
        return tile.place.codes().tobytes()

    def _export(self, question: questions.Export) -> bytes:
        tile = self._tile(question.name)
        return self._store_of[tile.name].session.export(tile.name)

    def _step(self, question: questions.Step) -> str | None:
        self.refresh()
        return None

    def _numbers(self, question: questions.Info) -> questions.Numbers:
        told = [part.session.info() for part in self._parts.values()]
        stale = len(self._suspects)
        version, commits = max((each.version for each in told), default=2), sum(each.commits for each in told)
        capacity = sum(each.capacity for each in told)
        return questions.Numbers(self.side, capacity, version, self._acknowledged, commits, len(self._held) - stale, stale)

    # ---- beginning and ending ----

    def backup(self, path: PathLike) -> int:
        """Copies the region to a new folder, with what was found of it; its count. StoreExists where there is something of that name."""
        target = pathlib.Path(os.path.abspath(os.fsdecode(path)))
        with self._lock:
            if os.path.lexists(target):
                raise StoreExists(f"{target}: it is there already: take another path, or remove it first")
            if self._is_joined and self._unkept:
                self._keep()
            with tempfile.TemporaryDirectory(dir=target.parent, prefix=f".{target.name}.") as made:
                copy = pathlib.Path(made) / "copy"
                copy.mkdir()
                for part in self._parts.values():
                    part.session.backup(copy / part.name)
                    shutil.copystat(self._folder / part.name, copy / part.name)
                if (self._folder / KEPT).is_dir():
                    shutil.copytree(self._folder / KEPT, copy / KEPT)
                write_region(copy, self.side, self._square, list(self._parts))
                os.rename(copy, target)
            sync_folder(target.parent)
            return self._acknowledged

    def report(self) -> Report:
        """The reports of `check_store` for its stores together; a tile is fresh where nothing of it has to be computed again."""
        with self._lock:
            commits = sum(part.session.report().commits for part in self._parts.values())
            tiles = {name: name not in self._suspects for name in self._held}
            return Report(self._acknowledged, commits, tiles, self._seams())

    def _seams(self) -> int:
        """How many points have different samples in two tiles."""
        found = [np.empty(0, np.int64)]
        for tile in self._held.values():
            own = self.samples_near(tile)[self._frame.rim_in_near]
            for where, other in self._around(tile.corner):
                theirs = laid(self.side, [(where, self.samples_near(other))], VOID, "int16", np.maximum)[1]
                found.append(point_numbers(tile.corner, self.side)[shared_rim(self.side, [where]) & (theirs != own)])
        return int(np.unique(np.concatenate(found)).size)

    def reopen(self) -> Recovery:
        """Reopens all stores, for example after a drive failed a call; an interrupted edit is finished."""
        with self._lock:
            before = self._acknowledged
            self.close()
            self._is_closed = False
            self._begin(read_region(self._folder)["stores"])
            return Recovery(before, self._acknowledged, None)

    def close(self) -> None:
        """Ends the programs that serve its stores."""
        with self._lock:
            self._workers.close()
            if self._is_joined and self._unkept and not self._is_closed:
                with contextlib.suppress(OSError):  # it is found anew then
                    self._keep()
            self._is_closed = True
            for part in self._parts.values():
                part.session.close()

    def _living(self) -> Any:
        if self._is_closed:
            raise BadArgument("the region is closed")
        self._edits.finish()
        return None


_ANSWERS: dict[type, Callable[[Region, Any], Any]] = {
    questions.Elevation: Region._elevation,
    questions.Fill: Region._fill,
    questions.FlowDirection: Region._direction,
    questions.Trace: lambda region, question: region._trace((question.y, question.x)),
    questions.WatershedOf: lambda region, question: region._watershed((question.y, question.x)),
    questions.Export: Region._export,
    questions.Levels: Region._levels,
    questions.FlowDirections: Region._codes,
    questions.UpstreamCounts: lambda region, question: region.upstream(question.name).astype(">u4").tobytes(),
    questions.Tiles: lambda region, question: list(region.held),
    questions.Sinks: lambda region, question: sorted(sink for part in region.parts.values() for sink in part.sinks),
    questions.Step: Region._step,
    questions.Count: lambda region, question: region._acknowledged,
    questions.Info: Region._numbers,
}


class _Turns:
    """Reports how many turns are done, of those known so far."""

    def __init__(self, told: Callable[[int, int], None] | None) -> None:
        self._told, self._done, self._total = told, 0, 0

    def more(self, count: int, each: int = 1) -> None:
        """There come so many, and each comes so many times."""
        self._total = max(self._total, self._done + count * each)

    def one_is_done(self) -> None:
        self._done += 1
        if self._told is not None:
            self._told(self._done, self._total)


class _Flow:
    """The exits of all tiles as one forest: an exit leads to that which the path of its target comes to."""

    def __init__(self, region: Region) -> None:
        self._region = region
        self._tiles = list(region.held.values())
        self._first: dict[str, int] = {}
        at = 0
        for tile in self._tiles:
            self._first[tile.name] = at
            at += _found(tile.exits).points.size
        self._targets = np.concatenate([np.empty(0, np.int64), *(_found(tile.exits).targets for tile in self._tiles)])
        self._homes = self._owners(self._targets)
        counts = np.concatenate([np.empty(0, np.int64), *(_found(tile.exits).counts for tile in self._tiles)])
        self._to: Array = np.arange(counts.size)
        for number, tile in enumerate(self._tiles):
            coming = np.flatnonzero(self._homes == number)
            exit_ = _found(tile.exits).near[np.searchsorted(region._frame.near, tile.samples_of(self._targets[coming]))]
            self._to[coming[exit_ >= 0]] = exit_[exit_ >= 0] + self._first[tile.name]
        self._totals = summed(self._to, counts)

    def _owners(self, numbers: Array) -> Array:
        """The places of the tiles that points are of."""
        reach = self._region.side - 1
        ys, xs = points_numbered(numbers, self._region.side)
        place = {tile.corner: number for number, tile in enumerate(self._tiles)}
        table = np.full((182, 362), -1, np.int64)  # a row and a column more on each side
        for corner, number in place.items():
            table[corner.latitude + 91, corner.longitude + 181] = number
        rows, columns = ys // reach + 91, xs // reach + 181
        south, west = ys % reach == 0, xs % reach == 0
        found = np.full(numbers.size, -1, np.int64)
        for north, east in ((-1, -1), (-1, 0), (0, -1), (0, 0)):
            held = (south | (north == 0)) & (west | (east == 0)) & (found < 0)
            found[held] = table[rows[held] + north, columns[held] + east]
        return found

    def entering(self, tile: Tile) -> tuple[Array, Array]:
        """The samples of a tile where water comes in, and how many points each exit brings there."""
        coming = np.flatnonzero(self._homes == self._tiles.index(tile))
        return tile.samples_of(self._targets[coming]), self._totals[coming]

    def above(self, tile: Tile, mask: Array) -> dict[str, Array]:
        """Of each tile the exits whose water comes to some samples of one: the numbers of their samples."""
        coming = np.flatnonzero(self._homes == self._tiles.index(tile))
        into = coming[mask.ravel()[tile.samples_of(self._targets[coming])]]
        marked = reaching(self._to, into)
        found = {}
        for each in self._tiles:
            first, points = self._first[each.name], _found(each.exits).points
            chosen = points[marked[first : first + points.size]]
            if chosen.size:
                found[each.name] = chosen
        return found


Found = TypeVar("Found")


def _found(value: Found | None) -> Found:
    """The result stored before the question."""
    assert value is not None
    return value


def _same(one: Links, other: Links) -> bool:
    return all(np.array_equal(getattr(one, name), getattr(other, name)) for name in ("first", "second", "crest"))


def _edge_digest(tile: Tile, edge: Edge) -> bytes:
    """A digest of everything that determines a tile's directions, except distances."""
    parts = (tile.flooded, *(each.tobytes() for each in (edge.rim, edge.around, edge.mask, edge.sinks)))
    return hashlib.blake2b(b"".join(parts), digest_size=16).digest()


# ---- the folder ----


def read_region(folder: pathlib.Path) -> dict[str, Any]:
    """The contents of a region's file. MosaicError if there is none."""
    try:
        about = json.loads((folder / FILE).read_text(encoding="ascii"))
        found: dict[str, Any] = {"side": int(about["side"]), "square": int(about["square"]), "stores": [str(name) for name in about["stores"]]}
        if any(os.path.basename(name) != name for name in found["stores"]):
            raise ValueError("a store outside of the folder")
        return found
    except FileNotFoundError:
        raise MosaicError(f"{folder}: no region, as it has no {FILE}: make one with mosaic-load") from None
    except (ValueError, KeyError, TypeError, RecursionError):
        raise MosaicError(f"{folder / FILE}: not read as a region's file: make the region anew with mosaic-load") from None


def write_region(folder: pathlib.Path, side: int, square: int, stores: Sequence[str]) -> None:
    """Writes the file of a region, whole."""
    with replacing(folder / FILE) as made, open(made, "w", encoding="ascii") as file:
        file.write(json.dumps({"side": side, "square": square, "stores": list(stores)}) + "\n")


def make_region(folder: PathLike, side: int, square: int = SQUARE) -> None:
    """Makes a region without a tile; its stores are made as tiles come. StoreExists where the folder has something in it."""
    place = pathlib.Path(os.fsdecode(folder))
    if not 1 <= square <= SQUARE:
        raise BadArgument(f"a store of a region has squares of 1 to {SQUARE} degrees, not {square}")
    if os.path.lexists(place) and (not place.is_dir() or any(place.iterdir())):
        raise StoreExists(f"{place}: it is there already: take another path, or remove it first")
    place.mkdir(parents=True, exist_ok=True)
    write_region(place, side, square, [])
