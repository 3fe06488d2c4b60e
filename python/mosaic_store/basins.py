"""The drainage network of all tiles of a store: how many points drain through each, streams, catchments, heights above streams.

Tile after tile: what is held is one tile, the directions of all, where the flow paths of the tiles' rims lead, and the points of
streams. A path enters a tile at its rim, so that its rim tells where it goes on. They need numpy.
"""

from __future__ import annotations

import functools
from collections.abc import Iterable, Iterator, Mapping, Sequence
from dataclasses import dataclass
from typing import TYPE_CHECKING

from .ellipsoid import row_areas
from .errors import BadArgument
from .geojson import Feature
from .lattice import Corner, Point, Run, Window, corners_named, corners_of
from .network import receivers_of
from .rasters import NO_DIRECTION, Told, lay, ring
from .samples import needed_numpy
from .session import Session
from .snapping import nearest_stream
from .streams import NOWHERE, Streams, check_threshold, ends_of, found_in, joined, keys_of, summed

if TYPE_CHECKING:
    from .samples import Array

MOST_OF_STREAMS = 5_000_000
"""The most points of streams."""

_MOST_KEPT = 400_000_000
"""How many bytes of directions are kept: those of further tiles are asked for anew."""

_UPSTREAM_KEPT = 9

Stops = Mapping[Corner, "tuple[Array, Array]"]
"""Of tiles that have some the cells at which flow paths stop, and the label of each."""


class Basins:
    """The flow paths of a store's tiles."""

    def __init__(self, session: Session, told: Told = lambda done, total: None) -> None:
        """Calls `told` with the number of tiles done and of all tiles, in each pass over them."""
        self._session, self._told = session, told
        self.side = session.side
        self.corners = sorted(corners_named(session.tiles()), key=lambda corner: (-corner.latitude, corner.longitude))
        self._present = set(self.corners)
        self._codes: dict[Corner, Array] = {}
        self._upstream = functools.lru_cache(_UPSTREAM_KEPT)(session.upstream)
        self._done = 0

    @property
    def window(self) -> Window:
        """The least window that has all tiles."""
        return Window.around(corner.window(self.side) for corner in self.corners)

    def counts(self) -> Iterator[tuple[Corner, Array]]:
        """Of each tile, from the north, how many points drain through each of its points: uint32, 0 where there is no ground."""
        for corner in self._each(1):
            yield corner, self._session.upstream(corner.name)

    def streams(self, threshold: int) -> tuple[Streams, Stops]:
        """The streams, which `threshold` points and more drain through, and as stops the number of each of their points."""
        numpy = needed_numpy()
        check_threshold(threshold)
        parts, cells, found = [], {}, 0
        for corner in self._each(3):
            counts = self._session.upstream(corner.name).ravel()
            cells[corner] = numpy.flatnonzero(counts >= threshold).astype(numpy.int32)
            found += cells[corner].size
            if found > MOST_OF_STREAMS:
                raise BadArgument(f"what {threshold} points drain through is more than {MOST_OF_STREAMS:,} points: raise the threshold")
            own = cells[corner]
            parts.append((self._keys(corner).ravel()[own], counts[own].astype(numpy.int64), self._directions(corner).ravel()[own]))
        streams = joined(self.side, *map(numpy.concatenate, zip(*parts)))
        numbers = {corner: found_in(streams.keys, part[0]).astype(numpy.int32) for corner, part in zip(self.corners, parts)}
        return streams, {corner: (cells[corner], numbers[corner]) for corner in self.corners}

    def stream_features(self, threshold: int) -> list[Feature]:
        """The streams as features, with ids, orders and areas from the whole graph."""
        numpy = needed_numpy()
        streams, stops = self.streams(threshold)
        areas = numpy.zeros(streams.starts.size)
        for corner, labels in self.first_stops(stops):
            own = self.owned(corner) & (labels != NOWHERE)
            areas += numpy.bincount(streams.reach[labels[own]], self.areas(corner)[own], areas.size)
        return streams.features(summed(streams.following, areas))

    def above_streams(self, threshold: int) -> Iterator[tuple[Corner, Array]]:
        """Of each tile how far the filled level of each point lies above that of the first stream on its flow path: int32.

        In metres; -1 where a path ends before one. The height above the nearest drainage (Nobre and others 2011).
        """
        numpy = needed_numpy()
        streams, stops = self.streams(threshold)
        levels = numpy.zeros(streams.keys.size + 1, numpy.int32)
        for corner, (cells, labels) in stops.items():
            levels[labels] = self._session.levels(corner.name).ravel()[cells]
        for corner, labels in self.first_stops(stops):
            yield corner, numpy.where(labels != NOWHERE, self._session.levels(corner.name) - levels[labels], -1).astype(numpy.int32)

    def snapped(self, point: Point, reach: int, threshold: int) -> Point:
        """Of the points within `reach` steps of a point that `threshold` points and more drain through, the nearest."""
        numpy = needed_numpy()
        box = Window(point.y - reach, point.x - reach, point.y + reach, point.x + reach)
        ys, xs = numpy.arange(box.y1, box.y0 - 1, -1), numpy.arange(box.x0, box.x1 + 1)
        near = numpy.zeros((ys.size, xs.size), numpy.int64)
        for corner in self.corners:
            if box.met(corner.window(self.side)):
                lay(functools.partial(self._upstream, corner.name), corner.window(self.side), ys, xs, near, near > 0, nothing=0)
        return nearest_stream(near, box, point, threshold)

    def catchments(self, outlets: Sequence[Point]) -> list[Catchment]:
        """Of each outlet the points whose flow path comes to it before any other one. Outlets are different points.

        So catchments are nested, and no point is in two. Void where an outlet has no height.
        """
        numpy = needed_numpy()
        stops, onwards = self._stops_at(outlets)
        cells, areas = numpy.zeros(len(outlets)), numpy.zeros(len(outlets))
        following = numpy.full(len(outlets), NOWHERE)
        parts = []
        for corner, labels in self.first_stops(stops):
            window = corner.window(self.side)
            own = numpy.where(self.owned(corner), labels, NOWHERE)
            labelled = own[own != NOWHERE]
            cells += numpy.bincount(labelled, minlength=cells.size)
            areas += numpy.bincount(labelled, self.areas(corner)[own != NOWHERE], areas.size)
            parts.append(runs_in(own, window))
            for number, to in enumerate(onwards):
                if window.holds(to):
                    following[number] = labels[window.y1 - to.y, to.x - window.x0]
        following[following == numpy.arange(len(outlets))] = NOWHERE
        runs = merged_runs(numpy.concatenate(parts), len(outlets))
        figures = (cells.tolist(), areas.tolist(), summed(following, cells).tolist(), summed(following, areas).tolist(), following.tolist())
        return [Catchment(own, int(count), area, int(drained), whole, to) for own, count, area, drained, whole, to in zip(runs, *figures)]

    def first_stops(self, stops: Stops) -> Iterator[tuple[Corner, Array]]:
        """Of each tile, from the north, the label of the first stop on the flow path of each point: int32; -1 where there is none."""
        keys, final = self._rims(stops)
        for corner in self._each(1):
            labels, receivers, leaving = self._local(corner, stops)
            labels[leaving] = final[found_in(keys, self._keys(corner).ravel()[leaving])]
            ends = ends_of(receivers, labels != NOWHERE)
            yield corner, labels[ends].reshape(self.side, self.side)

    def _rims(self, stops: Stops) -> tuple[Array, Array]:
        """The points of all rims, by key, and of each the label of the first stop on its flow path."""
        numpy = needed_numpy()
        rim = numpy.flatnonzero(ring((self.side, self.side)))
        parts = []
        for corner in self._each(2):
            labels, receivers, leaving = self._local(corner, stops)
            own = self._keys(corner).ravel()
            goes_on = numpy.zeros(own.size, bool)
            goes_on[leaving] = True
            ends = ends_of(receivers, labels != NOWHERE)[rim]
            # If water leaves the tile at a point, the path goes on in another tile with the point.
            known = ~goes_on[ends] | (ends != rim)
            parts.append((own[rim[known]], labels[ends[known]], numpy.where(goes_on[ends], own[ends], NOWHERE)[known]))
        keys, labels, to = map(numpy.concatenate, zip(*parts))
        keys, first = numpy.unique(keys, return_index=True)
        labels, to = labels[first], to[first]
        ends = ends_of(numpy.where(to == NOWHERE, NOWHERE, found_in(keys, to)), labels != NOWHERE)
        return keys, labels[ends]

    def _local(self, corner: Corner, stops: Stops) -> tuple[Array, Array, Array]:
        """For a tile's cells the labels of stops, the receivers in the tile, and those from which water flows into
        another tile."""
        numpy = needed_numpy()
        codes = self._directions(corner)
        labels = numpy.full(codes.size, NOWHERE, numpy.int32)
        cells, own = stops.get(corner, (numpy.zeros(0, int),) * 2)
        labels[cells] = own
        receivers = receivers_of(codes).astype(numpy.int32)
        goes_on = (receivers == NOWHERE) & (codes.ravel() != 0) & (codes.ravel() != NO_DIRECTION)
        return labels, receivers, numpy.flatnonzero(goes_on & (labels == NOWHERE))

    def _stops_at(self, outlets: Sequence[Point]) -> tuple[Stops, list[Point]]:
        """Outlets as stops in each tile that has them, and the points that they drain to; themselves if water leaves
        there."""
        numpy = needed_numpy()
        stops: dict[Corner, tuple[list[int], list[int]]] = {}
        onwards: list[Point] = []
        for number, outlet in enumerate(outlets):
            way = self._session.direction(*outlet)  # a refusal, if the point has no height
            onwards.append(way.onward(outlet) or outlet)
            for corner in corners_of(outlet, self.side):
                if corner in self._present:
                    window = corner.window(self.side)
                    cells, labels = stops.setdefault(corner, ([], []))
                    cells.append((window.y1 - outlet.y) * self.side + outlet.x - window.x0)
                    labels.append(number)
        return {corner: (numpy.array(cells), numpy.array(labels)) for corner, (cells, labels) in stops.items()}, onwards

    def _each(self, passes: int) -> Iterator[Corner]:
        """The tiles; `left` passes over them remain, this one included."""
        total = self._done + passes * len(self.corners)
        for corner in self.corners:
            yield corner
            self._done += 1
            self._told(self._done, total)

    def _directions(self, corner: Corner) -> Array:
        codes = self._codes.get(corner)
        if codes is None:
            codes = self._session.directions(corner.name)
            if (len(self._codes) + 1) * codes.size <= _MOST_KEPT:
                self._codes[corner] = codes
        return codes

    def _keys(self, corner: Corner) -> Array:
        return keys_of(corner.window(self.side))

    def areas(self, corner: Corner) -> Array:
        """The area of each cell of a tile in square metres."""
        numpy = needed_numpy()
        window = corner.window(self.side)
        areas = row_areas(numpy.arange(window.y1, window.y0 - 1, -1), self.side)
        return numpy.broadcast_to(areas[:, None], (self.side, self.side))

    def owned(self, corner: Corner) -> Array:
        """Which of a tile's points no earlier tile has: each point belongs to one tile."""
        owned = needed_numpy().ones((self.side, self.side), bool)
        south, west = corner
        beside = {(-1, -1): (-1, 0), (-1, 0): (-1, slice(None)), (-1, 1): (-1, -1), (0, -1): (slice(None), 0)}
        for (north, east), part in beside.items():
            if Corner(south + north, west + east) in self._present:
                owned[part] = False
        return owned


@dataclass(frozen=True)
class Catchment:
    """The points whose flow path reaches an outlet before any other outlet."""

    runs: list[Run]
    cells: int
    area: float
    """In square metres."""
    drained: int
    """How many points drain through the outlet: those of the catchments above it, too."""
    drained_area: float
    """Of these, in square metres."""
    following: int
    """The next outlet on its flow path, by number; -1 where there is none."""


def runs_in(labels: Array, window: Window) -> Array:
    """The maximal runs of points of one label, int64 of shape (n, 4): label, y, first and last x. -1 means no label."""
    numpy = needed_numpy()
    padded = numpy.pad(labels, ((0, 0), (1, 1)), constant_values=NOWHERE)
    begins = padded[:, 1:] != padded[:, :-1]
    rows, firsts = numpy.nonzero(begins & (padded[:, 1:] != NOWHERE))
    _, ends = numpy.nonzero(begins & (padded[:, :-1] != NOWHERE))
    return numpy.stack([labels[rows, firsts], window.y1 - rows, window.x0 + firsts, window.x0 + ends - 1], 1).astype(numpy.int64)


def merged_runs(runs: Array, count: int) -> list[list[Run]]:
    """Of each label below `count` its runs, maximal, from the north, then from the west."""
    numpy = needed_numpy()
    label, y, first, last = runs[numpy.lexsort((runs[:, 2], -runs[:, 1], runs[:, 0]))].T
    begins = numpy.ones(label.size, bool)
    begins[1:] = (label[1:] != label[:-1]) | (y[1:] != y[:-1]) | (first[1:] != last[:-1] + 1)
    at = numpy.flatnonzero(begins)
    ends = numpy.append(at[1:], label.size)[: at.size] - 1
    found = list(map(Run, y[at].tolist(), first[at].tolist(), last[ends].tolist()))
    bounds = numpy.searchsorted(label[at], numpy.arange(count + 1)).tolist()
    return [found[start:end] for start, end in zip(bounds, bounds[1:])]


def bands_of(parts: Iterable[tuple[Corner, Array]], side: int, window: Window, nothing: int) -> Iterator[Array]:
    """Tiles, from the north, as the rows of a window that has them all: as many rows at a time as a tile is high, less one."""
    numpy = needed_numpy()
    band, north = numpy.zeros((0, window.width)), window.y1
    for corner, tile in parts:
        own = corner.window(side)
        while not band.size or north > own.y1:
            next_one = numpy.full((side, window.width), nothing, tile.dtype)
            if band.size:
                yield band[:-1]
                north -= side - 1
                next_one[0] = band[-1]
            band = next_one
        place = band[:, own.x0 - window.x0 : own.x1 - window.x0 + 1]
        numpy.copyto(place, tile, where=place == nothing)
    yield band
