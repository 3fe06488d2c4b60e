"""The drainage network of a window: how many points drain through each, streams with their order, longest paths.

Arrays have the window's shape, the north row first. A cell is a point's; it is as high and as wide as its latitude makes it
on the ellipsoid. They need numpy. `basins` has the network of all tiles.
"""

from __future__ import annotations

import functools
from collections.abc import Iterator, Mapping, Sequence
from dataclasses import dataclass
from typing import TYPE_CHECKING

from .directions import directions_at, levels_and_directions
from .ellipsoid import step_metres
from .errors import BadArgument
from .geojson import Feature
from .lattice import Direction, Point, Window, corners_of
from .rasters import NO_DIRECTION, STEPS, Heights, Told, asks_whole_tiles, heights_of, place_in, whole_tiles
from .samples import needed_numpy
from .session import Session
from .snapping import nearest_stream
from .streams import NOWHERE, check_threshold, ends_of, joined, keys_of, summed, turns

if TYPE_CHECKING:
    from .samples import Array


@dataclass(frozen=True)
class Network:
    """Where water flows in a window. Cells are numbered by rows from the north-west."""

    heights: Heights
    levels: Array
    """Filled levels in metres, int32; -32768 where there is no ground."""
    codes: Array
    """Direction codes, uint8; 255 where there is no ground."""
    receivers: Array
    """Of each cell the one that it drains to, int64 of shape (cells,); -1 where water leaves the window."""
    entering: Mapping[int, int]
    """How many points from outside the window drain into a cell at once, by cell; only cells with any."""
    told_counts: Array | None = None
    """`counts`, if the program has answered them."""

    @property
    def window(self) -> Window:
        return self.heights.window

    @property
    def shape(self) -> tuple[int, int]:
        """Rows and columns."""
        return self.window.height, self.window.width

    def cell(self, point: Point) -> int:
        """The cell of a point. BadArgument if the window doesn't have the point."""
        return self.heights.cell(point)

    def point(self, cell: int) -> Point:
        """The point of a cell."""
        row, column = divmod(int(cell), self.window.width)
        return Point(self.window.y1 - row, self.window.x0 + column)

    def step_lengths(self) -> Array:
        """The length of the step out of each cell in metres, float64; 0 if water leaves the window there."""
        numpy = needed_numpy()
        rows = numpy.broadcast_to(self.heights.ys[:, None], self.shape)
        within = self.receivers.reshape(self.shape) != NOWHERE
        return numpy.where(within, step_metres(rows, self.codes, self.heights.side), 0.0)

    @functools.cached_property
    def counts(self) -> Array:
        """Of each point how many points drain through it, itself among them: int64; 0 where there is no ground.

        It is the number of cells of the point's watershed, also where that reaches beyond the window.
        """
        numpy = needed_numpy()
        if self.told_counts is not None:
            return self.told_counts
        counts = self.heights.ground.astype(numpy.int64).ravel()
        for cell, count in self.entering.items():
            counts[cell] += count
        return self._summed(counts).reshape(self.shape)

    @functools.cached_property
    def drained_area(self) -> Array:
        """Of each point the area that drains through it, in km², float64.

        What enters from outside the window counts with the area of the cell where it enters.
        """
        numpy = needed_numpy()
        areas = numpy.where(self.heights.ground, self.heights.cell_areas(), 0.0).ravel()
        widest = numpy.broadcast_to(self.heights.cell_areas(), self.shape).ravel()
        for cell, count in self.entering.items():
            areas[cell] += count * widest[cell]
        return self._summed(areas).reshape(self.shape) / 1e6

    def catchments(self, outlets: Sequence[Point]) -> Array:
        """Of each point the first of some outlets that its flow path comes to, by number: int32; -1 where it comes to none.

        So catchments are nested, and no point is in two. BadArgument where an outlet has no height.
        """
        numpy = needed_numpy()
        own = numpy.full(self.receivers.size + 1, NOWHERE, numpy.int32)
        for number, outlet in reversed(list(enumerate(outlets))):
            if self.codes.ravel()[self.cell(outlet)] == NO_DIRECTION:
                raise BadArgument(f"nothing drains to the point {outlet.y} {outlet.x}, which has no height: choose another one")
            own[self.cell(outlet)] = number
        return own[self._first_of(own[:-1] != NOWHERE)].reshape(self.shape)

    def snapped(self, point: Point, reach: int, threshold: int) -> Point:
        """Of the points within `reach` steps of a point that `threshold` points and more drain through, the nearest.

        Of several the one that most drain through; the point itself where there is none.
        """
        self.cell(point)
        near = Window(point.y - reach, point.x - reach, point.y + reach, point.x + reach).met(self.window) or self.window
        return nearest_stream(self.counts[place_in(self.window, near)], near, point, threshold)

    @functools.cached_property
    def path_lengths(self) -> Array:
        """Of each point how long its flow path in the window is, in metres: float64."""
        numpy = needed_numpy()
        ahead = numpy.append(self.receivers, NOWHERE)
        lengths = self.step_lengths().ravel()
        cells = numpy.flatnonzero(self.receivers != NOWHERE)
        for _ in turns(self.receivers.size):
            if not cells.size:
                break
            to = ahead[cells]
            lengths[cells] += lengths[to]
            further = ahead[to]
            ahead[cells] = further
            cells = cells[further != NOWHERE]
        return lengths.reshape(self.shape)

    def longest_path(self, outlet: Point) -> list[Point]:
        """The longest flow path in the window that ends at a point, from its head."""
        numpy = needed_numpy()
        cell = int(numpy.where(self.catchments([outlet]) == 0, self.path_lengths, -1.0).argmax())
        path = [cell]
        while cell != self.cell(outlet):
            cell = int(self.receivers[cell])
            path.append(cell)
        return [self.point(cell) for cell in path]

    def nearest_stream(self, threshold: int) -> Array:
        """Of each ground point the cell of the first point on its flow path that `threshold` points drain through: int64.

        -1 where its path leaves the window before one. BadArgument where `threshold` is less than 1.
        """
        check_threshold(threshold)
        return self._first_of((self.counts >= threshold).ravel()).reshape(self.shape)

    def _first_of(self, stops: Array) -> Array:
        """For each cell the first stop on its flow path, itself included: int64; -1 if there is none."""
        ends = ends_of(self.receivers, stops)
        return needed_numpy().where(stops[ends], ends, NOWHERE)

    def _summed(self, values: Array) -> Array:
        """The sums of values over all that drains through each cell.

        Cells without donors that aren't summed yet give to their receivers, as long as there are many at once. Then each of
        the others, which are long streams, gives to the cell that lies twice as far ahead at each turn.
        """
        numpy = needed_numpy()
        sums = numpy.append(values, 0)  # the last stands for NOWHERE, and so does that of the donors, which is never without
        donors = numpy.bincount(self.receivers[self.receivers != NOWHERE], minlength=sums.size)
        donors[NOWHERE] = sums.size
        front = numpy.flatnonzero(donors == 0)
        while front.size * _FEW >= sums.size:
            to = self.receivers[front]
            order = to.argsort(kind="stable")
            to = to[order]
            starts = _starts(to)
            reached = to[starts]
            sums[reached] += numpy.add.reduceat(sums[front[order]], starts)
            waiting = donors[reached] - numpy.diff(starts, append=to.size)
            donors[reached] = waiting
            front = reached[waiting == 0]
        donors[front] = 1
        left = numpy.flatnonzero(donors[:-1])
        number = numpy.full(sums.size, NOWHERE)
        number[left] = numpy.arange(left.size)
        sums[left] = summed(number[self.receivers[left]], sums[left])
        return sums[:-1]


_FEW = 500
"""Of so many cells one is too few for an operation on an array of its own."""


def _starts(ordered: Array) -> Array:
    """The index at which each value of an ordered array begins."""
    numpy = needed_numpy()
    begins = numpy.ones(ordered.size, bool)
    numpy.not_equal(ordered[1:], ordered[:-1], out=begins[1:])
    return begins.nonzero()[0]


def network_of(session: Session, window: Window, told: Told | None = None) -> Network:
    """The network of a window of a store. What drains into the window from outside is asked for where it enters.

    Where whole tiles are told at once, and the window is a good part of them, its counts are the program's.
    """
    heights = heights_of(session, window)
    levels, codes = levels_and_directions(session, heights, told)
    receivers = receivers_of(codes)
    if not asks_whole_tiles(session, heights):
        return Network(heights, levels, codes, receivers, _entering(session, heights))
    counts = whole_tiles(session.upstream, heights, 0, "int64", told)
    return Network(heights, levels, codes, receivers, _left_over(counts, heights, receivers), counts)


def receivers_of(codes: Array) -> Array:
    """For each cell of a window the cell that it drains to, int64; -1 if water leaves the window, or the cell isn't
    ground."""
    numpy = needed_numpy()
    columns = codes.shape[1]
    steps = numpy.zeros(256, numpy.int64)
    for number, (north, east) in enumerate(STEPS):
        steps[1 << number] = east - north * columns
    receivers = numpy.arange(codes.size).reshape(codes.shape) + steps[codes]
    receivers[(codes == Direction.OFF) | (codes == NO_DIRECTION)] = NOWHERE
    edges = (receivers[0], codes[0]), (receivers[-1], codes[-1]), (receivers[:, 0], codes[:, 0]), (receivers[:, -1], codes[:, -1])
    for (edge, own), outward in zip(edges, ((32, 64, 128), (2, 4, 8), (8, 16, 32), (128, 1, 2))):
        edge[numpy.isin(own, outward)] = NOWHERE
    return receivers.ravel()


def _entering(session: Session, heights: Heights) -> dict[int, int]:
    """The number of points that drain into each cell of a window from neighbouring points outside."""
    window, present = heights.window, set(heights.corners)
    ring = [point for point in _around(window) if not present.isdisjoint(corners_of(point, heights.side))]
    ways = ((point, way.onward(point)) for point, way in directions_at(session, ring).items())
    counts: dict[int, int] = {}
    for point, at in ways:
        if at is not None and window.holds(at):
            cell = heights.cell(at)
            # One at a time: if a river crosses the edge repeatedly, each crossing has those above it, and all together take
            # much memory.
            counts[cell] = counts.get(cell, 0) + session.watershed(*point).cells
    return counts


def _left_over(counts: Array, heights: Heights, receivers: Array) -> dict[int, int]:
    """What `_entering` answers, from the counts: of each cell's count what neither itself nor a cell of the window gives."""
    numpy = needed_numpy()
    within = receivers != NOWHERE
    given = numpy.bincount(receivers[within], counts.ravel()[within], receivers.size)  # float64 has whole numbers to 2^53
    entered = (counts - heights.ground).ravel() - given.astype(numpy.int64)
    return {int(cell): int(entered[cell]) for cell in entered.nonzero()[0]}


def _around(window: Window) -> Iterator[Point]:
    """The points around a window."""
    for x in range(window.x0 - 1, window.x1 + 2):
        yield Point(window.y1 + 1, x)
        yield Point(window.y0 - 1, x)
    for y in range(window.y0, window.y1 + 1):
        yield Point(y, window.x0 - 1)
        yield Point(y, window.x1 + 1)


def stream_features(network: Network, threshold: int) -> list[Feature]:
    """The streams of a window as features. Those that enter it begin with order 1 there."""
    numpy = needed_numpy()
    check_threshold(threshold)
    cells = numpy.flatnonzero(network.counts >= threshold)
    keys = keys_of(network.window).ravel()[cells]
    streams = joined(network.heights.side, keys, network.counts.ravel()[cells], network.codes.ravel()[cells])
    return streams.features(1e6 * network.drained_area.ravel()[cells[keys.argsort()[streams.last]]])
