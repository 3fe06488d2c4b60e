"""What planners of culverts, reservoirs and floods ask of a window: storage behind a dam, depths, heights above streams.

Heights and levels are metres, areas square metres, volumes cubic metres; cells are as wide as their latitude makes them.
They need numpy.
"""

from __future__ import annotations

import dataclasses
import functools
import heapq
import math
from collections.abc import Callable, Iterable, Mapping, Sequence
from dataclasses import dataclass
from typing import TYPE_CHECKING

from . import lines
from .basins import merged_runs, runs_in
from .directions import reaching
from .ellipsoid import cell_area
from .errors import BadArgument
from .lattice import VOID, Corner, Point, Run, Window, corners_named, corners_of
from .network import Network
from .rasters import STEPS, Heights, heights_of, place_in, ring
from .samples import array_of, bytes_of, needed_numpy
from .session import Session, memory_table
from .stores import PathLike

if TYPE_CHECKING:
    from .samples import Array


@dataclass(frozen=True)
class Stage:
    """A reservoir that is filled to a level."""

    level: int
    """In metres."""
    area: float
    """Of its surface, in square metres."""
    volume: float
    """In cubic metres."""


@dataclass(frozen=True)
class Reservoir:
    """The reservoir behind a dam."""

    stages: list[Stage]
    """From its lowest point, where it begins to fill, a metre at a time, to the level at which it spills."""
    spills_at: int
    """The filled level before the dam, in metres: as high as water can stand there."""
    depths: Array
    """Of each point of the window the depth of the full reservoir in metres, int32; 0 outside it."""


def reservoir(session: Session, window: Window, dam: Sequence[Point], crest: int, before: Point, program: PathLike | None = None) -> Reservoir:
    """The reservoir behind a dam along a line of corners, with its crest at a height in metres, at a point before it.

    The dam is built in a table in memory; the store is only asked. The reservoir has to lie in the window. `program` is the
    program that makes the table, as `open_store` takes it.
    """
    line = lines.points_along(dam)
    heights = _with_wall(heights_of(session, window), line, crest)
    start = heights.cell(before)
    (spills_at,) = levels_after(session, line, functools.partial(_build, line, crest), [before], program)
    ground = int(heights.samples.ravel()[start])
    if ground == spills_at:
        place = f"{before.y} {before.x}, where the ground is {ground} m high"
        raise BadArgument(f"no water stands before the dam at {place}: take a lower point")
    # Points reached only at the level of the sill are beyond it, and aren't part of the reservoir.
    reached = _reached(heights.samples, start, spills_at - 1)
    inside = reached < spills_at
    if inside[[0, -1]].any() or inside[:, [0, -1]].any():
        raise BadArgument("the reservoir reaches the window's edge: take a larger window")
    numpy = needed_numpy()
    depths = numpy.where(inside, spills_at - heights.samples.astype(numpy.int32), 0)
    # It fills from its lowest point, which needn't be the one before the dam.
    reached = _reached(heights.samples, int(depths.argmax()), spills_at - 1)
    return Reservoir(_stages(heights, reached, spills_at), spills_at, depths)


def _build(line: Sequence[Point], crest: int, session: Session) -> None:
    for part in lines.commands(line):
        session.wall(crest, part)


def _with_wall(heights: Heights, line: Sequence[Point], crest: int) -> Heights:
    """The heights of a window once a line is raised to a height."""
    samples = heights.samples.copy()
    flat = samples.reshape(-1)
    cells = [heights.cell(point) for point in line if heights.window.holds(point)]
    flat[cells] = needed_numpy().maximum(flat[cells], crest)
    return dataclasses.replace(heights, samples=samples)


def levels_after(
    session: Session, points: Sequence[Point], edit: Callable[[Session], None], asked: Sequence[Point], program: PathLike | None = None
) -> list[int]:
    """The filled levels of some points once an edit of others is made: in a table of the tiles around both, and of more until it is sure.

    Water leaves such a table at its edge, so that its level is never more than the store's. It is the store's where what
    leaves goes on from there in the store at that level, past what is edited.
    """
    present, side = set(corners_named(session.tiles())), session.side
    for point in asked:
        session.elevation(*point)  # a refusal, if no tile has the point
    taken = {corner for point in (*points, *asked) for corner in corners_of(point, side)} & present
    edited = set(points)
    while True:
        with memory_table(side, len(taken), program) as table:
            _copy_part(session, table, taken)
            edit(table)
            found = [(table.fill(*point), table.trace(*point)[-1]) for point in asked]
        wider = taken | {Corner(a + north, b + east) for a, b in taken for north, east in STEPS} & present
        if wider == taken or all(session.fill(*end) <= level and edited.isdisjoint(session.trace(*end)) for level, end in found):
            return [level for level, _ in found]
        taken = wider


def _copy_part(session: Session, table: Session, corners: set[Corner]) -> None:
    """Copies tiles to a table, with the heights that their points have in the store, and the sinks on them."""
    windows = [corner.window(session.side) for corner in sorted(corners)]
    for corner, window in zip(sorted(corners), windows):
        table.import_tile(corner.name, heights_of(session, window).samples)
    for sink in session.sinks():
        if any(window.holds(sink) for window in windows):
            table.sink(*sink)


_FAR = 1 << 20
_DISTANCES_AT_ONCE = 256
"""For how many voids at once the distances to the whole rim are in memory."""


def _reached(samples: Array, start: int, most: int) -> Array:
    """Of each point the level at which water from a point comes to it: the least crest on the way, where that is at most
    `most`; more elsewhere. By the lowest first, as Priority-Flood (Barnes, Lehman and Mulla 2014)."""
    numpy = needed_numpy()
    width = samples.shape[1] + 2
    heights = numpy.pad(numpy.where(samples == VOID, _FAR, samples.astype(numpy.int64)), 1, constant_values=_FAR).ravel()
    reached = numpy.full(heights.size, _FAR, numpy.int64)
    row, column = divmod(start, samples.shape[1])
    first = (row + 1) * width + column + 1
    reached[first] = heights[first]
    waiting = [(int(heights[first]), first)]
    steps = [east - north * width for north, east in STEPS]
    while waiting:
        level, at = heapq.heappop(waiting)
        for step in steps:
            onward = max(level, int(heights[at + step]))
            if onward <= most and onward < reached[at + step]:
                reached[at + step] = onward
                heapq.heappush(waiting, (onward, at + step))
    return reached.reshape(-1, width)[1:-1, 1:-1]


def _stages(terrain: Heights, reached: Array, spills_at: int) -> list[Stage]:
    numpy = needed_numpy()
    inside = reached < spills_at
    areas = numpy.broadcast_to(terrain.cell_areas(), reached.shape)[inside]
    heights = terrain.samples[inside].astype(numpy.int64)
    lowest = int(heights.min(initial=spills_at))
    wet_from = reached[inside] + 1 - lowest  # what lies behind a sill of this very level isn't reached
    wet, heaped = (numpy.bincount(wet_from, each, spills_at + 1 - lowest).cumsum() for each in (areas, areas * (heights - lowest)))
    return [Stage(lowest + deep, area, deep * area - below) for deep, (area, below) in enumerate(zip(wet.tolist(), heaped.tolist()))]


def heights_above_stream(network: Network, threshold: int) -> Array:
    """Of each ground point how far its filled level lies above that of the first stream on its flow path, in metres: int32.

    A stream is what `threshold` points and more drain through; -1 where a path leaves the window before one. The height
    above the nearest drainage (Nobre and others 2011): where it is small, a flood of the stream comes first.
    """
    numpy = needed_numpy()
    nearest = network.nearest_stream(threshold)
    levels = network.levels.ravel()
    return numpy.where(nearest >= 0, network.levels - levels[numpy.maximum(nearest, 0)], -1).astype(numpy.int32)


@dataclass(frozen=True)
class PathFigures:
    """The longest flow path to an outlet, and how fast a storm comes down it."""

    points: list[Point]
    length: float
    """In metres."""
    fall: int
    """From its head to the outlet, by heights, in metres."""
    minutes: float
    """The time of concentration after Kirpich (1940); infinite where the path doesn't fall."""

    @property
    def slope(self) -> float:
        """Metres of fall a metre of length."""
        return self.fall / self.length if self.length else 0.0


def longest_path(network: Network, outlet: Point) -> PathFigures:
    """The longest flow path in the window that ends at an outlet, with its slope and its time of concentration."""
    points = network.longest_path(outlet)
    lengths = network.path_lengths.ravel()
    length = float(lengths[network.cell(points[0])] - lengths[network.cell(outlet)])
    samples = network.heights.samples.ravel()
    fall = int(samples[network.cell(points[0])]) - int(samples[network.cell(outlet)])
    minutes = 0.0195 * length**0.77 * (fall / length) ** -0.385 if length and fall > 0 else float("inf") if length else 0.0
    return PathFigures(points, length, fall, minutes)


@dataclass(frozen=True)
class Earthwork:
    """What an edit digs and heaps."""

    cut: float
    """Cubic metres that are taken away."""
    fill: float
    """Cubic metres that are heaped up."""


def earthwork(before: Mapping[Point, int], after: Mapping[Point, int], side: int) -> Earthwork:
    """The cut and the fill between the heights of points before and after; those that one of them lacks count in neither."""
    areas = {point: cell_area(point.y, side) for point in before.keys() & after.keys()}
    changes = [(after[point] - before[point]) * area for point, area in areas.items()]
    return Earthwork(math.fsum(-change for change in changes if change < 0), math.fsum(change for change in changes if change > 0))


def runs_of(mask: Array, window: Window) -> list[Run]:
    """The points of a mask of a window as maximal runs, from the north, then from the west."""
    return merged_runs(runs_in(mask.astype("int8") - 1, window), 1)[0]


def widened(points: Sequence[Point], width: int) -> list[Point]:
    """The points of a line, and those at most (width - 1) // 2 steps from them each way, each once."""
    if width < 1 or width % 2 == 0:
        raise BadArgument("a width is an odd number of points")
    reach = range(-(width // 2), width // 2 + 1)
    return list(dict.fromkeys(Point(y + north, x + east) for y, x in points for north in reach for east in reach))


def most_over(drawn: Iterable[tuple[Sequence[Point], int]], width: int) -> dict[Point, int]:
    """The points of lines of a width, each with the greatest of the metres of the lines over it."""
    amounts: dict[Point, int] = {}
    for points, metres in drawn:
        amounts.update((point, max(metres, amounts.get(point, metres))) for point in widened(points, width))
    return amounts


def without_voids(samples: Array, void: Array, most: int) -> Array:
    """Samples in which each void has the mean of the heights on its rim, by the inverse square of the distance in points.

    Of each part of voids that hangs together; one that reaches the samples' edge, or has more than `most` points, is left.
    Heights of the rim are those before it, so that the parts' order makes no difference.
    """
    numpy = needed_numpy()
    given = samples.copy()
    at_edge = reaching(void & ring(void.shape), void, numpy.zeros(void.shape, numpy.int8))
    for part in _parts(void & ~at_edge):
        if len(part) <= most:
            rows, columns = numpy.divmod(part, samples.shape[1])
            given[rows, columns] = _interpolated(samples, rows, columns)
    return given


def tile_without_voids(data: bytes, most: int) -> tuple[bytes, int]:
    """The HGT bytes of a tile `without_voids`, and how many voids have got a height."""
    samples = array_of(data)
    void = samples == VOID
    given = without_voids(samples, void, most)
    return bytes_of(given), int((void & (given != VOID)).sum())


def filled_voids(
    session: Session, window: Window, most: int = 10_000, saved: Callable[[str, bytes], None] = lambda name, data: None
) -> list[Run]:
    """Gives the voids of a window heights as `without_voids` does; those that got one.

    Each tile that has some is taken out, and imported again with its new heights: two commands, however many voids there are.
    Inside a trial what fails in between is taken back. Before a tile is taken out `saved` is told its name and its new HGT
    bytes, to be imported where this process ends in between.
    """
    numpy = needed_numpy()
    heights = heights_of(session, window)
    void = heights.held & (heights.samples == VOID)
    given = without_voids(heights.samples, void, most)
    is_filled = void & (given != VOID)
    for corner in heights.corners:
        own = corner.window(session.side)
        common = own.met(window)
        if common is not None and is_filled[part := place_in(window, common)].any():
            samples = session.tile(corner.name)
            numpy.copyto(samples[place_in(own, common)], given[part], where=is_filled[part])
            data = bytes_of(samples)
            saved(corner.name, data)
            session.remove(corner.name)
            session.import_tile(corner.name, data)
    return runs_of(is_filled, window)


def _parts(mask: Array) -> list[Array]:
    """The cells of a mask, part by part as they hang together, diagonals included."""
    numpy = needed_numpy()
    width = mask.shape[1]
    left = set(numpy.flatnonzero(mask).tolist())
    parts = []
    while left:
        part = [left.pop()]
        for cell in part:
            column = cell % width
            for north, east in STEPS:
                beside = cell - north * width + east
                if 0 <= column + east < width and beside in left:
                    left.discard(beside)
                    part.append(beside)
        parts.append(numpy.array(part))
    return parts


def _interpolated(samples: Array, rows: Array, columns: Array) -> Array:
    """Heights for voids: of the ground around them, weighted by the inverse square of the distance."""
    numpy = needed_numpy()
    near = {(r + north, c + east) for r, c in zip(rows.tolist(), columns.tolist()) for north, east in STEPS}
    rim = numpy.array([(r, c) for r, c in sorted(near) if samples[r, c] != VOID]).reshape(-1, 2)
    if not rim.size:
        return numpy.full(rows.shape, VOID, samples.dtype)
    values = samples[rim[:, 0], rim[:, 1]].astype(float)
    found = numpy.empty(rows.shape, samples.dtype)
    for at in range(0, len(rows), _DISTANCES_AT_ONCE):
        own = slice(at, at + _DISTANCES_AT_ONCE)
        near_by = 1 / ((rows[own, None] - rim[:, 0]) ** 2 + (columns[own, None] - rim[:, 1]) ** 2)
        found[own] = ((values * near_by).sum(1) / near_by.sum(1)).round()
    return found
