"""Windows of a store as numpy arrays: heights, filled levels, standing water.

Arrays have the north row first and the western column first. They need numpy.
"""

from __future__ import annotations

import functools
from collections.abc import Callable, Sequence
from dataclasses import dataclass
from typing import TYPE_CHECKING

from .ellipsoid import row_areas
from .errors import BadArgument, BadReply, Refusal
from .lattice import VOID, Corner, Window, corner_of, corners_named
from .questions import Fill, Question
from .samples import needed_numpy
from .session import Session

if TYPE_CHECKING:
    from .samples import Array

NO_DIRECTION = 255
"""Stands for no direction, where a point isn't ground."""

STEPS = ((0, 1), (-1, 1), (-1, 0), (-1, -1), (0, -1), (1, -1), (1, 0), (1, 1))
"""The eight steps in y and x, in the order of directions from the east clockwise."""

_ASKED_AT_ONCE = 2048

_WORTH_A_TILE = 32
"""By lines a point of a window costs as much as so many samples of a whole tile."""

Told = Callable[[int, int], None]
"""Is called with the number of answered questions, and of all."""


@dataclass(frozen=True)
class Heights:
    """The heights of a window, thinned to each `every`-th row and column."""

    window: Window
    side: int
    every: int
    ys: Array
    """The y of each row, falling: int64 of shape (rows,)."""
    xs: Array
    """The x of each column, rising: int64 of shape (columns,)."""
    samples: Array
    """The heights in metres by the seam rule, int16 of shape (rows, columns); -32768 where the point is void or outside."""
    held: Array
    """Whether some tile has the point: bool of that shape."""
    corners: tuple[Corner, ...]
    """The present tiles, in order."""

    @property
    def ground(self) -> Array:
        """Whether the point has a height: bool of that shape."""
        return self.samples != VOID

    def cell(self, point: tuple[int, int]) -> int:
        """The number of a point's cell, by rows from the north-west, in an array of all points. BadArgument off the
        window."""
        window = self.window
        if not window.holds(point):
            raise BadArgument(f"the point {point[0]} {point[1]} lies off the window")
        return (window.y1 - point[0]) * window.width + point[1] - window.x0

    def cell_areas(self) -> Array:
        """The area of each cell in square metres by its latitude: float64 of shape (rows, 1)."""
        return row_areas(self.ys, self.side)[:, None] * self.every**2


def heights_of(session: Session, window: Window, every: int = 1) -> Heights:
    """The heights of a window, by an export of each tile that reaches into it."""
    numpy = needed_numpy()
    side = session.side
    ys = numpy.arange(window.y1, window.y0 - 1, -every)
    xs = numpy.arange(window.x0, window.x1 + 1, every)
    samples = numpy.full((len(ys), len(xs)), VOID, numpy.int16)
    held = numpy.zeros(samples.shape, bool)
    corners = tuple(corners_named(session.tiles()))
    for corner in corners:
        lay(functools.partial(session.tile, corner.name), corner.window(side), ys, xs, samples, held)
    return Heights(window, side, every, ys, xs, samples, held, corners)


def tile_of(session: Session, name: str) -> Heights:
    """The heights of a tile's window. A refusal of `export` if there is no such tile."""
    session.export(name)
    corner = corner_of(name)
    if corner is None:
        raise BadReply(f"{name} was exported, and is no tile's name")
    return heights_of(session, corner.window(session.side))


def lay(
    tile: Callable[[], Array],
    window: Window,
    ys: Array,
    xs: Array,
    samples: Array,
    held: Array,
    every: int = 1,
    nothing: int = VOID,
) -> None:
    """Lays a tile on equally distant rows and columns of points, the tiles in their order: what one before has laid stays, but for
    `nothing`.

    `tile` answers each `every`-th of the samples each way, and is asked where some of the points lie in its window.
    """
    numpy = needed_numpy()
    place = _overlap(window, ys, xs)
    if place is None:
        return
    rows, columns = window.y1 - ys[place[0]], xs[place[1]] - window.x0
    own = tile()[_places(rows, every)][:, _places(columns, every)]
    laid = samples[place]
    numpy.copyto(laid, own, where=laid == nothing)
    held[place] = True


def place_in(window: Window, part: Window) -> tuple[slice, slice]:
    """The part of an array of a window that has another window's points."""
    first, left = window.y1 - part.y1, part.x0 - window.x0
    return slice(first, first + part.height), slice(left, left + part.width)


def _overlap(window: Window, ys: Array, xs: Array) -> tuple[slice, slice] | None:
    """Which of some rows and columns of points are in a window; None if no point is."""
    numpy = needed_numpy()
    rows = numpy.flatnonzero((ys <= window.y1) & (ys >= window.y0))
    columns = numpy.flatnonzero((xs >= window.x0) & (xs <= window.x1))
    if not rows.size or not columns.size:
        return None
    return slice(rows[0], rows[-1] + 1), slice(columns[0], columns[-1] + 1)


def _places(at: Array, every: int) -> slice | Array:
    """Where each `every`-th of some samples lies, for equally distant ones: a slice where each of them is one of those."""
    if every > 1:
        return at // every
    return slice(int(at[0]), int(at[-1]) + 1, int(at[1] - at[0]) if at.size > 1 else 1)


def levels_of(session: Session, heights: Heights, told: Told | None = None) -> Array:
    """The filled level of each ground point in metres, int32 of the heights' shape, -32768 elsewhere.

    Few questions do. A point that lies beside one that isn't higher has the greater of its own height and that one's
    level: water that leaves from one reaches the other first. So only the pits of the window are asked for. Where whole tiles
    are told at once, and the window is a good part of them, these are asked for.
    """
    numpy = needed_numpy()
    if asks_whole_tiles(session, heights):
        return whole_tiles(session.levels, heights, VOID, "int32", told)
    pits = _pits(heights)
    ground = heights.ground.ravel()
    asked, place = numpy.unique(pits[ground], return_inverse=True)
    points = points_of(heights, asked)
    answers = numpy.array(asked_of(session, [Fill(y, x) for y, x in points], told), numpy.int32).reshape(-1)
    levels = numpy.full(ground.shape, VOID, numpy.int32)
    levels[ground] = numpy.maximum(answers[place], heights.samples.ravel()[ground])
    return levels.reshape(heights.samples.shape)


def asks_whole_tiles(session: Session, heights: Heights) -> bool:
    """Whether whole tiles answer for a window sooner than questions about its points."""
    if heights.every != 1:
        raise BadReply("water is asked for in windows that aren't thinned")
    worth = _WORTH_A_TILE * heights.samples.size >= len(_covering(heights)) * heights.side**2
    return worth and session.takes_whole_tiles


def whole_tiles(ask: Callable[[str], Array], heights: Heights, nothing: int, kind: str, told: Told | None) -> Array:
    """The answers of `ask` about the samples of each tile, on a window, as an array of a kind; `nothing` for a point
    without a tile."""
    numpy = needed_numpy()
    found = numpy.full(heights.samples.shape, nothing, kind)
    held = numpy.zeros(found.shape, bool)
    covering = _covering(heights)
    for number, corner in enumerate(covering, 1):
        lay(functools.partial(ask, corner.name), corner.window(heights.side), heights.ys, heights.xs, found, held, nothing=nothing)
        if told is not None:
            told(number, len(covering))
    return found


def _covering(heights: Heights) -> list[Corner]:
    """Tiles that together have all of a window's points that any tile has: those with most of it first."""
    numpy = needed_numpy()
    held = numpy.zeros(heights.samples.shape, bool)
    places = {corner: _overlap(corner.window(heights.side), heights.ys, heights.xs) for corner in heights.corners}
    reached = [(corner, held[place]) for corner, place in places.items() if place is not None]
    covering = []
    for corner, part in sorted(reached, key=lambda pair: -pair[1].size):
        if not part.all():
            part[:] = True
            covering.append(corner)
    return covering


def depths_of(heights: Heights, levels: Array) -> Array:
    """The depth of standing water in metres, int32: the filled level less the height; -32768 for a point without a
    height."""
    numpy = needed_numpy()
    return numpy.where(heights.ground, levels - heights.samples.astype(numpy.int32), VOID)


def points_of(heights: Heights, cells: Array) -> list[tuple[int, int]]:
    """The points of cells, which are numbered by rows."""
    rows, columns = divmod(cells, len(heights.xs))
    return list(zip(heights.ys[rows].tolist(), heights.xs[columns].tolist()))


def asked_of(session: Session, asked: Sequence[Question[int]], told: Told | None) -> list[int]:
    """The answers to questions, some thousand at a time; a refusal is raised."""
    answers: list[int] = []
    for at in range(0, len(asked), _ASKED_AT_ONCE):
        for answer in session.ask_many(asked[at : at + _ASKED_AT_ONCE]):
            if isinstance(answer, Refusal):
                raise answer
            answers.append(answer)
        if told is not None:
            told(len(answers), len(asked))
    return answers


def _pits(heights: Heights) -> Array:
    """For each cell the number of the cell at which a walk to ever lower neighbours ends; among equal neighbours the
    first is taken."""
    numpy = needed_numpy()
    shape = heights.samples.shape
    size = heights.samples.size
    order = heights.samples.astype(numpy.int64) * size + numpy.arange(size).reshape(shape)
    lowest = order.copy()
    for step in STEPS:
        here, there = shifted(shape, step)
        joined = adjacent(heights, here, step) & heights.ground[here] & heights.ground[there]
        lowest[here] = numpy.where(joined & (order[there] < lowest[here]), order[there], lowest[here])
    ahead = (lowest % size).ravel()
    while not numpy.array_equal(further := ahead[ahead], ahead):
        ahead = further
    return ahead


def ring(shape: tuple[int, ...]) -> Array:
    """The outermost cells of a window: bool of its shape."""
    numpy = needed_numpy()
    found = numpy.ones(shape, bool)
    found[1:-1, 1:-1] = False
    return found


def grown(mask: Array) -> Array:
    """A mask with the eight neighbours of each of its cells."""
    numpy = needed_numpy()
    found = mask.copy()
    for step in STEPS:
        here, there = shifted(mask.shape, step)
        numpy.logical_or(found[here], mask[there], out=found[here])
    return found


def shifted(shape: tuple[int, ...], step: tuple[int, int]) -> tuple[tuple[slice, slice], tuple[slice, slice]]:
    """The cells that have a neighbour in the window by a step in y and x, and these neighbours."""
    (height, width), (north, east) = shape, step
    rows = slice(max(0, north), height + min(0, north))
    columns = slice(max(0, -east), width - max(0, east))
    there = slice(rows.start - north, rows.stop - north), slice(columns.start + east, columns.stop + east)
    return (rows, columns), there


def adjacent(heights: Heights, here: tuple[slice, slice], step: tuple[int, int]) -> Array:
    """Whether one tile has both a cell and its neighbour by a step."""
    numpy = needed_numpy()
    reach = heights.side - 1
    present = set(heights.corners)
    latitudes = _shared(heights.ys[here[0]], step[0], reach)
    longitudes = _shared(heights.xs[here[1]], step[1], reach)
    joined = numpy.zeros((len(heights.ys[here[0]]), len(heights.xs[here[1]])), bool)
    for latitude in numpy.unique(latitudes):
        for longitude in numpy.unique(longitudes):
            if Corner(int(latitude), int(longitude)) in present:
                rows = (latitudes == latitude).any(0)
                columns = (longitudes == longitude).any(0)
                joined |= numpy.outer(rows, columns)
    return joined


def _shared(at: Array, step: int, reach: int) -> Array:
    """Of coordinates and those a step away, the one or two tiles' degrees that hold both: of shape (2, n)."""
    numpy = needed_numpy()
    first = numpy.minimum(at, at + step) // reach
    second = first - ((at % reach == 0) if step == 0 else 0)
    return numpy.stack([first, second])
