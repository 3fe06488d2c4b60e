"""Directions of a window from its filled levels, by the program's own rules: the steepest drop, then outlets, then flats.

A point with a lower neighbour drains to the steepest; otherwise it is an outlet where water leaves the mosaic, and
otherwise it lies on a flat, and drains to the first neighbour, in the order of directions, that is nearer to an end of the
flat. Flats are resolved by waves from their ends (Barnes, Lehman and Mulla 2014). Only points of flats that reach beyond
the window are asked of the program. Where whole tiles are told at once they are asked for instead. They need numpy.
"""

from __future__ import annotations

from collections.abc import Sequence
from typing import TYPE_CHECKING

from .errors import Outside, Void
from .lattice import Direction, Point, Window
from .questions import FlowDirection
from .rasters import (
    NO_DIRECTION,
    STEPS,
    Heights,
    Told,
    adjacent,
    asked_of,
    asks_whole_tiles,
    heights_of,
    levels_of,
    points_of,
    ring,
    shifted,
    whole_tiles,
)
from .samples import needed_numpy
from .session import Session

if TYPE_CHECKING:
    from .samples import Array


def directions_at(session: Session, points: Sequence[Point]) -> dict[Point, Direction]:
    """The direction of each of the points that is ground. Those outside or void are left out; any other refusal is raised."""
    found = {}
    for point, direction in zip(points, session.pipeline(FlowDirection(*point) for point in points)):
        if isinstance(direction, Direction):
            found[point] = direction
        elif not isinstance(direction, (Outside, Void)):
            raise direction
    return found


def directions_of(session: Session, heights: Heights, told: Told | None = None) -> Array:
    """The direction code of each ground point, uint8 of the heights' shape; 255 elsewhere."""
    if asks_whole_tiles(session, heights):
        return whole_tiles(session.directions, heights, NO_DIRECTION, "uint8", told)
    return levels_and_directions(session, heights, told)[1]


def levels_and_directions(session: Session, heights: Heights, told: Told | None = None) -> tuple[Array, Array]:
    """What `levels_of` and `directions_of` answer, with the levels found once."""
    numpy = needed_numpy()
    if asks_whole_tiles(session, heights):
        return levels_of(session, heights), directions_of(session, heights, told)
    around = heights_of(session, _grown(heights.window))
    levels = levels_of(session, around, told)
    codes, members = _local(session, around, levels)
    unknown = reaching(ring(levels.shape) & around.ground, members, levels)
    codes[members & ~unknown] = _waves(codes, members & ~unknown, levels)
    inner = (slice(1, -1), slice(1, -1))
    found = codes[inner].copy()
    asked = numpy.flatnonzero((members & unknown)[inner].ravel())
    answers = asked_of(session, [FlowDirection(y, x) for y, x in points_of(heights, asked)], told)
    found.ravel()[asked] = numpy.array([int(answer) for answer in answers], numpy.uint8)
    return levels[inner].copy(), found


def _grown(window: Window) -> Window:
    return Window(window.y0 - 1, window.x0 - 1, window.y1 + 1, window.x1 + 1)


def _local(session: Session, heights: Heights, levels: Array) -> tuple[Array, Array]:
    """The codes of points that have a lower neighbour or are outlets, and which points are members of flats.

    What is found of the outermost points isn't right, as their neighbours aren't all known.
    """
    numpy = needed_numpy()
    shape = levels.shape
    drops = numpy.zeros((2, *shape), numpy.int64)
    steps = numpy.zeros((2, *shape), numpy.uint8)
    degree = numpy.zeros(shape, numpy.uint8)
    for number, step in enumerate(STEPS):
        here, there = shifted(shape, step)
        joined = adjacent(heights, here, step) & heights.ground[here] & heights.ground[there]
        degree[here] += joined
        drop = numpy.where(joined, levels[here].astype(numpy.int64) - levels[there], 0)
        kind = number % 2
        steeper = drop > drops[kind][here]
        drops[kind][here] = numpy.where(steeper, drop, drops[kind][here])
        steps[kind][here] = numpy.where(steeper, number, steps[kind][here])
    straight, diagonal = drops
    steepest = numpy.where(2 * straight * straight > diagonal * diagonal, steps[0], steps[1])
    falls = (straight > 0) | (diagonal > 0)
    outlets = heights.ground & ~falls & ((degree < 8) | _sinks(session, heights))
    codes = numpy.full(shape, NO_DIRECTION, numpy.uint8)
    codes[falls] = numpy.left_shift(numpy.uint8(1), steepest[falls].astype(numpy.uint8))
    codes[outlets] = 0
    return codes, heights.ground & ~falls & ~outlets


def _sinks(session: Session, heights: Heights) -> Array:
    numpy = needed_numpy()
    sinks = numpy.zeros(heights.samples.shape, bool)
    window = heights.window
    for y, x in session.sinks():
        if window.holds((y, x)):
            sinks[window.y1 - y, x - window.x0] = True
    return sinks


def _padded(array: Array, value: int) -> tuple[Array, list[int]]:
    """An array by rows with a ring of a value around it, and the distances in it between a cell and its eight neighbours."""
    numpy = needed_numpy()
    padded = numpy.pad(array, 1, constant_values=value)
    return padded.ravel(), [east - north * padded.shape[1] for north, east in STEPS]


def reaching(starts: Array, members: Array, levels: Array) -> Array:
    """Some points, and the members that reach one of them over members of its level, diagonals included."""
    numpy = needed_numpy()
    level, steps = _padded(levels, 0)
    waiting, _ = _padded((members & ~starts).astype(numpy.uint8), 0)
    reached, _ = _padded(starts.astype(numpy.uint8), 0)
    front = numpy.flatnonzero(reached)
    while front.size:
        found = [front[(waiting[front + step] == 1) & (level[front + step] == level[front])] + step for step in steps]
        front = numpy.unique(numpy.concatenate(found))
        waiting[front] = 0
        reached[front] = 1
    return reached.reshape(levels.shape[0] + 2, -1)[1:-1, 1:-1].astype(bool)


def _waves(codes: Array, members: Array, levels: Array) -> Array:
    """The codes of the members of flats, wave after wave: the first by their neighbours at an end of their level."""
    numpy = needed_numpy()
    level, steps = _padded(levels, 0)
    waiting, _ = _padded(members.astype(numpy.uint8), 0)
    ends, _ = _padded(((codes != NO_DIRECTION) & ~members).astype(numpy.uint8), 0)
    code, _ = _padded(codes, NO_DIRECTION)
    places = numpy.flatnonzero(waiting)
    _lead(code, places, [ends[places + step].astype(bool) & (level[places + step] == level[places]) for step in steps])
    front = places[code[places] != NO_DIRECTION]
    while front.size:
        waiting[front] = 0
        reached = numpy.unique(numpy.concatenate([front + step for step in steps]))
        reached = reached[waiting[reached] == 1]
        _lead(code, reached, [(waiting[reached + step] == 0) & (level[reached + step] == level[reached]) for step in steps])
        front = reached
    return code[places]


def _lead(code: Array, places: Array, leads: list[Array]) -> None:
    """Gives each place the first direction of those that lead on."""
    for number in range(len(leads) - 1, -1, -1):
        code[places[leads[number]]] = 1 << number
