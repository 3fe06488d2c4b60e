"""Culverts: where roads cross streams and dam them, the least cut through each that lets the water go. They need numpy.

Water that stands before a road runs off once a way through it is no higher than the ground that it stands on. Of the ways to
ground that drains lower the one is taken that takes the least cut, as in least-cost breaching (Lindsay and Dhun 2015).
"""

from __future__ import annotations

import heapq
import math
from collections.abc import Iterable, Iterator, Sequence
from dataclasses import dataclass

from .ellipsoid import cell_area, degree
from .lattice import VOID, Point, Window
from .rasters import STEPS, heights_of, levels_of
from .session import Session

_STRAIGHT, _DIAGONAL = 5, 7
"""How long steps are, one to the other."""

_PASSED = 2
"""How many points a drawn stream may lie beside the store's."""


@dataclass(frozen=True)
class Culvert:
    """A cut through a road, from the lowest point of the water before it."""

    points: list[Point]
    """From the water to where it runs off."""
    depths: dict[Point, int]
    """How deep each point is cut in metres; those that are low enough are left out."""
    ground: int
    """The height of its first point in metres: after the cut it is its level."""
    level: int
    """How high the water stands there before it, in metres."""

    def volume(self, side: int) -> float:
        """The volume cut, in cubic metres."""
        return math.fsum(depth * cell_area(point.y, side) for point, depth in self.depths.items())

    def length(self, side: int) -> float:
        """In metres."""
        north, east = (metres / (side - 1) for metres in degree(self.points[0].y / (side - 1)))
        return math.fsum(math.hypot((b.y - a.y) * north, (b.x - a.x) * east) for a, b in zip(self.points, self.points[1:]))


def crossings(roads: Iterable[Point], streams: Iterable[Point]) -> list[Point]:
    """Where roads cross streams, a point of each crossing, from the south: points of both that touch are one crossing."""
    left = set(roads) & set(streams)
    found = []
    for start in sorted(left):
        if start not in left:
            continue
        part = [start]
        left.discard(start)
        for y, x in part:
            beside = {Point(y + north, x + east) for north, east in STEPS} & left
            left -= beside
            part += sorted(beside)
        found.append(part[len(part) // 2])
    return found


def culvert_at(session: Session, crossing: Point, streams: set[Point], reach: int) -> Culvert | None:
    """The culvert at a crossing, within `reach` steps of it; None where no water stands beside it.

    ValueError where none of the points there drains as low as the ground under the water.
    """
    window = Window(crossing.y - reach, crossing.x - reach, crossing.y + reach, crossing.x + reach)
    heights = heights_of(session, window)
    levels = levels_of(session, heights)
    ground = dict(_valued(window, heights.samples.tolist()))
    level = dict(_valued(window, levels.tolist()))
    wet = [point for point, height in ground.items() if level[point] > height and _is_near(point, streams)]
    if not wet:
        return None
    start = min(wet, key=lambda at: (ground[at] - level[at], max(abs(at.y - crossing.y), abs(at.x - crossing.x)), at))
    way = _least_cut(start, ground, level)
    depths = {point: ground[point] - ground[start] for point in way if ground[point] > ground[start]}
    return Culvert(way, depths, ground[start], level[start])


def _is_near(point: Point, streams: set[Point]) -> bool:
    beside = range(-_PASSED, _PASSED + 1)
    return any((point.y + north, point.x + east) in streams for north in beside for east in beside)


def _valued(window: Window, rows: Sequence[Sequence[int]]) -> Iterator[tuple[Point, int]]:
    """The points of a window that have a value."""
    for row, values in enumerate(rows):
        for column, value in enumerate(values):
            if value != VOID:
                yield Point(window.y1 - row, window.x0 + column), value


def _least_cut(start: Point, ground: dict[Point, int], level: dict[Point, int]) -> list[Point]:
    """The way from a point to one that drains as low as its ground, with the least to cut to that height; of these the shortest."""
    least = {start: (0, 0)}
    before: dict[Point, Point] = {}
    waiting = [(0, 0, start)]
    while waiting:
        cut, length, at = heapq.heappop(waiting)
        if level[at] <= ground[start]:
            way = [at]
            while way[-1] != start:
                way.append(before[way[-1]])
            return way[::-1]
        for north, east in STEPS if (cut, length) == least[at] else ():
            to = Point(at.y + north, at.x + east)
            if to in ground:
                onward = cut + max(0, ground[to] - ground[start]), length + (_DIAGONAL if north and east else _STRAIGHT)
                if onward < least.get(to, (math.inf, 0)):
                    least[to], before[to] = onward, at
                    heapq.heappush(waiting, (*onward, to))
    raise ValueError(f"no point there drains as low as {ground[start]} m")
