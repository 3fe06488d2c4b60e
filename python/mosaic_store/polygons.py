"""Polygons around sets of points, each point a cell of one by one about it.

Rings stand in corners of cells, whole numbers: the cell of the point (y, x) reaches from corner x to x + 1 eastwards and
from y to y + 1 northwards, so that a corner lies half a point south and west of the point of its numbers. Outer rings
run counter-clockwise and holes clockwise, as RFC 7946 has it. No ring comes to a corner twice; cells that touch at a
corner alone are polygons of their own. The area of the polygons is the number of cells.
"""

from __future__ import annotations

from collections.abc import Iterable, Iterator, Sequence
from dataclasses import dataclass

from .lattice import Run

Vertex = tuple[int, int]
"""A corner of cells, east then north."""

Ring = list[Vertex]
"""The corners of a ring, the first once more at the end."""


@dataclass
class Polygon:
    """An outer ring and its holes."""

    outer: Ring
    holes: list[Ring]

    @property
    def rings(self) -> list[Ring]:
        """All rings, the outer one first."""
        return [self.outer, *self.holes]

    @property
    def cells(self) -> int:
        """How many cells it has."""
        return sum(map(doubled_area, self.rings)) // 2


def polygons_of(runs: Sequence[Run]) -> list[Polygon]:
    """The polygons of the points of some runs, which are maximal and in any order: one for each part connected by sides
    of cells."""
    rows = _rows(runs)
    parts = _Parts(rows)
    outers: dict[int, Polygon] = {}
    holes: list[tuple[int, Ring]] = []
    for ring in _rings(rows):
        part = parts.left_of(ring[0], ring[1])
        corners = _without_straight(ring)
        if doubled_area(corners) > 0:
            outers[part] = Polygon(corners, [])
        else:
            holes.append((part, corners))
    for part, ring in holes:
        outers[part].holes.append(ring)
    return list(outers.values())


def doubled_area(ring: Ring) -> int:
    """Twice the area of a ring: positive if the ring goes counter-clockwise."""
    return sum(a[0] * b[1] - b[0] * a[1] for a, b in zip(ring, ring[1:]))


Spans = list[tuple[int, int]]


def _rows(runs: Iterable[Run]) -> dict[int, Spans]:
    """Of each row its spans of cells, from corner to corner, from the west."""
    rows: dict[int, Spans] = {}
    for y, first, last in runs:
        rows.setdefault(y, []).append((first, last + 1))
    for spans in rows.values():
        spans.sort()
    return rows


class _Parts:
    """The parts of a set of cells that hang together by sides, each known by one of its spans."""

    def __init__(self, rows: dict[int, Spans]) -> None:
        self._rows = rows
        self._base: dict[int, int] = {}
        count = 0
        for y, spans in rows.items():
            self._base[y] = count
            count += len(spans)
        self._parent = list(range(count))
        for y, spans in rows.items():
            if y + 1 in rows:
                for below, above in _overlaps(spans, rows[y + 1]):
                    self._join(self._base[y] + below, self._base[y + 1] + above)

    def left_of(self, start: Vertex, end: Vertex) -> int:
        """The part of the cell on the left of an edge of one cell's length."""
        (x, y), (u, v) = start, end
        if x == u:
            row, column = min(y, v), x - 1 if v > y else x
        else:
            row, column = y if u > x else y - 1, min(x, u)
        spans = self._rows[row]
        low, high = 0, len(spans) - 1
        while low < high:
            middle = (low + high + 1) // 2
            low, high = (middle, high) if spans[middle][0] <= column else (low, middle - 1)
        return self._find(self._base[row] + low)

    def _find(self, at: int) -> int:
        while self._parent[at] != at:
            self._parent[at] = self._parent[self._parent[at]]
            at = self._parent[at]
        return at

    def _join(self, one: int, other: int) -> None:
        self._parent[self._find(one)] = self._find(other)


def _overlaps(below: Spans, above: Spans) -> Iterator[tuple[int, int]]:
    """The indices of the spans of two rows that have a column in common."""
    i = j = 0
    while i < len(below) and j < len(above):
        if below[i][0] < above[j][1] and above[j][0] < below[i][1]:
            yield i, j
        if below[i][1] < above[j][1]:
            i += 1
        else:
            j += 1


def _rings(rows: dict[int, Spans]) -> Iterator[Ring]:
    """All rings, step by step from corner to corner, with cells on the left; no ring visits a corner twice."""
    ahead = _edges(rows)
    for start in list(ahead):
        walk, places = [start], {start: 0}
        at = start
        while at in ahead:
            at = _next(ahead, walk)
            if at not in places:
                places[at] = len(walk)
                walk.append(at)
                continue
            ring = walk[places[at] :]
            for corner in ring[1:]:
                del places[corner]
            del walk[places[at] + 1 :]
            yield [*ring, at]


def _next(ahead: dict[Vertex, list[Vertex]], walk: Ring) -> Vertex:
    """Takes an edge from the end of a walk. If there are two, it turns left, and so stays with the same cells."""
    x, y = walk[-1]
    ends = ahead[x, y]
    left = (x + walk[-2][1] - y, y + x - walk[-2][0]) if len(walk) > 1 else ends[0]
    end = ends.pop(ends.index(left) if left in ends else 0)
    if not ends:
        del ahead[x, y]
    return end


def _edges(rows: dict[int, Spans]) -> dict[Vertex, list[Vertex]]:
    """The edges of one cell's length between cells and outside, cells on the left: for each corner the corners that they
    lead to."""
    ahead: dict[Vertex, list[Vertex]] = {}
    for y, spans in rows.items():
        for west, east in spans:
            ahead.setdefault((west, y + 1), []).append((west, y))
            ahead.setdefault((east, y), []).append((east, y + 1))
        for west, east in _difference(spans, rows.get(y - 1, [])):
            for x in range(west, east):
                ahead.setdefault((x, y), []).append((x + 1, y))
        for west, east in _difference(spans, rows.get(y + 1, [])):
            for x in range(west, east):
                ahead.setdefault((x + 1, y + 1), []).append((x, y + 1))
    return ahead


def _difference(spans: Spans, others: Spans) -> Iterator[tuple[int, int]]:
    """The parts of spans that no other span covers."""
    at = 0
    for west, east in spans:
        while at < len(others) and others[at][1] <= west:
            at += 1
        start, next_at = west, at
        while next_at < len(others) and others[next_at][0] < east:
            if start < others[next_at][0]:
                yield start, others[next_at][0]
            start = others[next_at][1]
            next_at += 1
        if start < east:
            yield start, east


def _without_straight(ring: Ring) -> Ring:
    """A ring without the corners at which it doesn't turn."""
    steps = [(b[0] - a[0], b[1] - a[1]) for a, b in zip(ring, ring[1:])]
    before = [steps[-1], *steps[:-1]]
    corners = [corner for corner, back, on in zip(ring, before, steps) if back != on]
    return [*corners, corners[0]]
