"""Drawn lines as points of the lattice."""

from __future__ import annotations

from collections.abc import Iterator, Sequence

from .lattice import MOST_POINTS, Point


def points_along(corners: Sequence[Point]) -> list[Point]:
    """The points of a line through some corners, each once, in order.

    Two points that follow each other lie side by side, never corner to corner: water flows by diagonal steps too, and
    would pass between two points of a wall that touch at their corners.
    """
    points: dict[Point, None] = {}
    for start, end in zip(corners, corners[1:]):
        points.update(dict.fromkeys(_straight(start, end)))
    if len(corners) == 1:
        points[corners[0]] = None
    return list(points)


def _straight(start: Point, end: Point) -> Iterator[Point]:
    """The points that a straight line passes, both ends included, by steps along one axis."""
    (y, x), (last_y, last_x) = start, end
    height, width = abs(last_y - y), abs(last_x - x)
    up, right = (1 if last_y > y else -1), (1 if last_x > x else -1)
    done_y = done_x = 0
    yield Point(y, x)
    while done_y < height or done_x < width:
        # The next step is along the axis of which less is done, relative to its whole length.
        if (2 * done_x + 1) * height < (2 * done_y + 1) * width:
            x, done_x = x + right, done_x + 1
        else:
            y, done_y = y + up, done_y + 1
        yield Point(y, x)


def commands(points: Sequence[Point]) -> Iterator[Sequence[Point]]:
    """The points, as many at a time as one command may name."""
    for first in range(0, len(points), MOST_POINTS):
        yield points[first : first + MOST_POINTS]
