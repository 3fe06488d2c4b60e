"""Moving an outlet to the stream beside it: a place given by hand misses the cells of a stream by a few."""

from __future__ import annotations

from typing import TYPE_CHECKING

from .directions import directions_at
from .lattice import Point, Window
from .samples import needed_numpy
from .session import Session

if TYPE_CHECKING:
    from .samples import Array

FARTHEST = 50
"""The most steps that an outlet is moved."""


def snapped(session: Session, point: Point, reach: int) -> Point:
    """Of the points within `reach` steps of a point, the one that most points drain to; the nearest among equals.

    Water that crosses these points leaves them somewhere, and most drains to where it does. So only the points that
    lead out of them are asked for their watersheds. The point itself where none of them is ground.
    """
    y, x = point
    window = Window(y - reach, x - reach, y + reach, x + reach)
    ways = ((at, way.onward(at)) for at, way in directions_at(session, list(window.points())).items())
    ends = [at for at, onward in ways if onward is None or not window.holds(onward)]
    sizes = {at: session.watershed(*at).cells for at in ends}
    return min(sizes, key=lambda at: (-sizes[at], max(abs(at.y - point.y), abs(at.x - point.x))), default=point)


def nearest_stream(counts: Array, window: Window, point: Point, threshold: int) -> Point:
    """Of the points of a window that `threshold` points and more drain through, the one nearest to a point.

    Of several the one that most drain through; the point itself where there is none.
    """
    numpy = needed_numpy()
    rows, columns = numpy.nonzero(counts >= threshold)
    if not rows.size:
        return point
    ys, xs = window.y1 - rows, window.x0 + columns
    steps = numpy.maximum(abs(ys - point.y), abs(xs - point.x))
    first = numpy.lexsort((-counts[rows, columns], steps))[0]
    return Point(int(ys[first]), int(xs[first]))
