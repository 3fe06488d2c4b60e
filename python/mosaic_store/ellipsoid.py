"""Lengths and areas on the ellipsoid of WGS 84, by its two radii of curvature at a latitude."""

from __future__ import annotations

import math
from typing import TYPE_CHECKING

from .samples import needed_numpy

if TYPE_CHECKING:
    from .samples import Array

_EQUATOR = 6_378_137.0
"""Its radius at the equator in metres."""

_FLATTENING = 1 / 298.257_223_563
_ECCENTRICITY = _FLATTENING * (2 - _FLATTENING)
"""The square of its first eccentricity."""


def degree(latitude: float) -> tuple[float, float]:
    """How many metres a degree has at a latitude: to the north, and to the east."""
    curved = 1 - _ECCENTRICITY * math.sin(math.radians(latitude)) ** 2
    east = _EQUATOR / math.sqrt(curved)
    return math.radians(east * (1 - _ECCENTRICITY) / curved), math.radians(east * math.cos(math.radians(latitude)))


def cell_area(y: int, side: int) -> float:
    """The area of a point's cell in square metres; a point of a row beyond a pole has none."""
    north, east = degree(y / (side - 1))
    return max(0.0, north * east) / (side - 1) ** 2


def row_metres(ys: Array, side: int) -> tuple[Array, Array]:
    """How many metres the next row is away, and the next column, of rows by their y: float64 of their shape."""
    numpy = needed_numpy()
    rows, row = numpy.unique(ys, return_inverse=True)
    metres = numpy.array([degree(y / (side - 1)) for y in rows.tolist()]).reshape(-1, 2) / (side - 1)
    return metres[row, 0].reshape(ys.shape), metres[row, 1].reshape(ys.shape)


def row_areas(ys: Array, side: int) -> Array:
    """The area of a cell of each row in square metres, by its y: float64 of their shape."""
    north, east = row_metres(ys, side)
    return north * east


def step_metres(ys: Array, codes: Array, side: int) -> Array:
    """How long the step of each direction is from a point of a y, in metres; 0 of no step. Both of one shape."""
    numpy = needed_numpy()
    norths, easts = numpy.zeros(256), numpy.zeros(256)
    for number, (north, east) in enumerate(((0, 1), (1, 1), (1, 0), (1, 1)) * 2):
        norths[1 << number], easts[1 << number] = north, east
    high, wide = row_metres(ys, side)
    return numpy.hypot(norths[codes] * high, easts[codes] * wide)
