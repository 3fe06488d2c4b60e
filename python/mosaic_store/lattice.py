"""The lattice of points, its tiles and their names, and degrees.

A point is a pair of whole numbers: y grows to the north, x to the east, and (0, 0) lies at 0 N 0 E. With the side n of
a tile in samples there are n - 1 points a degree. A tile with corner (a, b), in whole degrees, holds the points from
a * (n - 1) to (a + 1) * (n - 1) northwards and from b * (n - 1) to (b + 1) * (n - 1) eastwards, ends included.
"""

from __future__ import annotations

import enum
import math
import re
from collections.abc import Iterable, Iterator
from typing import NamedTuple

VOID = -32768
"""The sample that stands for no height."""

VOID_SAMPLE = b"\x80\x00"
"""Its two bytes in an HGT file."""

LEAST_HEIGHT, GREATEST_HEIGHT = -32767, 32767
"""The range of heights, in metres."""

MOST_POINTS = 64
"""How many points one burn or wall names at most."""

MOST_TILES = 240
"""The greatest capacity of a store."""

LEAST_SIDE, GREATEST_SIDE = 3, 3601
"""The range of sides, in samples."""


class Point(NamedTuple):
    """A point of the lattice: y to the north, x to the east, in samples from 0 N 0 E."""

    y: int
    x: int


class Place(NamedTuple):
    """A place in degrees, north and east positive."""

    latitude: float
    longitude: float


class Window(NamedTuple):
    """A box of points, ends included: from (y0, x0) in the south-west to (y1, x1) in the north-east."""

    y0: int
    x0: int
    y1: int
    x1: int

    @property
    def height(self) -> int:
        """How many points it is high."""
        return self.y1 - self.y0 + 1

    @property
    def width(self) -> int:
        """How many points it is wide."""
        return self.x1 - self.x0 + 1

    def points(self) -> Iterator[Point]:
        """Its points, from the south, then from the west."""
        return (Point(y, x) for y in range(self.y0, self.y1 + 1) for x in range(self.x0, self.x1 + 1))

    def holds(self, point: tuple[int, int]) -> bool:
        """Whether the window has a point."""
        return self.y0 <= point[0] <= self.y1 and self.x0 <= point[1] <= self.x1

    def met(self, other: Window) -> Window | None:
        """The points that the window has in common with another one; None if there are none."""
        common = Window(max(self.y0, other.y0), max(self.x0, other.x0), min(self.y1, other.y1), min(self.x1, other.x1))
        return common if common.height > 0 and common.width > 0 else None

    @staticmethod
    def around(windows: Iterable[Window]) -> Window:
        """The least window that has all of some, one at least."""
        souths, wests, norths, easts = zip(*windows)
        return Window(min(souths), min(wests), max(norths), max(easts))


class Run(NamedTuple):
    """Neighbouring points of one row, from (y, first) to (y, last), ends included."""

    y: int
    first: int
    last: int


class Direction(enum.IntEnum):
    """The direction in which water leaves a point: the eight codes of D-8, and 0 for off the mosaic."""

    OFF = 0
    EAST = 1
    SOUTH_EAST = 2
    SOUTH = 4
    SOUTH_WEST = 8
    WEST = 16
    NORTH_WEST = 32
    NORTH = 64
    NORTH_EAST = 128

    @property
    def step(self) -> tuple[int, int]:
        """The change of y and of x to the point that it names; (0, 0) off the mosaic."""
        return _STEPS[self]

    def onward(self, point: tuple[int, int]) -> Point | None:
        """The point that water goes to from a point; None off the mosaic."""
        north, east = self.step
        return None if self is Direction.OFF else Point(point[0] + north, point[1] + east)


_STEPS = {
    Direction.OFF: (0, 0),
    Direction.EAST: (0, 1),
    Direction.SOUTH_EAST: (-1, 1),
    Direction.SOUTH: (-1, 0),
    Direction.SOUTH_WEST: (-1, -1),
    Direction.WEST: (0, -1),
    Direction.NORTH_WEST: (1, -1),
    Direction.NORTH: (1, 0),
    Direction.NORTH_EAST: (1, 1),
}


class Corner(NamedTuple):
    """A tile's south-west sample in whole degrees. Corners are ordered by latitude, then longitude, as tiles are."""

    latitude: int
    longitude: int

    @property
    def name(self) -> str:
        """The tile's name, as N37W105."""
        north = "S" if self.latitude < 0 else "N"
        east = "W" if self.longitude < 0 else "E"
        return f"{north}{abs(self.latitude):02d}{east}{abs(self.longitude):03d}"

    def window(self, side: int) -> Window:
        """The points of its tile."""
        reach = side - 1
        south, west = self.latitude * reach, self.longitude * reach
        return Window(south, west, south + reach, west + reach)


_NAME = re.compile(r"([NS])(\d\d)([EW])(\d\d\d)", re.IGNORECASE | re.ASCII)


def corner_of(name: str) -> Corner | None:
    """The corner of a tile's name, letters in either case; None if it isn't a name."""
    found = _NAME.fullmatch(name)
    if found is None:
        return None
    north, latitude, east, longitude = found.groups()
    corner = Corner(
        -int(latitude) if north in "Ss" else int(latitude),
        -int(longitude) if east in "Ww" else int(longitude),
    )
    in_range = -90 <= corner.latitude <= 89 and -180 <= corner.longitude <= 179
    return corner if in_range else None


def corners_named(names: Iterable[str]) -> list[Corner]:
    """The corners of tiles by their names, in the names' order; texts that aren't names are skipped."""
    return [corner for corner in map(corner_of, names) if corner is not None]


def corners_of(point: Point, side: int) -> Iterator[Corner]:
    """The corners whose tiles hold a point, one to four, in the order of tiles."""
    reach = side - 1
    north, east = point[0] // reach, point[1] // reach
    rows = (north - 1, north) if point[0] % reach == 0 else (north,)
    columns = (east - 1, east) if point[1] % reach == 0 else (east,)
    for latitude in rows:
        for longitude in columns:
            if -90 <= latitude <= 89 and -180 <= longitude <= 179:
                yield Corner(latitude, longitude)


def point_of(latitude: float, longitude: float, side: int) -> Point:
    """The point nearest to a place in degrees, north and east positive. ValueError if that is off the globe."""
    if not (math.isfinite(latitude) and -90 <= latitude <= 90):
        raise ValueError(f"a latitude lies from -90 to 90 degrees, not at {latitude}")
    if not (math.isfinite(longitude) and -180 <= longitude <= 180):
        raise ValueError(f"a longitude lies from -180 to 180 degrees, not at {longitude}")
    return Point(round(latitude * (side - 1)), round(longitude * (side - 1)))


def degrees_of(point: Point, side: int) -> Place:
    """The place of a point, in degrees, north and east positive."""
    return Place(point[0] / (side - 1), point[1] / (side - 1))


def side_of(length: int) -> int | None:
    """The side of a tile whose HGT file has this many bytes; None if no tile has."""
    side = math.isqrt(length // 2)
    is_tile = LEAST_SIDE <= side <= GREATEST_SIDE and 2 * side * side == length
    return side if is_tile else None
