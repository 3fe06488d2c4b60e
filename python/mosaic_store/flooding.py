"""Floods of a reach by the heights above it: depths for a stage at a gauge, and discharges by Manning's formula. They need numpy.

What lies less than the stage above the stream that it drains to is under water. The reach's mean cross-section follows from what is
under water on its length (Zheng and others 2018).
"""

from __future__ import annotations

import math
from collections.abc import Sequence
from dataclasses import dataclass
from typing import TYPE_CHECKING

from .basins import Basins
from .ellipsoid import row_metres
from .errors import BadArgument
from .lattice import VOID, Point, Window
from .rasters import Told
from .samples import needed_numpy
from .session import Session
from .streams import NOWHERE, Streams, found_in, keys_of

if TYPE_CHECKING:
    from .samples import Array


@dataclass(frozen=True)
class Valley:
    """The points whose flow path reaches a reach before any other one."""

    side: int
    ys: Array
    xs: Array
    above: Array
    """Of each the height of its level above that of the reach where its path comes to it, in metres."""
    areas: Array
    """Of each cell, in square metres."""
    beds: Array
    """Of each cell the area of its slope, in square metres."""
    gauge: Point
    """The point of the reach that it was asked for."""
    length: float
    """Of the reach in metres."""
    fall: int
    """From the reach's first level to its last in metres."""

    def depths(self, stage: float) -> tuple[Window, Array]:
        """The depth of the water at a stage in metres, float32 of the least window with all of it; -1 where none is."""
        numpy = needed_numpy()
        wet = self.above < stage
        ys, xs = self.ys[wet], self.xs[wet]
        window = Window(int(ys.min()), int(xs.min()), int(ys.max()), int(xs.max()))
        depths = numpy.full((window.height, window.width), -1, numpy.float32)
        depths[window.y1 - ys, xs - window.x0] = stage - self.above[wet]
        return window, depths

    def rating(self, stages: Sequence[float], roughness: float, slope: float | None) -> list[Rating]:
        """The discharge at each stage by Manning's formula; `slope` in place of the reach's own. BadArgument where neither falls."""
        if not self.length:
            raise BadArgument("the reach is one point, and has no mean cross-section: lower the threshold, or take another gauge")
        own = slope if slope is not None else self.fall / self.length
        if not own > 0:
            raise BadArgument("the reach falls by less than a metre, so it shows no slope: give one")
        return [self._rated(stage, roughness, own) for stage in stages]

    def _rated(self, stage: float, roughness: float, slope: float) -> Rating:
        wet = self.above < stage
        area = float(((stage - self.above[wet]) * self.areas[wet]).sum()) / self.length
        perimeter = float(self.beds[wet].sum()) / self.length
        velocity = (area / perimeter) ** (2 / 3) * math.sqrt(slope) / roughness
        return Rating(stage, float(self.areas[wet].sum()) / self.length, area, perimeter, velocity)


@dataclass(frozen=True)
class Rating:
    """A stage of a reach, with its mean cross-section."""

    stage: float
    width: float
    area: float
    """In square metres."""
    perimeter: float
    """That is wet, in metres."""
    velocity: float
    """In metres a second."""

    @property
    def discharge(self) -> float:
        """In cubic metres a second."""
        return self.area * self.velocity


def valley_of(session: Session, at: Point, threshold: int, reach: int, told: Told) -> Valley:
    """The valley of the reach nearest to a point within `reach` steps. BadArgument where there is no stream."""
    numpy = needed_numpy()
    basins = Basins(session, told)
    gauge = basins.snapped(at, reach, threshold)
    streams, stops = basins.streams(threshold)
    number = _reach_of(streams, gauge)
    levels = numpy.zeros(streams.keys.size + 1, numpy.int32)
    parts = []
    for corner, (cells, labels) in stops.items():
        levels[labels] = session.levels(corner.name).ravel()[cells]
    for corner, labels in basins.first_stops(stops):
        own = basins.owned(corner) & (labels != NOWHERE)
        own[own] = streams.reach[labels[own]] == number
        if own.any():
            tile, window = session.levels(corner.name).astype(numpy.int32), corner.window(session.side)
            rows, columns = numpy.nonzero(own)
            areas = basins.areas(corner)[own]
            beds = areas * _steepening(tile, numpy.arange(window.y1, window.y0 - 1, -1), session.side)[own]
            parts.append((window.y1 - rows, window.x0 + columns, tile[own] - levels[labels[own]], areas, beds))
    ys, xs, above, areas, beds = map(numpy.concatenate, zip(*parts))
    points = streams.ordered[streams.reach[streams.ordered] == number]
    fall = int(levels[points[0]] - levels[points[-1]])
    return Valley(session.side, ys, xs, above, areas, beds, gauge, float(streams.lengths[number]), fall)


def _reach_of(streams: Streams, gauge: Point) -> int:
    """The reach of a point, by number."""
    at = found_in(streams.keys, keys_of(Window(*gauge, *gauge))[0])[0]
    if at == NOWHERE:
        raise BadArgument(f"no stream is at the point {gauge.y} {gauge.x}: move it by --reach, or lower the threshold")
    return int(streams.reach[at])


def _steepening(levels: Array, ys: Array, side: int) -> Array:
    """The ratio of each cell's surface to its area, from the fall to its neighbours; 1 if one has no level."""
    numpy = needed_numpy()
    ground = numpy.where(levels == VOID, numpy.nan, levels.astype(float))
    down, along = numpy.gradient(ground)
    north, east = (metres[:, None] for metres in row_metres(ys, side))
    return numpy.nan_to_num(numpy.sqrt(1 + (down / north) ** 2 + (along / east) ** 2), nan=1.0)
