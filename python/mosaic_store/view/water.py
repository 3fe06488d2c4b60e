"""Standing water on a window, and what edits change of it: the ponds that they touch, each followed to its end."""

from __future__ import annotations

from collections.abc import Sequence
from dataclasses import dataclass
from typing import Any

import numpy as np
from numpy.typing import NDArray

from ..directions import reaching
from ..lattice import VOID, Point, Window
from ..rasters import Heights, Told, depths_of, levels_of
from ..session import Session
from .edits import Edit, applied, near
from .region import Grid, Region

AROUND = 64
"""How many points around an edit are looked at first."""

MOST_FOLLOWED = 9_000_000
"""The most points of the window in which ponds are followed."""

FRAME = 8
"""By how many points the frame is larger than its contents."""


@dataclass(frozen=True)
class Water:
    """Depths of standing water in metres, one for each point of a window."""

    depths: NDArray[np.int32]
    areas: NDArray[np.float64]
    """Of the cells of each row, in square metres, of shape (rows, 1)."""

    def figures(self) -> dict[str, Any]:
        """How many points are under water, their area in km², its volume in cubic metres, and its greatest depth in metres."""
        wet = self.depths > 0
        return {
            "points": int(wet.sum()),
            "km2": float((wet * self.areas).sum()) / 1e6,
            "volume": float((self.depths * self.areas).sum()),
            "deepest": int(self.depths.max(initial=0)),
        }


@dataclass(frozen=True)
class Terrain:
    """A window of a session: its heights, its filled levels, and the depths of water."""

    heights: Heights
    levels: NDArray[np.int32]
    depths: NDArray[np.int32]

    @staticmethod
    def of(session: Session, heights: Heights, told: Told | None = None) -> Terrain:
        levels = levels_of(session, heights, told)
        return Terrain(heights, levels, np.maximum(depths_of(heights, levels), 0))

    def level(self, point: Point) -> int | None:
        """The filled level of a point; None if it has no height, or is off the window."""
        if not self.heights.window.holds(point):
            return None
        level = int(self.levels.ravel()[self.heights.cell(point)])
        return None if level == VOID else level


@dataclass(frozen=True)
class Changed:
    """The water of the ponds that edits touch, before and after, in the frame around them."""

    frame: Grid
    before: Water
    after: Water
    levels: list[tuple[int | None, int | None]]
    """Of each edit the filled level at its middle, before and after."""
    is_whole: bool
    """Whether each pond was followed to its end."""


def changed_water(store: Session, copy: Session, region: Region, edits: Sequence[Edit], told: Told | None = None) -> Changed:
    """The water that edits change: before them by a store, after them by a copy of it in which they were made.

    A level changes only where a way of points with changed levels leads to an edit. So the window grows on the sides that such
    points, or the ponds that have one, come to.
    """
    bounds = region.bounds()
    window = _grown(Window.around(edit.window for edit in edits), (AROUND,) * 4, bounds)
    while True:
        heights = region.window_of(region.grid(window))
        before, after = Terrain.of(store, heights, told), Terrain.of(copy, applied(edits, heights), told)
        ponds = _ponds(before, after, near(edits, heights))
        larger = _grown(window, _sides(ponds), bounds)
        if larger == window or larger.height * larger.width > MOST_FOLLOWED:
            return _framed(region, before, after, ponds, edits, larger == window)
        window = larger


def _ponds(before: Terrain, after: Terrain, edited: NDArray[np.bool_]) -> NDArray[np.bool_]:
    """The points whose level changes, and those of each pond that has one of them or touches an edit."""
    wet = (before.depths > 0) | (after.depths > 0)
    starts = (before.levels != after.levels) | (edited & wet)
    found = [reaching(starts, terrain.depths > 0, terrain.levels) for terrain in (before, after)]
    return np.asarray(found[0] | found[1], np.bool_)


def _sides(ponds: NDArray[np.bool_]) -> tuple[int, ...]:
    """By how many points a window has to grow to the south, the west, the north and the east."""
    rows, columns = ponds.shape
    return tuple(
        int(edge.any()) * by for edge, by in ((ponds[-1], rows), (ponds[:, 0], columns), (ponds[0], rows), (ponds[:, -1], columns))
    )


def _grown(window: Window, by: Sequence[int], bounds: Window) -> Window:
    """A window that is larger by so many points to the south, west, north and east, within bounds."""
    south, west, north, east = by
    larger = Window(window.y0 - south, window.x0 - west, window.y1 + north, window.x1 + east)
    return larger.met(bounds) or window


def _framed(
    region: Region, before: Terrain, after: Terrain, ponds: NDArray[np.bool_], edits: Sequence[Edit], is_whole: bool
) -> Changed:
    heights = before.heights
    shown = ponds | near(edits, heights)
    rows, columns = np.flatnonzero(shown.any(1)), np.flatnonzero(shown.any(0))
    part = tuple(slice(max(0, int(at[0]) - FRAME), int(at[-1]) + FRAME + 1) for at in (rows, columns))
    areas = heights.cell_areas()[part[0]]
    was, now = (Water(np.where(ponds, terrain.depths, 0)[part].astype(np.int32), areas) for terrain in (before, after))
    ys, xs = heights.ys[part[0]], heights.xs[part[1]]
    levels = [(before.level(edit.middle), after.level(edit.middle)) for edit in edits]
    return Changed(Grid(int(ys[0]), int(xs[0]), len(ys), len(xs), 1), was, now, levels, is_whole)
