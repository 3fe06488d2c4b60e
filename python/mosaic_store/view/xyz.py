"""Pictures of a store as XYZ tiles: 256 pixels each way in Web Mercator, for maps in browsers and in a GIS."""

from __future__ import annotations

import math
import threading
from dataclasses import dataclass

import numpy as np
from numpy.typing import NDArray

from ..errors import BadArgument
from ..lattice import VOID, Window
from ..session import Session
from . import pictures
from .region import Grid, Region

LAYERS = ("hillshade", "levels", "water")
"""Shaded relief of the heights, that of the filled levels, and standing water by its depth."""

PIXELS = 256
MOST_ZOOM = 22


@dataclass(frozen=True)
class _Terrain:
    """The cache of a store at a count."""

    count: int
    heights: Region
    levels: Region


class Pictures:
    """The pictures of a session. Its cached tiles are dropped where they were edited."""

    def __init__(self, session: Session):
        self._session = session
        self._lock = threading.Lock()
        self._held: _Terrain | None = None
        self._range: tuple[int, int] | None = None

    def picture(self, layer: str, zoom: int, column: int, row: int) -> bytes:
        """A PNG, transparent where no tile is. BadArgument if there is no such picture."""
        if layer not in LAYERS or not 0 <= zoom <= MOST_ZOOM or not (0 <= column < 1 << zoom and 0 <= row < 1 << zoom):
            raise BadArgument(f"a picture is one of {', '.join(LAYERS)} with a zoom from 0 to {MOST_ZOOM}, its column and its row")
        terrain = self._terrain()
        side = terrain.heights.side
        ys, xs = _points(zoom, column, row, side)
        window = Window(int(ys[-1]), int(xs[0]), int(ys[0]), int(xs[-1]))
        if window.met(terrain.heights.bounds()) is None:
            return pictures.png(np.zeros((PIXELS, PIXELS, 4), np.uint8))
        step = 1 << max(0, math.floor(math.log2(max(1, (window.width - 1) / (PIXELS - 1)))))
        grid = Grid(-(-window.y1 // step) * step, window.x0 // step * step, (window.height - 1) // step + 3, (window.width - 1) // step + 3, step)
        colours = self._colours(layer, terrain, grid)
        return pictures.png(colours[(grid.top - ys + step // 2) // step][:, (xs - grid.left + step // 2) // step])

    def _colours(self, layer: str, terrain: _Terrain, grid: Grid) -> pictures.Colours:
        if layer != "water":
            lowest, highest = self._range_of(terrain)
            return pictures.relief_of(terrain.heights if layer == "hillshade" else terrain.levels, grid, lowest, highest)
        (heights, _), (levels, _) = terrain.heights.heights(grid), terrain.levels.heights(grid)
        return pictures.water(np.where(heights == VOID, 0, levels.astype(np.int32) - heights))

    def _range_of(self, terrain: _Terrain) -> tuple[int, int]:
        """The heights that the colours span: those of the first picture stay."""
        if self._range is None:
            self._range = terrain.heights.range_of_heights()
        return self._range

    def _terrain(self) -> _Terrain:
        session = self._session
        with self._lock:
            if self._held is None or self._held.count != session.acknowledged:
                count, names, side = session.acknowledged, session.tiles(), session.side
                if not names:
                    raise BadArgument("the store has no tile: import some first")
                levels = Region(side, names, lambda name: session.levels(name).astype(">i2").tobytes())
                self._held = _Terrain(count, Region(side, names, session.export), levels)
            return self._held


def _points(zoom: int, column: int, row: int, side: int) -> tuple[NDArray[np.int64], NDArray[np.int64]]:
    """The points nearest to the middles of a picture's pixels: the y of each row, and the x of each column."""
    middles = (np.arange(PIXELS) + 0.5) / PIXELS
    longitudes = (column + middles) / (1 << zoom) * 360 - 180
    latitudes = np.degrees(np.arctan(np.sinh(math.pi * (1 - 2 * (row + middles) / (1 << zoom)))))
    ys, xs = (np.rint(degrees * (side - 1)).astype(np.int64) for degrees in (latitudes, longitudes))
    return ys, xs
