"""Pictures of terrain and water, as PNG files in memory."""

from __future__ import annotations

import struct
import zlib

import numpy as np
from numpy.typing import NDArray

from .. import shading
from ..ellipsoid import row_metres
from .region import Grid, Region

Colours = NDArray[np.uint8]
"""Rows of pixels, the north first; each pixel is red, green, blue and, where there is a fourth, how opaque it is."""

DEEPEST_SHADE = 50
"""The depth, in metres, from which water is drawn in the darkest blue: one scale for all pictures."""

SHALLOW, DEEP = (128, 226, 232), (0, 84, 96)
"""Water's colours on the map: greener blues than those of streams and flow paths."""

EXAGGERATED = 2.5
"""How many times steeper than it is the terrain is shaded."""


def relief_of(region: Region, grid: Grid, lowest: int, highest: int) -> Colours:
    """Shaded relief of a grid, lit from the north-west. Points outside all tiles are transparent."""
    ring = Grid(grid.top + grid.step, grid.left - grid.step, grid.rows + 2, grid.columns + 2, grid.step)
    heights, held = region.heights(ring)
    north, east = row_metres(grid.ys(), region.side)
    steepened = grid.step / EXAGGERATED
    shaded = shading.relief(heights, lowest, highest, east.clip(0.01)[:, None] * steepened, float(north.mean()) * steepened)
    return opaque(shaded, np.where(held[1:-1, 1:-1], 255, 0))


def water(depths: NDArray[np.int32]) -> Colours:
    """Standing water by its depth in metres: transparent where there is none, darker the deeper it is."""
    share = np.sqrt(np.clip(depths / DEEPEST_SHADE, 0, 1))[..., None]
    return opaque(np.array(SHALLOW, float) + np.subtract(DEEP, SHALLOW) * share, np.where(depths > 0, 225, 0))


def opaque(colours: NDArray[np.float64], opacity: NDArray[np.int64]) -> Colours:
    """Colours with how opaque each pixel is."""
    return np.concatenate([colours, opacity[..., None]], axis=-1).astype(np.uint8)


def mask(marked: NDArray[np.bool_], colour: tuple[int, int, int], opacity: int) -> Colours:
    """One colour where a mask is set, and nothing elsewhere."""
    colours = np.zeros((*marked.shape, 4), np.uint8)
    colours[..., :3] = colour
    colours[..., 3] = np.where(marked, opacity, 0)
    return colours


def png(colours: Colours) -> bytes:
    """Pixels of four bytes as a PNG file."""
    rows, columns = colours.shape[:2]
    lines = np.zeros((rows, 1 + 4 * columns), np.uint8)
    lines[:, 1:] = colours.reshape(rows, 4 * columns)
    head = struct.pack(">IIBBBBB", columns, rows, 8, 6, 0, 0, 0)
    parts = [(b"IHDR", head), (b"IDAT", zlib.compress(lines.tobytes(), 6)), (b"IEND", b"")]
    return b"\x89PNG\r\n\x1a\n" + b"".join(_chunk(kind, data) for kind, data in parts)


def _chunk(kind: bytes, data: bytes) -> bytes:
    return struct.pack(">I", len(data)) + kind + data + struct.pack(">I", zlib.crc32(kind + data))
