"""Colours of terrain and water: heights by tints, slopes by a light from the north-west, depths by blues. They need numpy."""

from __future__ import annotations

import math
from typing import TYPE_CHECKING

from .lattice import VOID
from .samples import needed_numpy

if TYPE_CHECKING:
    from .samples import Array

TINTS = ((98, 142, 88), (158, 176, 110), (212, 200, 142), (184, 150, 108), (150, 118, 96), (236, 232, 228))
"""Colours by height, from the lowest to the highest."""

NO_DATA = (70, 70, 74)
WATERSHED = (214, 60, 44)
SHALLOW = (120, 180, 235)
DEEP = (16, 60, 150)

_DARKEST, _BRIGHTEST = 0.25, 1.45
_SLANT = math.sqrt(0.5)


def relief(ringed: Array, lowest: int, highest: int, metres_east: float | Array, metres_north: float) -> Array:
    """Colours of all but the outermost ring of heights: floats of shape (rows, columns, 3), `NO_DATA` where there is none.

    The distances of two points are in metres; that eastwards may be one of each row, of shape (rows, 1).
    """
    numpy = needed_numpy()
    heights = ringed[1:-1, 1:-1]
    share = numpy.clip((heights.astype(float) - lowest) / max(1, highest - lowest), 0, 1) * (len(TINTS) - 1)
    bands = [numpy.interp(share, range(len(TINTS)), [tint[band] for tint in TINTS]) for band in range(3)]
    colours = numpy.stack(bands, axis=-1) * _brightness(ringed, metres_east, metres_north)[..., None]
    colours[heights == VOID] = NO_DATA
    return colours.clip(0, 255)


def _brightness(ringed: Array, metres_east: float | Array, metres_north: float) -> Array:
    """How bright each inner point is, 1 where the ground is level; a neighbour without a height counts as high as the point."""
    numpy = needed_numpy()
    heights = ringed[1:-1, 1:-1].astype(float)
    sides = ringed[1:-1, :-2], ringed[1:-1, 2:], ringed[2:, 1:-1], ringed[:-2, 1:-1]
    west, east, south, north = (numpy.where(side == VOID, heights, side) for side in sides)
    eastward, northward = (east - west) / (2 * metres_east), (north - south) / (2 * metres_north)
    facing = ((eastward - northward) * 0.5 + _SLANT) / _SLANT
    return (facing / numpy.sqrt(1 + eastward**2 + northward**2)).clip(_DARKEST, _BRIGHTEST)


def water(depths: Array, deepest: int) -> Array:
    """Colours of standing water by its depth, the darkest at `deepest` metres and below: floats with a last axis of 3."""
    numpy = needed_numpy()
    share = numpy.sqrt(numpy.clip(depths / max(1, deepest), 0, 1))[..., None]
    return numpy.array(SHALLOW, float) + (numpy.array(DEEP, float) - numpy.array(SHALLOW, float)) * share
