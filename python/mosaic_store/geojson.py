"""Watersheds, flow paths and tiles as GeoJSON (RFC 7946), in degrees of WGS 84.

A point is the middle of a cell: the outline of a watershed runs half a point outside its points, and a flow path runs
through them.
"""

from __future__ import annotations

import collections
import math
from collections.abc import Sequence
from typing import Any

from .ellipsoid import cell_area
from .lattice import Corner, Point, Run, degrees_of
from .polygons import Ring, polygons_of
from .questions import Watershed

Feature = dict[str, Any]

_DECIMALS = 9  # a tenth of a millimetre


def watershed_feature(watershed: Watershed, outlet: Point, side: int) -> Feature:
    """A watershed as a MultiPolygon. Its property `cells` is its number of points, which is its area in cells of one size."""
    return points_feature(watershed.runs, side, {"what": "watershed", "cells": watershed.cells, **_place(outlet, side)})


def points_feature(runs: Sequence[Run], side: int, properties: dict[str, Any]) -> Feature:
    """Points, given as maximal runs, as a MultiPolygon around their cells. Its property `km2` is their area by latitude."""
    coordinates = [[_degrees_of_ring(ring, side) for ring in polygon.rings] for polygon in polygons_of(runs)]
    return _feature("MultiPolygon", coordinates, {**properties, "km2": round(square_kilometres(runs, side), 4)})


def trace_feature(path: Sequence[Point], side: int) -> Feature:
    """A flow path as a LineString; one of one point has two equal points."""
    return line_feature(path, side, {"what": "trace", "points": len(path), **_place(path[0], side)})


def line_feature(points: Sequence[Point], side: int, properties: dict[str, Any]) -> Feature:
    """A line through points as a LineString; one of one point has two equal points, as a layer of lines takes no point."""
    line = [_degrees(point.x, point.y, side) for point in points]
    return _feature("LineString", line if len(line) > 1 else line * 2, properties)


def tile_feature(corner: Corner, side: int) -> Feature:
    """A tile as a Polygon through its outermost samples."""
    south, west = corner
    ring = [[west, south], [west + 1, south], [west + 1, south + 1], [west, south + 1], [west, south]]
    return _feature("Polygon", [ring], {"what": "tile", "name": corner.name, "side": side})


def collection(features: Sequence[Feature]) -> Feature:
    """Features together, as in a file."""
    return {"type": "FeatureCollection", "features": list(features)}


def _feature(kind: str, coordinates: Any, properties: dict[str, Any]) -> Feature:
    return {"type": "Feature", "properties": properties, "geometry": {"type": kind, "coordinates": coordinates}}


def square_kilometres(runs: Sequence[Run], side: int) -> float:
    """The area of the cells of some runs, by their latitude."""
    cells: collections.Counter[int] = collections.Counter()
    for y, first, last in runs:
        cells[y] += last - first + 1
    return math.fsum(count * cell_area(y, side) for y, count in cells.items()) / 1e6


def _place(point: Point, side: int) -> dict[str, Any]:
    place = degrees_of(point, side)
    return {
        "y": point.y,
        "x": point.x,
        "latitude": round(place.latitude, _DECIMALS),
        "longitude": round(place.longitude, _DECIMALS),
    }


def _degrees_of_ring(ring: Ring, side: int) -> list[list[float]]:
    """A ring of corners of cells in degrees: a corner is half a point south and west of the point with its numbers."""
    return [_degrees(x - 0.5, y - 0.5, side) for x, y in ring]


def _degrees(x: float, y: float, side: int) -> list[float]:
    """Longitude, then latitude, as GeoJSON has it."""
    return [round(x / (side - 1), _DECIMALS), round(y / (side - 1), _DECIMALS)]
