"""Tiles of any raster that GDAL reads with rasterio: GeoTIFF and COG, of any coordinates and any numbers.

A tile's samples lie on whole degrees, so that a raster is warped to the tile with half a sample more on each side. Rasters beside
each other fill a tile together.
"""

from __future__ import annotations

import collections
import math
import pathlib
from collections.abc import Iterable, Iterator
from dataclasses import dataclass
from typing import Any

from .archives import Source, Trouble, Unreadable
from .lattice import GREATEST_SIDE, LEAST_SIDE, VOID, Corner
from .samples import bytes_of, cure_for, needed_numpy

ENDINGS = (".tif", ".tiff")

RESAMPLING = ("nearest", "bilinear", "cubic", "average")

_LEAST_OVERLAP = 2
"""A raster that reaches into a tile by no more than so many of its cells makes none of it: many reach half a cell beyond theirs."""


@dataclass(frozen=True)
class Raster:
    """A raster's bounds in degrees, and the size of its cells."""

    path: pathlib.Path
    west: float
    south: float
    east: float
    north: float
    cell: float

    def corners(self, least: float) -> Iterator[Corner]:
        """The corners of the tiles that it reaches into by more than some degrees each way."""
        for latitude in range(max(-90, math.floor(self.south)), min(90, math.ceil(self.north))):
            for longitude in range(max(-180, math.floor(self.west)), min(180, math.ceil(self.east))):
                high = min(self.north, latitude + 1) - max(self.south, latitude)
                wide = min(self.east, longitude + 1) - max(self.west, longitude)
                if min(high, wide) > least:
                    yield Corner(latitude, longitude)


@dataclass(frozen=True)
class Warped(Source):
    """A tile that rasters make."""

    rasters: tuple[Raster, ...] = ()
    at: Corner = Corner(0, 0)
    resampling: str = RESAMPLING[0]

    @property
    def shown(self) -> str:
        others = f" and {len(self.rasters) - 1} more" if len(self.rasters) > 1 else ""
        return f"{super().shown}{others}"

    @property
    def corner(self) -> Corner | None:
        return self.at

    @property
    def side(self) -> int | None:
        """As many samples as the finest of its rasters has cells a degree, and one."""
        return min(GREATEST_SIDE, max(LEAST_SIDE, round(1 / min(raster.cell for raster in self.rasters)) + 1))

    def read(self, most: int) -> bytes:
        """The tile's HGT bytes, for the side whose files have `most` bytes. Unreadable if a raster can't be read."""
        numpy = needed_numpy()
        side = math.isqrt(most // 2)
        samples = numpy.full((side, side), VOID, numpy.int16)
        for raster in self.rasters:
            warped = _warped(raster.path, self.at, side, self.resampling)
            numpy.copyto(samples, warped, where=samples == VOID)
        return bytes_of(samples)


def tiles_of(paths: Iterable[pathlib.Path], resampling: str) -> Iterator[Source | Trouble]:
    """The tiles that some rasters make together, in order."""
    rasters = []
    for path in paths:
        found = _read(path)
        if isinstance(found, Trouble):
            yield found
        else:
            rasters.append(found)
    made: collections.defaultdict[Corner, list[Raster]] = collections.defaultdict(list)
    for raster in rasters:
        for corner in raster.corners(_LEAST_OVERLAP * raster.cell):
            made[corner].append(raster)
    for corner in sorted(made):
        beside = [raster for raster in rasters if raster not in made[corner] and corner in set(raster.corners(0))]
        yield Warped(made[corner][0].path, rasters=(*made[corner], *beside), at=corner, resampling=resampling)


def _read(path: pathlib.Path) -> Raster | Trouble:
    """A raster's bounds and cells, or the reason why it can't be used."""
    try:
        import rasterio
        import rasterio.warp
    except ImportError as fault:
        return Trouble(str(path), f"a raster, which needs rasterio ({fault})", cure_for("rasterio"))
    try:
        with rasterio.open(path) as file:
            if file.count != 1:
                return Trouble(str(path), f"{file.count} bands, and heights are one", "take one of them, as by gdal_translate -b 1")
            if file.crs is None:
                return Trouble(str(path), "it names no coordinate system", "name it, as by gdal_translate -a_srs EPSG:4326")
            west, south, east, north = rasterio.warp.transform_bounds(file.crs, "EPSG:4326", *file.bounds)
            return Raster(path, west, south, east, north, (north - south) / file.height)
    except (OSError, ValueError, rasterio.errors.RasterioError) as fault:
        return Trouble(str(path), f"not read as a raster: {' '.join(str(fault).split())}", "fetch it again")


def _warped(path: pathlib.Path, corner: Corner, side: int, resampling: str) -> Any:
    """A raster on a tile's samples, int16; -32768 where the raster has no value."""
    import rasterio
    import rasterio.transform
    import rasterio.warp

    numpy = needed_numpy()
    half = 0.5 / (side - 1)
    south, west = corner
    place = rasterio.transform.from_bounds(west - half, south - half, west + 1 + half, south + 1 + half, side, side)
    samples = numpy.full((side, side), VOID, numpy.int16)
    try:
        with rasterio.open(path) as file:
            rasterio.warp.reproject(
                rasterio.band(file, 1),
                samples,
                dst_transform=place,
                dst_crs="EPSG:4326",
                dst_nodata=VOID,
                resampling=rasterio.warp.Resampling[resampling],
            )
    except (OSError, ValueError, rasterio.errors.RasterioError) as fault:
        raise Unreadable(f"{path}: not read: {' '.join(str(fault).split())}") from None
    return samples
