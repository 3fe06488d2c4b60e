#!/usr/bin/env python3
"""Writes filled levels, directions or upstream counts of a whole tile as a raster of any format that GDAL writes.

usage: examples/raster_by_gdal.py STORE levels|directions|upstream NAME FILE [FORMAT]

FORMAT is GDAL's name for it, as COG; GTiff without it. It needs Debian's python3-gdal and python3-numpy.
"""

import pathlib
import sys

sys.path.insert(0, str(pathlib.Path(__file__).resolve().parents[1] / "python"))  # the package, also where it isn't installed

from mosaic_store import MosaicError, corner_of, open_store
from osgeo import gdal, gdal_array, osr

NOTHING = {"levels": -32768, "directions": 255, "upstream": 0}
"""What stands where there is no ground."""


def raster(array, name, nothing):
    """The samples of a tile as GDAL holds them in memory: each is the middle of a cell, so that half a cell lies beyond the tile."""
    corner, cell = corner_of(name), 1 / (len(array) - 1)
    made = gdal.GetDriverByName("MEM").Create("", *array.shape, 1, gdal_array.NumericTypeCodeToGDALTypeCode(array.dtype))
    made.SetGeoTransform((corner.longitude - cell / 2, cell, 0, corner.latitude + 1 + cell / 2, 0, -cell))
    degrees = osr.SpatialReference()
    degrees.ImportFromEPSG(4326)
    made.SetProjection(degrees.ExportToWkt())
    made.GetRasterBand(1).SetNoDataValue(nothing)
    made.GetRasterBand(1).WriteArray(array)
    return made


def main():
    if len(sys.argv) not in (5, 6) or sys.argv[2] not in NOTHING:
        sys.exit(__doc__.splitlines()[2])
    store, what, name, file, form = [*sys.argv[1:], "GTiff"][:5]
    gdal.UseExceptions()
    driver = gdal.GetDriverByName(form)
    if driver is None:
        sys.exit(f"examples/raster_by_gdal.py: GDAL here writes no {form}: `gdal_translate --formats` lists what it does")
    try:
        with open_store(store) as session:
            made = raster(getattr(session, what)(name), name, NOTHING[what])
        driver.CreateCopy(file, made)
        written = gdal.Open(file)
        if written.GetRasterBand(1).Checksum() != made.GetRasterBand(1).Checksum():
            sys.exit(f"examples/raster_by_gdal.py: {file}: not written whole: the drive is full, or {form} doesn't hold these numbers")
    except (MosaicError, RuntimeError) as fault:
        sys.exit(f"examples/raster_by_gdal.py: {fault}")


if __name__ == "__main__":
    main()
