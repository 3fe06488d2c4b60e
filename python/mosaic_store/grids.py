"""Arrays as raster files that GDAL opens: GeoTIFF by rasterio, ESRI ASCII by hand.

A sample is the middle of a cell, so that a raster reaches half a point beyond its outermost points.
"""

from __future__ import annotations

from collections.abc import Iterable
from typing import TYPE_CHECKING, Any

from .errors import BadArgument
from .lattice import Window
from .samples import cure_for

if TYPE_CHECKING:
    from .samples import Array

_AT_ONCE = 1 << 24

GEOTIFF, ASCII = (".tif", ".tiff"), (".asc",)


def write_grid(path: str, array: Array, window: Window, side: int, no_data: int, what: str) -> None:
    """Writes the whole numbers of a window, of shape (window.height, window.width), the north row first.

    `path` ends in .tif, for a GeoTIFF, or in .asc, for ESRI ASCII. `what` is the description of a GeoTIFF's band.
    """
    write_bands(path, [array], window, side, no_data, what, array.dtype.name)


def write_bands(path: str, bands: Iterable[Array], window: Window, side: int, no_data: int, what: str, kind: str) -> None:
    """As `write_grid`, some rows of whole numbers of a kind at a time, from the north."""
    if path.lower().endswith(GEOTIFF):
        _write_geotiff(path, bands, window, side, no_data, what, kind)
    elif path.lower().endswith(ASCII):
        _write_ascii(path, bands, window, side, no_data)
    else:
        raise BadArgument(f"{path}: the name of a raster ends in .tif (GeoTIFF) or .asc (ESRI ASCII)")


def check_format(path: str) -> None:
    """BadArgument if no raster of this name can be written."""
    if path.lower().endswith(GEOTIFF):
        _rasterio()
    elif not path.lower().endswith(ASCII):
        raise BadArgument(f"{path}: the name of a raster ends in .tif (GeoTIFF) or .asc (ESRI ASCII)")


def _write_geotiff(path: str, bands: Iterable[Array], window: Window, side: int, no_data: int, what: str, kind: str) -> None:
    rasterio = _rasterio()
    cell = 1 / (side - 1)
    north_west = rasterio.transform.from_origin((window.x0 - 0.5) * cell, (window.y1 + 0.5) * cell, cell, cell)
    form = {"driver": "GTiff", "dtype": kind, "count": 1, "nodata": no_data, "compress": "deflate", "bigtiff": "if_safer"}
    size = {"height": window.height, "width": window.width}
    # In memory first: if a drive is full, GDAL closes a file that it couldn't write without an error.
    with rasterio.io.MemoryFile() as memory:
        with memory.open(crs="EPSG:4326", transform=north_west, **form, **size) as file:
            row = 0
            for band in bands:
                file.write(band, 1, window=rasterio.windows.Window(0, row, window.width, len(band)))
                row += len(band)
            file.set_band_description(1, what)
        with open(path, "wb") as written:
            while piece := memory.read(_AT_ONCE):
                written.write(piece)


def _write_ascii(path: str, bands: Iterable[Array], window: Window, side: int, no_data: int) -> None:
    cell = 1 / (side - 1)
    head = {
        "ncols": window.width,
        "nrows": window.height,
        "xllcorner": repr((window.x0 - 0.5) * cell),
        "yllcorner": repr((window.y0 - 0.5) * cell),
        "cellsize": repr(cell),
        "NODATA_value": no_data,
    }
    with open(path, "w", encoding="ascii") as file:
        file.writelines(f"{word} {value}\n" for word, value in head.items())
        # Row by row: all numbers of a large raster at once would take many times its memory.
        file.writelines(" ".join(map(str, row.tolist())) + "\n" for band in bands for row in band)


def _rasterio() -> Any:
    try:
        import rasterio
        import rasterio.io
        import rasterio.transform
        import rasterio.windows
    except ImportError as fault:
        raise BadArgument(f"GeoTIFF needs rasterio ({fault}): {cure_for('rasterio')}, or write a file .asc") from None
    return rasterio
