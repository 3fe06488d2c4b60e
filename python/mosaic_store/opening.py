"""A store or a region by its path: a store is a file, a region a folder of stores."""

from __future__ import annotations

import contextlib
import json
import os
import pathlib
from collections.abc import Iterator

from .backups import copied, is_read_only
from .errors import MosaicError
from .samples import needed_numpy
from .session import Session, open_store
from .stores import FILE, PathLike

_OF_BEFORE = "split.geojson"
"""The file that a folder of stores had before there were regions."""


def is_region(path: PathLike) -> bool:
    """Whether a folder is a region."""
    return os.path.isfile(os.path.join(os.fsdecode(path), FILE))


def is_of_before(path: PathLike) -> bool:
    """Whether a folder has stores that an earlier version cut along divides."""
    return os.path.isfile(os.path.join(os.fsdecode(path), _OF_BEFORE))


def stores_of_before(path: PathLike) -> list[str]:
    """The stores of a region's folder. Tiles on divides are in several stores."""
    place = pathlib.Path(os.fsdecode(path))
    try:
        features = json.loads((place / _OF_BEFORE).read_text(encoding="ascii"))["features"]
        names = [feature["properties"]["store"] for feature in features if feature["properties"]["what"] == "planned"]
    except (ValueError, KeyError, TypeError, AttributeError, RecursionError):
        raise MosaicError(f"{place / _OF_BEFORE}: not read as a folder's stores: name them one by one") from None
    return [str(place / name) for name in names if os.path.basename(name) == name and (place / name).is_file()]


def open_place(
    path: PathLike, program: PathLike | None = None, timeout: float | None = None, wait: float = 0.0, restart: bool = False
) -> Session:
    """A session with a store, or with a region: a folder of stores. A region needs numpy, and sessions with its stores restart."""
    if not os.path.isdir(path):
        return open_store(path, program, timeout, wait, restart)
    shown = os.fsdecode(path)
    if not is_region(path) and is_of_before(path):
        raise MosaicError(f"{shown}: stores cut along divides, by a version before: make a region of them by mosaic-load NEW --from {shown}")
    needed_numpy()
    from .regions import Region

    return Region(path, program, wait=wait)


@contextlib.contextmanager
def opened_place(path: PathLike, program: PathLike | None = None, edits: bool = False) -> Iterator[Session]:
    """A session with a store or a region. If a store is read-only and nothing is to be edited, a copy of it is used."""
    with contextlib.ExitStack() as kept:
        served = path if edits or not is_read_only(os.fsdecode(path)) else kept.enter_context(copied(os.fsdecode(path)))
        yield kept.enter_context(open_place(served, program))
