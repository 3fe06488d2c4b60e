"""A store read in this process, by the library `libmosaic`: windows and tiles as numpy arrays, with no program between.

    from mosaic_store.native import open_image

    with open_image("region/store") as store:
        levels = store.levels(Window(0, 0, 1200, 1200))

It only reads, and holds a shared lock of the file meanwhile, so that no program changes it. It needs numpy, and the library
where MOSAIC_LIBRARY names it, beside the package's installation, or where the system looks for libraries.
"""

from __future__ import annotations

import ctypes
import fcntl
import mmap
import operator
import os
import pathlib
from collections.abc import Callable
from typing import TYPE_CHECKING, Any, SupportsIndex

from .errors import REFUSALS, BadArgument, CannotOpen, MosaicError, StoreBusy
from .lattice import Corner, Window, corner_of
from .samples import needed_numpy
from .stores import cannot_open

if TYPE_CHECKING:
    import numpy

    Array = numpy.ndarray[Any, Any]

NAME = "libmosaic.so"


class LibraryNotFound(MosaicError):
    """The library `libmosaic` wasn't found."""


class _Handle(ctypes.Structure):
    _fields_ = (("at", ctypes.c_void_p), ("held", ctypes.c_bool))


class _Window(ctypes.Structure):
    _fields_ = (("north", ctypes.c_int32), ("west", ctypes.c_int32), ("rows", ctypes.c_uint32), ("columns", ctypes.c_uint32))


def _at(y: int, x: int) -> tuple[int, int]:
    """A point as the library takes it."""
    return _within(y, -(1 << 31), 1 << 31), _within(x, -(1 << 31), 1 << 31)


def _asked(window: Window) -> _Window:
    """A window as the library takes it."""
    if window.height < 1 or window.width < 1:
        size = f"{window.height} high and {window.width} wide"
        raise BadArgument(f"a window is 1 point and more each way, not {size}: give its south-west end first")
    return _Window(*_at(window.y1, window.x0), _within(window.height, 1, 1 << 32), _within(window.width, 1, 1 << 32))


def _within(value: SupportsIndex, least: int, end: int) -> int:
    """A whole number from `least` to before `end`."""
    try:
        number = operator.index(value)
    except TypeError:
        raise BadArgument(f"a whole number is needed, not {value!r}") from None
    # ctypes would take it for another number without a word.
    if not least <= number < end:
        raise BadArgument(f"a number from {least} to {end - 1} is needed, not {number}")
    return number


# A reply first gets this much room, and if that is too little, the room that it needs.
_FIRST_ROOM = 4096
_BAD_LENGTH = 3

_POINTER, _COUNT = ctypes.c_void_p, ctypes.c_size_t
_OF_WINDOW = (ctypes.POINTER(_Window), _POINTER, _COUNT)
_OF_TILE = (ctypes.c_int16, ctypes.c_int16, _POINTER, _COUNT)
_OF_POINT = (ctypes.c_int32, ctypes.c_int32, _POINTER)
_FUNCTIONS: dict[str, tuple[Any, ...]] = {
    "open": (_POINTER, _COUNT),
    "side": (_POINTER,),
    "count": (_POINTER,),
    "ask": (_POINTER, _COUNT, _POINTER, _POINTER, _COUNT),
    "watershed": (ctypes.c_int32, ctypes.c_int32, ctypes.POINTER(_Window), _POINTER, _POINTER, _COUNT),
    "fill": _OF_POINT,
    "direction": _OF_POINT,
    "heights": _OF_WINDOW,
    "levels": _OF_WINDOW,
    "directions": _OF_WINDOW,
    "upstream_window": _OF_WINDOW,
    "tile_levels": _OF_TILE,
    "tile_directions": _OF_TILE,
    "upstream": _OF_TILE,
}


def find_library() -> str:
    """The library's path, or its name for the system to find."""
    named = os.environ.get("MOSAIC_LIBRARY")
    if named:
        return named
    beside = pathlib.Path(__file__).resolve().parents[4] / "lib" / NAME
    return str(beside) if beside.is_file() else NAME


def load_library(path: str | None = None) -> ctypes.CDLL:
    """The library with the types of its functions."""
    try:
        library = ctypes.CDLL(path or find_library())
    except OSError as error:
        raise LibraryNotFound(f"{path or find_library()} can't be loaded: {error}") from error
    for name, arguments in _FUNCTIONS.items():
        function = getattr(library, f"mosaic_{name}")
        function.restype = ctypes.c_uint8
        function.argtypes = (ctypes.POINTER(_Handle), *arguments)
    library.mosaic_close.restype = None
    library.mosaic_close.argtypes = (ctypes.POINTER(_Handle),)
    return library


class Image:
    """An open store. It is one thread's at a time."""

    def __init__(self, path: str | os.PathLike[str], library: ctypes.CDLL) -> None:
        self._numpy = needed_numpy()
        self._library = library
        self._handle = _Handle()
        self._bytes: Any = self._numpy.zeros(0, dtype=self._numpy.uint8)
        self._map: mmap.mmap | None = None
        self._file: int | None = None
        if not os.path.isfile(path):
            raise cannot_open(path)
        try:
            file = os.open(path, os.O_RDONLY)
        except OSError as error:
            raise CannotOpen(f"{path}: {error.strerror}") from error
        self._file = file
        try:
            self._map = self._mapped(path, file)
            self._call(library.mosaic_open, self._bytes.ctypes.data, len(self._bytes))
        except BaseException:
            self.close()
            raise

    def _mapped(self, path: str | os.PathLike[str], file: int) -> mmap.mmap | None:
        try:
            fcntl.flock(file, fcntl.LOCK_SH | fcntl.LOCK_NB)
        except OSError as error:
            raise StoreBusy(f"{path}: another program has it open") from error
        if os.fstat(file).st_size == 0:
            return None
        mapped = mmap.mmap(file, 0, prot=mmap.PROT_READ)
        self._bytes = self._numpy.frombuffer(mapped, dtype=self._numpy.uint8)
        return mapped

    def __enter__(self) -> Image:
        return self

    def __exit__(self, *_: object) -> None:
        self.close()

    def close(self) -> None:
        """Lets go of the store, and of its lock."""
        self._library.mosaic_close(ctypes.byref(self._handle))
        self._bytes = None
        if self._map is not None:
            self._map.close()
            self._map = None
        if self._file is not None:
            os.close(self._file)
            self._file = None

    def _call(self, function: Callable[..., int], *arguments: Any) -> None:
        number = function(ctypes.byref(self._handle), *arguments)
        if number != 0:
            raise REFUSALS[number]()

    def _number(self, function: Callable[..., int], kind: Any, *arguments: Any) -> int:
        found = kind()
        self._call(function, *arguments, ctypes.byref(found))
        return int(found.value)

    @property
    def side(self) -> int:
        """Samples along an edge of a tile."""
        return self._number(self._library.mosaic_side, ctypes.c_uint32)

    @property
    def count(self) -> int:
        """How many commands were accepted since the store was made."""
        return self._number(self._library.mosaic_count, ctypes.c_uint64)

    def fill(self, y: int, x: int) -> int:
        """The filled level of a point."""
        return self._number(self._library.mosaic_fill, ctypes.c_int16, *_at(y, x))

    def direction(self, y: int, x: int) -> int:
        """The code of a point's direction; 0 if water leaves the mosaic there."""
        return self._number(self._library.mosaic_direction, ctypes.c_uint8, *_at(y, x))

    def watershed(self, y: int, x: int, window: Window) -> tuple[Array, int]:
        """Which points of a window drain through a point, as uint8 of 1 and 0, and how many points do at all."""
        outlet, asked = _at(y, x), _asked(window)
        into = self._numpy.empty((window.height, window.width), dtype="uint8")
        points = ctypes.c_uint64()
        self._call(self._library.mosaic_watershed, *outlet, ctypes.byref(asked), ctypes.byref(points), into.ctypes.data, into.size)
        return into, int(points.value)

    def ask(self, line: str) -> bytes:
        """The reply to the line of a question, as `mosaic-tiles serve` writes it."""
        asked = line.encode()
        needed = ctypes.c_size_t(_FIRST_ROOM)
        while True:
            room = int(needed.value)
            reply = ctypes.create_string_buffer(room)
            number = self._library.mosaic_ask(ctypes.byref(self._handle), asked, len(asked), ctypes.byref(needed), reply, room)
            if number == 0:
                return reply.raw[: needed.value]
            if number != _BAD_LENGTH or int(needed.value) <= room:
                raise REFUSALS[number]()

    def heights(self, window: Window) -> Array:
        """The heights of a window, north row first: int16, -32768 for a point without one."""
        return self._of_window(self._library.mosaic_heights, window, "int16")

    def levels(self, window: Window) -> Array:
        """The filled levels of a window: int16, -32768 for a point that isn't ground."""
        return self._of_window(self._library.mosaic_levels, window, "int16")

    def directions(self, window: Window) -> Array:
        """The codes of the directions of a window: uint8, 255 for a point that isn't ground."""
        return self._of_window(self._library.mosaic_directions, window, "uint8")

    def upstream_window(self, window: Window) -> Array:
        """The number of points that drain through each of a window's points: uint32, 0 for a point that isn't ground."""
        return self._of_window(self._library.mosaic_upstream_window, window, "uint32")

    def tile_levels(self, name: str | Corner) -> Array:
        """The filled levels of a whole tile."""
        return self._of_tile(self._library.mosaic_tile_levels, name, "int16")

    def tile_directions(self, name: str | Corner) -> Array:
        """The codes of the directions of a whole tile."""
        return self._of_tile(self._library.mosaic_tile_directions, name, "uint8")

    def upstream(self, name: str | Corner) -> Array:
        """The number of points that drain through each sample of a tile: uint32, 0 for a point that isn't ground."""
        return self._of_tile(self._library.mosaic_upstream, name, "uint32")

    def _of_window(self, function: Callable[..., int], window: Window, kind: str) -> Array:
        asked = _asked(window)
        into = self._numpy.empty((window.height, window.width), dtype=kind)
        self._call(function, ctypes.byref(asked), into.ctypes.data, into.size)
        return into

    def _of_tile(self, function: Callable[..., int], name: str | Corner, kind: str) -> Array:
        corner = corner_of(name if isinstance(name, str) else name.name)
        if corner is None:
            raise BadArgument(f"{name!r} is no tile's name")
        into = self._numpy.empty((self.side, self.side), dtype=kind)
        self._call(function, corner.latitude, corner.longitude, into.ctypes.data, into.size)
        return into


def open_image(path: str | os.PathLike[str], library: str | None = None) -> Image:
    """Opens a store's file for reading in this process."""
    return Image(path, load_library(library))
