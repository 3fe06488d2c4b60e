"""HGT bytes and numpy arrays of samples. numpy is needed only where arrays are."""

from __future__ import annotations

import array
import math
import sys
from typing import TYPE_CHECKING, Any, cast

from .errors import BadArgument
from .lattice import VOID_SAMPLE

if TYPE_CHECKING:
    import numpy
    from numpy.typing import NDArray

    Array = numpy.ndarray[Any, Any]
    Samples = NDArray[numpy.int16]
    Codes = NDArray[numpy.uint8]
    Counts = NDArray[numpy.uint32]


def array_of(data: bytes) -> Samples:
    """HGT bytes as an array of int16 of shape (side, side), the north row first."""
    return cast("Samples", _square(data, ">i2", "int16"))


def codes_of(data: bytes) -> Codes:
    """Direction codes as an array of uint8 of shape (side, side), the north row first."""
    return cast("Codes", _square(data, "uint8", "uint8"))


def counts_of(data: bytes) -> Counts:
    """Upstream counts as an array of uint32 of shape (side, side), the north row first."""
    return cast("Counts", _square(data, ">u4", "uint32"))


def voids_in(data: bytes) -> int:
    """How many samples of HGT bytes are voids. Without numpy."""
    samples = array.array("h")
    samples.frombytes(data)
    return samples.count(int.from_bytes(VOID_SAMPLE, sys.byteorder, signed=True))


def _square(data: bytes, stored: str, kind: str) -> Array:
    """Numbers that are stored as one type, as a square array of another."""
    numbers = needed_numpy().frombuffer(data, stored)
    side = math.isqrt(numbers.size)
    return numbers.astype(kind).reshape(side, side)


def bytes_of(data: bytes | bytearray | memoryview | Array) -> bytes:
    """The HGT bytes of a tile: bytes as they are, or an array of whole numbers of shape (side, side)."""
    if isinstance(data, (bytes, bytearray)) or (isinstance(data, memoryview) and data.itemsize == 1):
        return bytes(data)
    numpy = needed_numpy()
    samples = numpy.asarray(data)
    if samples.ndim != 2 or samples.shape[0] != samples.shape[1]:
        raise BadArgument(f"a tile is a square of samples, not of shape {samples.shape}")
    if samples.dtype.kind not in "iu":
        raise BadArgument(f"samples are whole numbers, not {samples.dtype}")
    if samples.size and not (-32768 <= int(samples.min()) and int(samples.max()) <= 32767):
        raise BadArgument("samples go from -32768 (void) to 32767")
    return bytes(samples.astype(">i2").tobytes())


def needed_numpy() -> Any:
    """The module numpy, or one line that says how to install it."""
    try:
        import numpy
    except ImportError as fault:
        raise BadArgument(f"arrays need numpy ({fault}): {cure_for('numpy')}") from None
    return numpy


def cure_for(module: str) -> str:
    """How to install a module: a virtual environment doesn't see Debian's, unless it was made so."""
    if sys.prefix != sys.base_prefix:
        return f"pip install {module}, or make the environment with --system-site-packages"
    return f"apt-get install python3-{module}"
