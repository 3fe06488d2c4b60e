"""Copies of a store's file, whole and without its holes.

A file of a store is mostly holes until its tiles come. A copy keeps them, is on the drive before it takes its name, and has
what the store had: tiles, sinks, kept levels, the count.
"""

from __future__ import annotations

import contextlib
import errno
import fcntl
import os
import pathlib
import tempfile
from collections.abc import Iterator
from typing import BinaryIO

from .errors import CannotOpen, StoreBusy, StoreExists
from .files import sync_folder

_AT_ONCE = 1 << 22

_NO_LINKS = (errno.EPERM, errno.EOPNOTSUPP, errno.ENOSYS, errno.EMLINK)
"""What a file system without hard links, as exFAT, answers where one is asked for."""


def copy_file(source: str, target: str) -> None:
    """Copies a file, holes as holes. StoreExists where there is a file of the copy's name; nothing is left where it fails."""
    place = pathlib.Path(target)
    if os.path.lexists(place):
        raise StoreExists(f"{target}: a file is there already: take another path, or remove it first")
    if not place.parent.is_dir():
        raise CannotOpen(f"{target}: cannot be made: there is no folder {place.parent}: make it first")
    with open(source, "rb") as file:
        try:
            _copy_whole(file, place)
        except FileExistsError:
            raise StoreExists(f"{target}: a file is there already: take another path, or remove it first") from None
        except OSError as fault:
            raise OSError(fault.errno, os.strerror(fault.errno or 0), target) from None


def is_read_only(path: str) -> bool:
    """Whether a file may be read by this process, and not written."""
    return os.path.isfile(path) and os.access(path, os.R_OK) and not os.access(path, os.W_OK)


@contextlib.contextmanager
def copied(path: str) -> Iterator[str]:
    """A copy of a store's file for a while, in a temporary folder. StoreBusy where another program has the store open."""
    with tempfile.TemporaryDirectory(prefix="mosaic-") as folder, open(path, "rb") as file:
        try:
            fcntl.flock(file, fcntl.LOCK_SH | fcntl.LOCK_NB)
        except BlockingIOError:
            raise StoreBusy(f"{path}: another program has it open: end that one first, or ask through it") from None
        copy = os.path.join(folder, "store")
        copy_file(path, copy)
        os.chmod(copy, 0o600)
        yield copy


def _copy_whole(source: BinaryIO, place: pathlib.Path) -> None:
    """Copies an open file to a place where there is none, under another name first. FileExistsError where there is one."""
    with tempfile.NamedTemporaryFile(dir=place.parent, prefix=f".{place.name}.", delete=False) as copy:
        try:
            _copy(source.fileno(), copy.fileno())
            os.fsync(copy.fileno())
            with contextlib.suppress(PermissionError):  # a file system may have no such modes
                os.chmod(copy.name, os.fstat(source.fileno()).st_mode & 0o777)
            _name(copy.name, place)
            sync_folder(place.parent)
        finally:
            with contextlib.suppress(FileNotFoundError):
                os.unlink(copy.name)


def _name(made: str, place: pathlib.Path) -> None:
    """Gives a file its name, and replaces nothing, as a renaming by itself would."""
    try:
        os.link(made, place)
        return
    except OSError as fault:
        if fault.errno not in _NO_LINKS:
            raise
    os.close(os.open(place, os.O_CREAT | os.O_EXCL | os.O_WRONLY))
    try:
        os.replace(made, place)
    except BaseException:
        os.unlink(place)
        raise


def _copy(source: int, target: int) -> None:
    size = os.fstat(source).st_size
    os.ftruncate(target, size)
    end = 0
    while (start := _next_data(source, end)) is not None:
        at, end = start, os.lseek(source, start, os.SEEK_HOLE)
        while at < end and (piece := os.pread(source, min(_AT_ONCE, end - at), at)):
            at += os.pwrite(target, piece, at)  # a drive that gets full takes a part, and refuses the rest when it comes


def _next_data(file: int, at: int) -> int | None:
    """The end of a hole, where data begins again; None at the end of the file."""
    try:
        return os.lseek(file, at, os.SEEK_DATA)
    except OSError as fault:
        if fault.errno == errno.ENXIO:
            return None
        raise
