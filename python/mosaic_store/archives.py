"""HGT files as people have them: in folders, zips and tars, gzipped, with names in any case and with more in them than a tile.

A tile's name may stand anywhere in a file's name, apart from other letters and digits: N37W105.hgt,
n37w105.SRTMGL1.hgt.zip, USGS_N37W105_1arc.HGT. It tells the south-west corner.
"""

from __future__ import annotations

import functools
import gzip
import os
import pathlib
import re
import tarfile
import zipfile
from collections.abc import Iterable, Iterator
from dataclasses import dataclass
from typing import NoReturn

from .errors import MosaicError
from .lattice import Corner, corner_of, side_of

_NAMED = re.compile(r"(?<![A-Z0-9])[NS]\d\d[EW]\d\d\d(?![A-Z0-9])", re.IGNORECASE | re.ASCII)

_PLAIN = re.compile(r"[NS]\d\d[EW]\d\d\d\.", re.IGNORECASE | re.ASCII)


_TARS = (".tar", ".tar.gz", ".tgz")


class Unreadable(MosaicError):
    """A file, or a member of an archive, can't be read."""


@dataclass(frozen=True)
class Source:
    """A file that may hold a tile, or one in an archive."""

    path: pathlib.Path
    member: str | None = None
    """Its name in the archive; None where the file is it."""
    length: int | None = None
    """How many bytes it has, unpacked; None where only reading shows it."""

    @property
    def shown(self) -> str:
        """Its path, and its name in the archive after a colon, in characters that any terminal shows."""
        return _shown(str(self.path) if self.member is None else f"{self.path}:{self.member}")

    @property
    def corner(self) -> Corner | None:
        """The corner that the file's name names; None if it names none, or several."""
        name = (self.member or self.path.name).rsplit("/", 1)[-1]
        corners = {corner_of(found) for found in _NAMED.findall(name)}
        return corners.pop() if len(corners) == 1 else None

    @property
    def is_plain(self) -> bool:
        """Whether its name is the tile's, and no copy's, as `N30W109 (1).hgt` is one's."""
        name = (self.member or self.path.name).rsplit("/", 1)[-1]
        return _PLAIN.match(name) is not None

    @property
    def side(self) -> int | None:
        """The side of the file's tile, from its length; None if no side has that length."""
        return side_of(self.length or 0)

    def read(self, most: int) -> bytes:
        """The file's bytes, unpacked; the first `most` + 1 of a longer one. Unreadable if they can't be read."""
        try:
            if self.member is not None and _is(self.path.name, *_TARS):
                extracted = _tar(self.path).extractfile(self.member)
                return b"" if extracted is None else extracted.read(most + 1)
            if self.member is not None:
                with zipfile.ZipFile(self.path) as archive, archive.open(self.member) as member:
                    return member.read(most + 1)
            with gzip.open(self.path) if _is(self.path.name, ".gz") else open(self.path, "rb") as file:
                return file.read(most + 1)
        except Exception as fault:  # each way of packing has errors of its own, and a broken archive may come to any
            raise _unreadable(self.shown, fault) from None


@dataclass(frozen=True)
class Trouble:
    """A file without a tile."""

    shown: str
    """Its path."""
    cause: str
    """Why, in a clause."""
    cure: str
    """What to do, in a clause; empty where nothing needs to be done."""


def files_below(paths: Iterable[str]) -> list[pathlib.Path]:
    """The files that paths name, and those in the folders that they name, in order.

    MosaicError where there is none, or where a folder can't be read: what lies in it would be missing without a word.
    """
    found: list[pathlib.Path] = []
    for path in map(pathlib.Path, paths):
        try:
            if not path.exists():
                raise MosaicError(f"{path}: no such file or folder: check the path")
            found += sorted(_below(path)) if path.is_dir() else [path]
        except OSError as fault:
            shown = fault.filename or path
            raise MosaicError(f"{shown}: not read: {_reason(fault)}: ask its owner, change its mode, or name the others alone") from None
    return list(dict.fromkeys(found))


def _below(folder: pathlib.Path) -> Iterator[pathlib.Path]:
    """The files below a folder, through links to folders too, each folder once."""
    seen: set[tuple[int, int]] = set()
    for place, folders, names in os.walk(folder, onerror=_raised, followlinks=True):
        at = os.stat(place)
        if (at.st_dev, at.st_ino) in seen:
            folders.clear()
            continue
        seen.add((at.st_dev, at.st_ino))
        yield from (path for path in (pathlib.Path(place, name) for name in names) if path.is_file() and not _is_shadow(path.name))


def _raised(fault: OSError) -> NoReturn:
    raise fault


def sources_of(path: pathlib.Path) -> Iterator[Source | Trouble]:
    """Possible tiles of a file: itself, or the members of an archive. Nothing is unpacked yet."""
    name = path.name
    if _is(name, ".hgt"):
        yield Source(path, None, path.stat().st_size)
    elif _is(name, ".hgt.gz"):
        yield Source(path)
    elif _is(name, ".zip", *_TARS):
        yield from _members(path)
    else:
        yield Trouble(_shown(str(path)), "no HGT file, and no archive of them", "")


def _members(path: pathlib.Path) -> Iterator[Source | Trouble]:
    kind = "zip" if _is(path.name, ".zip") else "tar"
    try:
        held = [(name, length) for name, length in _held(path) if _is(name, ".hgt") and not _is_shadow(name)]
    except (OSError, EOFError, tarfile.TarError, zipfile.BadZipFile, NotImplementedError, ValueError) as fault:
        yield Trouble(_shown(str(path)), f"not read as a {kind}: {_reason(fault)}", "fetch it again")
        return
    for name, length in held:
        yield Source(path, name, length)
    if not held:
        yield Trouble(_shown(str(path)), f"a {kind} without an HGT file", "")


def _held(path: pathlib.Path) -> list[tuple[str, int]]:
    """The names of an archive's members, and how many bytes each has."""
    if not _is(path.name, ".zip"):
        return [(member.name, member.size) for member in _tar(path) if member.isfile()]
    with zipfile.ZipFile(path) as archive:
        return [(entry.filename, entry.file_size) for entry in archive.infolist()]


@functools.lru_cache(1)
def _tar(path: pathlib.Path) -> tarfile.TarFile:
    """A tar that stays open: its members are read one after another, and each is unpacked once."""
    return tarfile.open(path)


def _is_shadow(name: str) -> bool:
    """Whether macOS wrote the file next to another one, under its name, with its attributes."""
    return name.rsplit("/", 1)[-1].startswith("._")


def _shown(name: str) -> str:
    """A name in characters that any terminal shows, in one line."""
    return "".join(letter if letter.isprintable() else ascii(letter)[1:-1] for letter in name)


def _is(name: str, *endings: str) -> bool:
    return name.lower().endswith(endings)


def _unreadable(shown: str, fault: Exception) -> Unreadable:
    return Unreadable(f"{shown}: not read: {_reason(fault)}")


def _reason(fault: Exception) -> str:
    return os.strerror(fault.errno) if isinstance(fault, OSError) and fault.errno else str(fault) or type(fault).__name__
