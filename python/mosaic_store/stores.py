"""Stores as files: finding the program, and its subcommands that make, check and upgrade a store."""

from __future__ import annotations

import fcntl
import os
import pathlib
import shutil
import subprocess
from collections.abc import Sequence
from dataclasses import dataclass
from typing import Union

from .errors import BadArgument, BadReply, CannotOpen, NoCauseSeen, ProgramNotFound, StoreBusy, StoreExists, refusal_of

FILE = "region.json"
"""The file that makes a folder of stores a region."""

PathLike = Union[str, bytes, "os.PathLike[str]", "os.PathLike[bytes]"]


@dataclass(frozen=True)
class Report:
    """What `check_store` found."""

    count: int
    """How many commands were accepted since the store was formatted."""
    commits: int
    """The number of the last commit."""
    tiles: dict[str, bool]
    """Each present tile, in order, and whether it is fresh."""
    seams: int
    """How many points have different samples in two tiles."""


def find_program(program: PathLike | None = None) -> str:
    """The path of the program: `program`, or what MOSAIC names, or `mosaic` on PATH, or the one built in this repository."""
    if program is not None:
        return os.fsdecode(program)
    built = pathlib.Path(__file__).resolve().parents[2] / "crates" / "mosaic" / "out" / "mosaic"
    found = os.environ.get("MOSAIC") or shutil.which("mosaic") or (str(built) if built.is_file() else None)
    if found is None:
        raise ProgramNotFound(
            "the program `mosaic` wasn't found: install it, or build it with tools/program, or name it in MOSAIC"
        )
    return found


def find_server(program: PathLike | None = None) -> str:
    """The program that serves sessions: `mosaic-tiles`, which takes whole tiles too, where it lies beside `mosaic`; else that.

    A program of any other name than `mosaic` serves itself.
    """
    found = find_program(program)
    path = pathlib.Path(found if os.path.dirname(found) else shutil.which(found) or found)
    if path.name != "mosaic":
        return found
    real = path.resolve()
    places = [path.with_name("mosaic-tiles"), real.with_name("mosaic-tiles")]
    if real.parts[-4:] == ("crates", "mosaic", "out", "mosaic"):
        places.append(real.parents[2] / "mosaic_tiles" / "out" / "mosaic_tiles")
    return next((str(place) for place in places if place.is_file() and os.access(place, os.X_OK)), found)


def format_store(path: PathLike, side: int, capacity: int, program: PathLike | None = None) -> None:
    """Makes a store for tiles of a side (3 to 3601 samples), at most `capacity` (1 to 240) of them.

    StoreExists where a file is there, BadSide or BadCapacity out of range, CannotOpen where no file can be made.
    """
    run_program(["format", path_word(path), str(_count(side)), str(_count(capacity))], path, program)


def check_store(path: PathLike, program: PathLike | None = None) -> Report:
    """The contents of a store. It is read whole."""
    lines = run_program(["check", path_word(path)], path, program)
    try:
        (_, count, _, commits), (_, seams) = lines[0].split(), lines[-1].split()
        tiles = {name: kept == "fresh" for name, kept in map(str.split, lines[1:-1])}
        return Report(int(count), int(commits), tiles, int(seams))
    except (IndexError, ValueError):
        raise BadReply(f"a report was due, and {lines} came") from None


def upgrade_store(path: PathLike, program: PathLike | None = None) -> int:
    """Makes a store of version 1 one of version 2; how many commands it has accepted. NotOld where it is one already."""
    lines = run_program(["upgrade", path_word(path)], path, program)
    try:
        return int(lines[0].removeprefix("OK "))
    except (IndexError, ValueError):
        raise BadReply(f"OK and a number were due, and {lines} came") from None


def path_word(path: PathLike) -> bytes:
    """A path as a word that the program takes: it takes none that begins with -."""
    word = os.fsencode(path)
    return b"./" + word if word.startswith(b"-") else word


def cannot_open(path: PathLike) -> CannotOpen:
    """Why the file of a store can't be opened, as an exception with its cause and cure."""
    shown = os.fsdecode(path)
    if not _is_text(path):
        return CannotOpen(f"{shown}: the program takes paths of UTF-8 alone: give the store, or its folder, another name")
    if not os.path.lexists(path):
        return CannotOpen(f"{shown}: no such file: check the path, or make a store with mosaic-load or `mosaic format`")
    if not os.path.isfile(path):
        return CannotOpen(f"{shown}: no regular file, and a store is one: check the path")
    if not os.access(path, os.R_OK | os.W_OK):
        return CannotOpen(f"{shown}: no right to read and write it: ask its owner, or change its mode")
    if _is_locked(path):
        return StoreBusy(f"{shown}: another program has it open: end that one first, or ask through it")
    return NoCauseSeen(f"{shown}: another program had it open until now, the drive failed a call, or takes no locks: try again")


def run_program(words: Sequence[str | bytes], path: PathLike, program: PathLike | None = None) -> list[str]:
    """The lines that a subcommand prints about the store at `path`; its refusal raised."""
    try:
        done = subprocess.run(
            [find_program(program), *words], stdin=subprocess.DEVNULL, stdout=subprocess.PIPE, check=False
        )
    except OSError as fault:
        shown = fault.filename if isinstance(fault.filename, str) else "the program"
        raise ProgramNotFound(f"{shown}: cannot be run: {fault.strerror}: see --program and MOSAIC") from None
    lines = done.stdout.decode("utf-8", "replace").splitlines()
    if done.returncode == 0:
        return lines
    if not _is_text(path):
        raise cannot_open(path)
    last = lines[-1] if lines else ""
    refusal = refusal_of(last.split(), os.fsdecode(words[0]))
    if refusal is not None:
        raise refusal
    if last.startswith("mosaic: exists"):
        raise StoreExists(f"{os.fsdecode(path)}: a file is there already: take another path, or remove it first")
    if last.startswith("mosaic: cannot open"):
        if os.fsdecode(words[0]) == "format":
            raise CannotOpen(f"{os.fsdecode(path)}: cannot be made: check that its folder is there and can be written")
        raise cannot_open(path)
    raise BadReply(f"mosaic {os.fsdecode(words[0])} ended with status {done.returncode}: {last or 'nothing said'}")


def _is_text(path: PathLike) -> bool:
    try:
        os.fsencode(path).decode("utf-8")
    except UnicodeDecodeError:
        return False
    return True


def _is_locked(path: PathLike) -> bool:
    try:
        with open(path, "r+b") as file:
            fcntl.flock(file, fcntl.LOCK_EX | fcntl.LOCK_NB)
    except BlockingIOError:
        return True
    except OSError:
        return False
    return False


def _count(value: int) -> int:
    if type(value) is not int or not 0 <= value <= 999_999_999:
        raise BadArgument(f"a whole number of at most nine digits is needed, not {value!r}")
    return value
