"""What can go wrong: refusals of the program, each a class of its number and word, and failures around it.

Each class tells its cause and its cure, which the commands print.
"""

from __future__ import annotations

from typing import ClassVar


class MosaicError(Exception):
    """Anything that this package raises of its own."""


class BadArgument(MosaicError, ValueError):
    """An argument that no line can carry. Nothing was sent."""


class ProgramNotFound(MosaicError):
    """The program `mosaic` wasn't found."""


class CannotOpen(MosaicError):
    """The store's file can't be opened: there is none, no right to it, or it is no regular file."""


class StoreBusy(CannotOpen):
    """Another program has the store open."""


class NoCauseSeen(CannotOpen):
    """The program didn't open the store, and nothing shows why: try again."""


class StoreExists(MosaicError):
    """A file is there where a store was to be made."""


class StoreChanged(MosaicError):
    """Another program changed the store while this session was down."""


class BadReply(MosaicError):
    """The program answered in no words of its language: it is no `mosaic`. The session was ended."""


class SessionDied(MosaicError):
    """The program ended, or was ended, before it answered. `Session.reopen` begins it anew."""


class TimedOut(SessionDied):
    """No answer came in time. The program was ended, as a late reply would be taken for another's."""


class Refusal(MosaicError):
    """The program refused a line, and the store is as it was but for what the class says."""

    number: ClassVar[int] = 0
    """Its number in the language."""
    word: ClassVar[str] = ""
    """Its word in the language."""
    cause: ClassVar[str] = ""
    """Why it comes, in a clause."""
    cure: ClassVar[str] = ""
    """What to do, in a clause."""

    def __init__(self, line: str = "") -> None:
        """`line` is the one that was refused, without its payload."""
        self.line = line
        shown = line if len(line) <= 60 else f"{line[:40]} .. {line[-16:]}"
        super().__init__(f"{self.number} {self.word}: {self.cause}" + (f" ({shown})" if line else ""))

    def __reduce__(self) -> tuple[type[Refusal], tuple[str]]:
        return type(self), (self.line,)  # made anew where another process answers it: its message is made of the line


class BadLine(Refusal):
    number, word = 1, "BadLine"
    cause, cure = "the line isn't in the grammar", "ask what this program takes: whole tiles and `info` need mosaic-tiles beside `mosaic`"


class BadName(Refusal):
    number, word = 2, "BadName"
    cause, cure = "that is no tile's name", "write it as N37W105: the south-west corner, in whole degrees"


class BadLength(Refusal):
    number, word = 3, "BadLength"
    cause, cure = "a tile has 2 * side * side bytes", "take a file of the store's side"


class TileThere(Refusal):
    number, word = 4, "TileThere"
    cause, cure = "the tile is in the store already", "remove it first, if it is to be replaced"


class NoTile(Refusal):
    number, word = 5, "NoTile"
    cause, cure = "the tile isn't in the store", "import it first"


class Full(Refusal):
    number, word = 6, "Full"
    cause, cure = "the store has as many tiles as its capacity", "move it to a greater capacity: mosaic-load --from"


class Outside(Refusal):
    number, word = 7, "Outside"
    cause, cure = "no tile of the store holds the point", "choose a point of a tile, or import the tile"


class Void(Refusal):
    number, word = 8, "Void"
    cause, cure = "the point has no height", "fill the void by a patch, or choose another point"


class NothingVoid(Refusal):
    number, word = 9, "NothingVoid"
    cause, cure = "no point of the box is void", "nothing is to be patched there"


class BadHeight(Refusal):
    number, word = 10, "BadHeight"
    cause, cure = "heights go from -32767 to 32767 m", "take a height of that range"


class BadDepth(Refusal):
    number, word = 11, "BadDepth"
    cause, cure = "depths go from 1 to 32767 m", "take a depth of that range"


class BadBox(Refusal):
    number, word = 12, "BadBox"
    cause, cure = "the box is out of order, or wider or higher than a tile", "give y0 x0 y1 x1, south-west end first"


class Repeated(Refusal):
    number, word = 13, "Repeated"
    cause, cure = "a point is named twice", "name each point once"


class TooDeep(Refusal):
    number, word = 14, "TooDeep"
    cause, cure = "a height would fall below -32767 m", "take a lesser depth"


class SinkThere(Refusal):
    number, word = 15, "SinkThere"
    cause, cure = "the point is a declared sink already", "nothing is to be done"


class SinksFull(Refusal):
    number, word = 16, "SinksFull"
    cause, cure = "16 points are declared sinks", "take one back first"


class NoSink(Refusal):
    number, word = 17, "NoSink"
    cause, cure = "the point is no declared sink", "nothing is to be taken back"


class Device(Refusal):
    """The drive failed. A command that it answers is in doubt until the store is opened again."""

    number, word = 20, "Device"
    cause, cure = "the drive failed a call", "find its cause (full? the system's log), then open the store again"


class NoMemory(Refusal):
    number, word = 21, "NoMemory"
    cause, cure = "memory was refused", "free some, then ask again"


class Failed(Refusal):
    number, word = 22, "Failed"
    cause, cure = "the drive failed an earlier call", "find its cause, then open the store again"


class Damaged(Refusal):
    number, word = 23, "Damaged"
    cause, cure = "the file isn't as a store was left", "take a copy of the store, and look to the drive"


class Worn(Refusal):
    number, word = 24, "Worn"
    cause, cure = "the store has had 2^64 - 1 commits", "move its tiles to a new store: mosaic-load --from"


class NotAStore(Refusal):
    number, word = 30, "NotAStore"
    cause, cure = "the file is no store", "check the path"


class Version(Refusal):
    number, word = 31, "Version"
    cause, cure = "the store's version isn't known to this program", "take a later program"


class BadSide(Refusal):
    number, word = 32, "BadSide"
    cause, cure = "sides go from 3 to 3601 samples", "take a side of that range"


class BadCapacity(Refusal):
    number, word = 33, "BadCapacity"
    cause, cure = "capacities go from 1 to 240 tiles", "take one of that range, or several stores"


class TooSmall(Refusal):
    number, word = 34, "TooSmall"
    cause, cure = "the store's file was cut short", "take a copy of the store"


class NotOld(Refusal):
    number, word = 35, "NotOld"
    cause, cure = "the store is of version 2 already", "nothing is to be done"


class Changing(Refusal):
    number, word = 36, "Changing"
    cause, cure = "the store changed faster than the question was answered", "ask again, or ask the session that edits it"


REFUSALS: dict[int, type[Refusal]] = {kind.number: kind for kind in Refusal.__subclasses__()}
"""Each refusal by its number."""


def refusal_of(words: list[str], line: str) -> Refusal | None:
    """The refusal that a reply's words name, for a line; None where they name none."""
    if len(words) != 3 or words[0] != "ERR" or not words[1].isdecimal():
        return None
    kind = REFUSALS.get(int(words[1]))
    return kind(line) if kind is not None and kind.word == words[2] else None
