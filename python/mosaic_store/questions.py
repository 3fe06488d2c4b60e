"""The lines of the language as values: what each sends, and how its reply is read.

A `Command` changes the store and answers k, the number of commands accepted since it was formatted. Any other
`Question` asks. An argument that no line can carry is a `BadArgument` when the line is made, before anything is sent;
whether the store takes it is the program's to say.
"""

from __future__ import annotations

import operator
from collections.abc import Iterable, Sequence
from dataclasses import dataclass, field, fields
from typing import Generic, Protocol, SupportsIndex, TypeVar

from .errors import BadArgument, BadReply
from .lattice import MOST_POINTS, Direction, Point, Run, Window

Answer_co = TypeVar("Answer_co", covariant=True)

_LONGEST_LINE = 2048
_GREATEST_NUMBER = 999_999_999


class Replies(Protocol):
    """What follows the first line of a reply."""

    def rows(self, count: int, width: int) -> list[int]:
        """The numbers of the next lines."""

    def exactly(self, length: int) -> bytes:
        """The next bytes."""


@dataclass(frozen=True)
class Watershed:
    """The points whose flow path contains a point."""

    cells: int
    """How many points it has."""
    runs: tuple[Run, ...]
    """Its maximal runs: from the north down, and in a row from the west."""

    def points(self) -> Iterable[Point]:
        """Each of its points."""
        return (Point(y, x) for y, first, last in self.runs for x in range(first, last + 1))


@dataclass(frozen=True)
class Numbers:
    """The sizes and counts of a store."""

    side: int
    """Samples along an edge of a tile."""
    capacity: int
    """The greatest number of tiles."""
    version: int
    """Of its file's layout."""
    count: int
    """How many commands were accepted since it was formatted."""
    commits: int
    """The number of its last commit."""
    fresh: int
    """How many present tiles have kept planes."""
    stale: int
    """How many present tiles have none."""


class Question(Generic[Answer_co]):
    """A line of the language and the answer to it."""

    __slots__ = ()

    def line(self) -> str:
        """The line, without its end. BadArgument where no line can carry the arguments."""
        raise NotImplementedError

    def answer(self, words: list[str], replies: Replies) -> Answer_co:
        """The answer, from the words after OK and what follows that line."""
        raise NotImplementedError


class Command(Question[int]):
    """A line that changes the store. Its answer is k."""

    __slots__ = ()

    def payload(self) -> bytes:
        """The bytes that follow the line."""
        return b""

    def answer(self, words: list[str], replies: Replies) -> int:
        return _number(words)


class _AtPoint(Question[Answer_co]):
    """A question of one point."""

    __slots__ = ()
    y: int
    x: int
    _verb = ""

    def line(self) -> str:
        return f"{self._verb} {_coordinate(self.y)} {_coordinate(self.x)}"


@dataclass(frozen=True, slots=True)
class Import(Command):
    """Adds the tile of a name, of HGT bytes."""

    name: str
    data: bytes = field(repr=False)

    def line(self) -> str:
        if len(self.data) > _GREATEST_NUMBER:
            raise BadArgument(f"a tile has at most 25,934,402 bytes, not {len(self.data)}")
        return _short(f"import {_word(self.name)} {len(self.data)}")

    def payload(self) -> bytes:
        return self.data


@dataclass(frozen=True, slots=True)
class Remove(Command):
    """Takes a tile out."""

    name: str

    def line(self) -> str:
        return _short(f"remove {_word(self.name)}")


@dataclass(frozen=True, slots=True)
class Patch(Command):
    """Gives a height, in metres, to each void of a box, ends included."""

    y0: int
    x0: int
    y1: int
    x1: int
    height: int

    def line(self) -> str:
        numbers = (self.y0, self.x0, self.y1, self.x1, self.height)
        return "patch " + " ".join(str(_coordinate(number)) for number in numbers)

    @property
    def box(self) -> Window:
        """The box of points."""
        return Window(self.y0, self.x0, self.y1, self.x1)


@dataclass(frozen=True, slots=True)
class Burn(Command):
    """Lowers 1 to 64 points by a depth in metres."""

    depth: int
    points: Sequence[tuple[int, int]]

    def line(self) -> str:
        return _short(f"burn {_coordinate(self.depth)} {_points(self.points)}")


@dataclass(frozen=True, slots=True)
class Wall(Command):
    """Raises 1 to 64 points to a height in metres, if they are lower."""

    height: int
    points: Sequence[tuple[int, int]]

    def line(self) -> str:
        return _short(f"wall {_coordinate(self.height)} {_points(self.points)}")


@dataclass(frozen=True, slots=True)
class Sink(Command, _AtPoint[int]):
    """Declares a point a sink."""

    y: int
    x: int
    _verb = "sink"


@dataclass(frozen=True, slots=True)
class Unsink(Command, _AtPoint[int]):
    """Takes a declared sink back."""

    y: int
    x: int
    _verb = "unsink"


@dataclass(frozen=True, slots=True)
class Elevation(_AtPoint["int | None"]):
    """The height of a point in metres; None if it is void."""

    y: int
    x: int
    _verb = "elev"

    def answer(self, words: list[str], replies: Replies) -> int | None:
        return None if words == ["void"] else _number(words)


@dataclass(frozen=True, slots=True)
class Fill(_AtPoint[int]):
    """The filled level of a point in metres."""

    y: int
    x: int
    _verb = "fill"

    def answer(self, words: list[str], replies: Replies) -> int:
        return _number(words)


@dataclass(frozen=True, slots=True)
class FlowDirection(_AtPoint[Direction]):
    """The direction that water takes from a point."""

    y: int
    x: int
    _verb = "dir"

    def answer(self, words: list[str], replies: Replies) -> Direction:
        return Direction(_number(words))


@dataclass(frozen=True, slots=True)
class Trace(_AtPoint["list[Point]"]):
    """The flow path of a point, itself first, to the first point with direction 0."""

    y: int
    x: int
    _verb = "trace"

    def answer(self, words: list[str], replies: Replies) -> list[Point]:
        return _pairs(replies, _number(words))


@dataclass(frozen=True, slots=True)
class WatershedOf(_AtPoint[Watershed]):
    """The watershed of a point."""

    y: int
    x: int
    _verb = "watershed"

    def answer(self, words: list[str], replies: Replies) -> Watershed:
        cells, count = _numbers(words, 2)
        numbers = replies.rows(count, 3)
        runs = tuple(map(Run._make, zip(numbers[::3], numbers[1::3], numbers[2::3])))
        return Watershed(cells, runs)


class _OfTile(Question[bytes]):
    """A question of a whole tile, answered by a value for each of its samples."""

    __slots__ = ()
    name: str
    _verb = ""

    def line(self) -> str:
        return _short(f"{self._verb} {_word(self.name)}")

    def answer(self, words: list[str], replies: Replies) -> bytes:
        return replies.exactly(_number(words))


@dataclass(frozen=True, slots=True)
class Export(_OfTile):
    """A tile's own HGT bytes."""

    name: str
    _verb = "export"


@dataclass(frozen=True, slots=True)
class Levels(_OfTile):
    """The filled levels of a tile's samples as HGT bytes. A line of `mosaic-tiles` alone."""

    name: str
    _verb = "levels"


@dataclass(frozen=True, slots=True)
class FlowDirections(_OfTile):
    """The direction codes of a tile's samples, a byte each; 255 where there is no ground. A line of `mosaic-tiles` alone."""

    name: str
    _verb = "directions"


@dataclass(frozen=True, slots=True)
class UpstreamCounts(_OfTile):
    """How many points drain through each of a tile's samples, four bytes each, the higher first; 0 where there is no ground.

    A line of `mosaic-tiles` alone.
    """

    name: str
    _verb = "upstream"


@dataclass(frozen=True, slots=True)
class Tiles(Question["list[str]"]):
    """The names of the present tiles, in order."""

    def line(self) -> str:
        return "tiles"

    def answer(self, words: list[str], replies: Replies) -> list[str]:
        if _number(words[:1]) != len(words) - 1:
            raise BadReply(f"{words[0]} tiles were due, and {len(words) - 1} came")
        return words[1:]


@dataclass(frozen=True, slots=True)
class Sinks(Question["list[Point]"]):
    """The declared sinks, in rising (y, x)."""

    def line(self) -> str:
        return "sinks"

    def answer(self, words: list[str], replies: Replies) -> list[Point]:
        return _pairs(replies, _number(words))


@dataclass(frozen=True, slots=True)
class Step(Question["str | None"]):
    """Floods one stale tile and stores its planes; its name, or None if no tile is stale."""

    def line(self) -> str:
        return "step"

    def answer(self, words: list[str], replies: Replies) -> str | None:
        if len(words) != 1:
            raise BadReply(f"a tile's name was due, and {words} came")
        return None if words[0] == "none" else words[0]


@dataclass(frozen=True, slots=True)
class Count(Question[int]):
    """How many commands were accepted since the store was formatted."""

    def line(self) -> str:
        return "count"

    def answer(self, words: list[str], replies: Replies) -> int:
        return _number(words)


@dataclass(frozen=True, slots=True)
class Info(Question[Numbers]):
    """The sizes and counts of the store. A line of `mosaic-tiles` alone."""

    def line(self) -> str:
        return "info"

    def answer(self, words: list[str], replies: Replies) -> Numbers:
        names = [each.name for each in fields(Numbers)]
        if words[::2] != names:
            raise BadReply(f"{' '.join(names)} were due, and {words} came")
        return Numbers(*_numbers(words[1::2], len(names)))


def _coordinate(value: SupportsIndex) -> int:
    """A whole number that a line can carry."""
    try:
        number = operator.index(value)
    except TypeError:
        number = None
    if number is None or isinstance(value, bool):
        raise BadArgument(f"a whole number is needed, not {value!r}")
    if abs(number) > _GREATEST_NUMBER:
        raise BadArgument(f"a number has at most nine digits, not {number}")
    return number


def _points(points: Sequence[tuple[int, int]]) -> str:
    if not 1 <= len(points) <= MOST_POINTS:
        raise BadArgument(f"one command names 1 to {MOST_POINTS} points, not {len(points)}")
    try:
        return " ".join(f"{_coordinate(y)} {_coordinate(x)}" for y, x in points)
    except (TypeError, ValueError) as fault:
        raise BadArgument(f"points are pairs of whole numbers y, x: {fault}") from None


def _word(text: str) -> str:
    """A word of printed ASCII without spaces."""
    if not isinstance(text, str) or not text or not all("!" <= letter <= "~" for letter in text):
        raise BadArgument(f"a tile's name is needed, as N37W105, not {text!r}")
    return text


def _short(line: str) -> str:
    if len(line) > _LONGEST_LINE:
        raise BadArgument(f"a line has at most {_LONGEST_LINE} bytes, not {len(line)}")
    return line


def _number(words: list[str]) -> int:
    return _numbers(words, 1)[0]


def _numbers(words: list[str], count: int) -> list[int]:
    try:
        numbers = [int(word) for word in words]
    except ValueError:
        numbers = []
    if len(numbers) != count:
        raise BadReply(f"{count} numbers were due after OK, and {words} came")
    return numbers


def _pairs(replies: Replies, count: int) -> list[Point]:
    numbers = replies.rows(count, 2)
    return list(map(Point._make, zip(numbers[::2], numbers[1::2])))
