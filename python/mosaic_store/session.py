"""A session with a store: one method a word of the language, safe for threads, begun anew after a crash.

    with open_store("region/store") as store:
        y, x = store.point_of(37.5, -105.25)
        print(store.fill(y, x), "m")
"""

from __future__ import annotations

import contextlib
import itertools
import os
import tempfile
import threading
import time
from collections.abc import Callable, Iterable, Iterator, Sequence
from dataclasses import dataclass
from types import TracebackType
from typing import TYPE_CHECKING, Any, TypeVar, Union, cast

from . import questions
from .backups import copy_file
from .channel import Channel, Word
from .errors import (
    BadArgument,
    BadBox,
    BadLine,
    BadName,
    BadReply,
    Device,
    NoCauseSeen,
    NothingVoid,
    ProgramNotFound,
    Refusal,
    SessionDied,
    StoreBusy,
    StoreChanged,
    refusal_of,
)
from .lattice import GREATEST_SIDE, LEAST_SIDE, Direction, Place, Point, degrees_of, point_of
from .questions import Command, Numbers, Question, Watershed
from .samples import array_of, bytes_of, codes_of, counts_of
from .stores import PathLike, Report, cannot_open, check_store, find_server, path_word
from .trials import Tiles, Trial, TrialBlock

if TYPE_CHECKING:
    from .samples import Array, Codes, Counts, Samples

Answer = TypeVar("Answer")
Result = TypeVar("Result")

Points = Iterable[tuple[int, int]]

_BATCH = 4096
_BUSY_PAUSE = 0.02
_MOST_RESTARTS = 5
_SECONDS_TO_FREE = 10.0
_OFF_ALL_TILES = 900_000_000


@dataclass(frozen=True)
class Recovery:
    """What a session that was begun anew found."""

    acknowledged: int
    """How many commands were known to be accepted before."""
    count: int
    """How many are accepted now."""
    in_doubt: Command | None
    """The command that was sent and not answered, or answered Device; None where there was none."""

    @property
    def stands(self) -> bool:
        """Whether the command in doubt was made, whole. If not, nothing of it was."""
        return self.in_doubt is not None and self.count == self.acknowledged + 1


class Session:
    """A conversation with a program that serves a store. Made by `open_store` or `memory_table`.

    Heights, levels and depths are whole metres; points are y, x in samples. Each method sends one line and reads its
    whole reply. A refusal is raised as the class of `errors` that has its number and word; the session goes on. Any
    number of threads may use a session: one line is asked at a time.
    """

    def __init__(self, words: Sequence[Word], path: PathLike | None, timeout: float | None, restart: bool) -> None:
        self._words, self._path = words, path
        self._only_reads = "read" in words[1:2]
        self._timeout, self._restart = timeout, restart
        self._lock = threading.RLock()
        self._channel: Channel | None = None
        self._side: int | None = None
        self._capacity: int | None = None
        self._acknowledged = 0
        self._in_doubt: Command | None = None
        self._trial: Trial | None = None
        self._tiles_known: tuple[int, Tiles] = 0, {}
        """Some tiles as they were at a count: those of the last trial that was taken back."""
        self._is_closed = False
        self._turn = threading.Lock()
        self._asking = 0
        """The thread whose call is asked just now; 0 where none is."""
        self._is_interrupted = False
        self._takes_whole_tiles: bool | None = None

    # ---- the store ----

    @property
    def side(self) -> int:
        """The side of each tile, in samples. It never changes, and is asked for once."""
        if self._side is None:
            try:
                told = self.info()
                self._side, self._capacity = told.side, told.capacity
            except BadLine:
                self._side = self._side_by_boxes()
        return self._side

    @property
    def capacity(self) -> int | None:
        """The greatest number of tiles; None where the program can't say, as `mosaic` can't."""
        if self._capacity is None:
            with contextlib.suppress(BadLine):
                self._capacity = self.info().capacity
        return self._capacity

    @property
    def acknowledged(self) -> int:
        """The last k that was answered: it and all commands before it are on the drive."""
        return self._acknowledged

    @property
    def pid(self) -> int | None:
        """The id of the program's process; None if none runs."""
        channel = self._channel
        return None if channel is None else channel.process.pid

    @property
    def takes_whole_tiles(self) -> bool:
        """Whether the program answers about all samples of a tile by one line, as `mosaic-tiles` does."""
        if self._takes_whole_tiles is None:
            try:
                self.ask(questions.Levels("-"))
            except (BadLine, BadName) as refusal:
                self._takes_whole_tiles = isinstance(refusal, BadName)
        return self._takes_whole_tiles is True

    def point_of(self, latitude: float, longitude: float) -> Point:
        """The point that is nearest to a place in degrees, north and east positive."""
        return point_of(latitude, longitude, self.side)

    def degrees_of(self, y: int, x: int) -> Place:
        """The place of a point in degrees, north and east positive."""
        return degrees_of(Point(y, x), self.side)

    # ---- commands: each answers k, the number of commands accepted since the store was formatted ----

    def import_tile(self, name: str, data: bytes | Array) -> int:
        """Adds a tile: its HGT bytes, or an array of whole numbers of shape (side, side), the north row first."""
        return self.ask(questions.Import(name, bytes_of(data)))

    def remove(self, name: str) -> int:
        """Takes a tile out."""
        return self.ask(questions.Remove(name))

    def patch(self, y0: int, x0: int, y1: int, x1: int, height: int) -> int:
        """Gives a height to each void of a box, ends included, at most `side` points each way."""
        return self.ask(questions.Patch(y0, x0, y1, x1, height))

    def burn(self, depth: int, points: Points) -> int:
        """Lowers 1 to 64 points by a depth from 1 to 32767."""
        return self.ask(questions.Burn(depth, tuple(points)))

    def wall(self, height: int, points: Points) -> int:
        """Raises 1 to 64 points to a height, if they are lower."""
        return self.ask(questions.Wall(height, tuple(points)))

    def sink(self, y: int, x: int) -> int:
        """Declares a ground point a sink."""
        return self.ask(questions.Sink(y, x))

    def unsink(self, y: int, x: int) -> int:
        """Takes a declared sink back."""
        return self.ask(questions.Unsink(y, x))

    # ---- questions ----

    def elevation(self, y: int, x: int) -> int | None:
        """The height of a point; None if it is void. Outside if no tile has it."""
        return self.ask(questions.Elevation(y, x))

    def fill(self, y: int, x: int) -> int:
        """The filled level of a point: as high as water stands before it runs off."""
        return self.ask(questions.Fill(y, x))

    def direction(self, y: int, x: int) -> Direction:
        """The direction in which water leaves a point."""
        return self.ask(questions.FlowDirection(y, x))

    def trace(self, y: int, x: int) -> list[Point]:
        """The flow path of a point, itself first, to the point where water leaves the mosaic."""
        return self.ask(questions.Trace(y, x))

    def watershed(self, y: int, x: int) -> Watershed:
        """The points whose flow path contains this one, itself among them."""
        return self.ask(questions.WatershedOf(y, x))

    def export(self, name: str) -> bytes:
        """A tile's own HGT bytes, 2 * side * side of them."""
        return self.ask(questions.Export(name))

    def tile(self, name: str) -> Samples:
        """A tile's own samples in metres, an array of int16 of shape (side, side), the north row first; -32768 is void."""
        return array_of(self.export(name))

    def levels(self, name: str) -> Samples:
        """The filled levels of a tile's samples in metres, int16 of shape (side, side), the north row first.

        -32768 where the sample's point isn't ground. By one line where the session `takes_whole_tiles`, else by questions.
        """
        if self.takes_whole_tiles:
            return array_of(self.ask(questions.Levels(name)))
        from .rasters import levels_of, tile_of

        return cast("Samples", levels_of(self, tile_of(self, name)).astype("int16"))

    def directions(self, name: str) -> Codes:
        """The direction codes of a tile's samples, uint8 of shape (side, side), the north row first.

        0 is an outlet, 255 where the sample's point isn't ground. As `levels`, by one line or by questions.
        """
        if self.takes_whole_tiles:
            return codes_of(self.ask(questions.FlowDirections(name)))
        from .directions import directions_of
        from .rasters import tile_of

        return directions_of(self, tile_of(self, name))

    def upstream(self, name: str) -> Counts:
        """How many points drain through each of a tile's samples, uint32 of shape (side, side), the north row first.

        The cells of `watershed` there, from whichever tiles; 0 where the sample's point isn't ground. As `levels`, by one line
        or by questions: those of its directions, and a watershed for each point beside the tile that drains into it.
        """
        if self.takes_whole_tiles:
            return counts_of(self.ask(questions.UpstreamCounts(name)))
        from .network import network_of
        from .rasters import tile_of

        return cast("Counts", network_of(self, tile_of(self, name).window).counts.astype("uint32"))

    def tiles(self) -> list[str]:
        """The names of the present tiles, in order."""
        return self.ask(questions.Tiles())

    def sinks(self) -> list[Point]:
        """The declared sinks, in rising (y, x)."""
        return self.ask(questions.Sinks())

    def step(self) -> str | None:
        """Floods one stale tile and stores its levels and labels; its name, or None if no tile is stale."""
        return self.ask(questions.Step())

    def count(self) -> int:
        """How many commands were accepted since the store was formatted."""
        return self.ask(questions.Count())

    def info(self) -> Numbers:
        """The sizes of the store, and what it counts. BadLine where the session doesn't take whole tiles."""
        return self.ask(questions.Info())

    def backup(self, path: PathLike) -> int:
        """Copies the store's file to another, whole, between two commands; the count that the copy has.

        Where a command is in doubt the copy tells whether it has it. Other threads wait until it is done. StoreExists where a
        file of that name is there.
        """
        with self._lock:
            if self._path is None or self._only_reads:
                raise BadArgument("a table in memory has no file to copy, and a reader doesn't hold off edits of its store")
            count = self.count()
            copy_file(os.fsdecode(self._path), os.fsdecode(path))
            return count if self._in_doubt is None else check_store(path, self._words[0]).count

    def report(self) -> Report:
        """The report of `check_store`, fresh and stale tiles too, from a copy that is made beside the store and removed."""
        beside = os.path.dirname(os.fsdecode(self._path or "")) or "."
        with tempfile.TemporaryDirectory(dir=beside) as folder:
            copy = os.path.join(folder, "copy")
            self.backup(copy)
            return check_store(copy, self._words[0])

    def ask(self, question: Question[Answer]) -> Answer:
        """The answer to any question or command of `questions`.

        A session with `restart` is begun anew within the call where it died; a command is asked again only where it
        doesn't stand.
        """
        line = question.line()
        with self._lock:
            if self._trial is not None and isinstance(question, Command):
                self._trial.prepare(question)
            return self._surely(lambda: self._asked(question, line), question)

    def ask_many(self, asked: Iterable[Question[Answer]]) -> list[Answer | Refusal]:
        """The answers to many questions in their order, refusals in place; far faster than one by one.

        Questions are sent while replies are read, so that neither side waits for the other. Commands aren't taken: at
        most one is ever in doubt. Where the session dies, nothing is lost: ask again.
        """
        return list(self.pipeline(asked))

    def pipeline(self, asked: Iterable[Question[Answer]]) -> Iterator[Answer | Refusal]:
        """As `ask_many`, one answer after another; a few thousand questions are sent at a time."""
        rest = iter(asked)
        while batch := list(itertools.islice(rest, _BATCH)):
            yield from self._asked_many(batch)

    # ---- trials ----

    def trial(self) -> TrialBlock:
        """Edits inside are taken back exactly at the end, unless `keep` was called. Other threads wait meanwhile.

            with store.trial():
                store.wall(1193, road)
                level = store.fill(y, x)

        Heights of every tile and the sinks are then as before. The count k goes up by the edits and by those that take
        them back, and the tiles touched and their neighbours are stale. The edits are on the drive meanwhile: where
        this process is killed inside they stay. SIGINT, SIGTERM and SIGHUP end the block as an exception does, and wait
        while the edits are taken back.
        """
        return TrialBlock(self)

    def begin_trial(self) -> Trial:
        """A trial that is ended by hand, from any thread, by its `keep` or `take_back`. One at a time.

        Every edit of the session meanwhile belongs to it, whichever thread makes it.
        """
        with self._lock:
            if self._trial is not None:
                raise BadArgument("a trial is in progress: keep it or take it back first")
            count, tiles = self._tiles_known
            self._trial = Trial(self, self.sinks(), tiles if count == self._acknowledged else {}, self._end_trial)
            return self._trial

    def _end_trial(self) -> None:
        self._trial = None

    # ---- beginning and ending ----

    def reopen(self) -> Recovery:
        """Begins the session anew, after it died or failed, and says which commands stand.

        All acknowledged commands stand. Of the one in doubt `Recovery.stands` tells. StoreChanged where another
        program has changed the store meanwhile.
        """
        with self._lock:
            if self._path is None:
                raise SessionDied("a table in memory is gone with its program: make another one")
            self._end_channel()
            self._is_closed = False
            acknowledged, in_doubt = self._acknowledged, self._in_doubt
            self._start(_SECONDS_TO_FREE)
            recovery = Recovery(acknowledged, self._acknowledged, in_doubt)
            if not self._only_reads and recovery.count - acknowledged not in ((0, 1) if in_doubt is not None else (0,)):
                raise StoreChanged(
                    f"{os.fsdecode(self._path)}: {acknowledged} commands were acknowledged, and the store counts "
                    f"{recovery.count}: another program has changed it meanwhile"
                )
            return recovery

    def after_crash(self) -> Recovery:
        """The same as `reopen`."""
        return self.reopen()

    def interrupt(self, thread: int) -> None:
        """Ends the program where it is asked by a thread just now: that call is a SessionDied, and isn't asked again.

        The next call begins a session with `restart` anew. Only for questions: a command may stand or not.
        """
        with self._turn:
            if self._asking == thread and self._channel is not None:
                self._is_interrupted = True
                self._channel.process.kill()

    def close(self) -> None:
        """Ends the program by the end of its input. Acknowledged commands stay, and so does a trial that wasn't taken
        back."""
        with self._lock:
            self._is_closed = True
            self._end_channel()

    def quit(self) -> None:
        """The same as `close`."""
        self.close()

    def __enter__(self) -> Session:
        return self

    def __exit__(
        self, kind: type[BaseException] | None, error: BaseException | None, trace: TracebackType | None
    ) -> None:
        self.close()

    # ---- within ----

    def _start(self, wait: float) -> None:
        """Starts the program and asks for the count; waits some seconds for another program to end."""
        until = time.monotonic() + wait
        while True:
            try:
                self._start_once()
                return
            except (StoreBusy, NoCauseSeen):
                if time.monotonic() >= until:
                    raise
                time.sleep(_BUSY_PAUSE)

    def _start_once(self) -> None:
        channel = Channel(self._words, self._timeout)
        count = questions.Count()
        try:
            if not self._only_reads:  # a reader tells the count unasked
                channel.send(_end(count.line()))
            words = channel.line()
            if words[:1] == ["mosaic:"] and self._path is not None:
                raise cannot_open(self._path)
            self._acknowledged = _replied(count, " ".join(map(os.fsdecode, self._words[1:])), words, channel)
        except BaseException:
            channel.kill()
            raise
        self._channel, self._in_doubt = channel, None

    def _end_channel(self) -> None:
        channel, self._channel = self._channel, None
        if channel is not None:
            (channel.finish if channel.is_idle else channel.kill)()

    def _living(self) -> Channel:
        if self._is_closed:
            raise SessionDied("the session is closed")
        if self._channel is None:
            raise SessionDied("the session died: `reopen` begins it anew")
        return self._channel

    def _asked(self, question: Question[Answer], line: str) -> Answer:
        channel = self._living()
        command: Command | None = question if isinstance(question, Command) else None
        earlier = self._in_doubt
        self._in_doubt = earlier or command  # a store that failed at the earlier one takes no other
        try:
            channel.send(_end(line), command.payload() if command is not None else b"")
            answer = _replied(question, line, channel.line(), channel)
        except Refusal as refusal:
            if not isinstance(refusal, Device):
                self._in_doubt = earlier
            raise
        except BaseException:
            self._kill()  # a reply may be half read, and the next would be taken for it
            raise
        if command is not None:
            self._acknowledged, self._in_doubt = cast(int, answer), None
        return answer

    def _asked_many(self, batch: list[Question[Answer]]) -> list[Answer | Refusal]:
        lines = [question.line() for question in batch]
        if any(isinstance(question, Command) for question in batch):
            raise BadArgument("commands are asked one at a time, so that at most one is in doubt")
        with self._lock:
            return self._surely(lambda: self._pipelined(batch, lines))

    def _surely(self, ask: Callable[[], Result], question: Question[Any] | None = None) -> Result:
        """What `ask` answers. A session with `restart` is begun anew where it dies, and asked again what doesn't stand."""
        for _ in range(_MOST_RESTARTS):
            try:
                return self._interruptibly(ask)
            except SessionDied:
                if not self._restart or self._is_closed or self._path is None or self._is_interrupted:
                    raise
            with contextlib.suppress(SessionDied):  # it may die while it opens
                recovery = self.reopen()
                if recovery.stands and recovery.in_doubt is question:
                    return cast(Result, recovery.count)
        return ask()

    def _interruptibly(self, ask: Callable[[], Result]) -> Result:
        """What `ask` answers; meanwhile `interrupt` reaches it."""
        with self._turn:
            self._asking, self._is_interrupted = threading.get_ident(), False
        try:
            return ask()
        finally:
            with self._turn:
                self._asking = 0

    def _pipelined(self, batch: list[Question[Answer]], lines: list[str]) -> list[Answer | Refusal]:
        channel = self._living()
        answers: list[Answer | Refusal] = []
        try:
            channel.send(_end("\n".join(lines)))
            for question, line in zip(batch, lines):
                try:
                    answers.append(_replied(question, line, channel.line(), channel))
                except Refusal as refusal:
                    answers.append(refusal)
        except BaseException:
            self._kill()
            raise
        return answers

    def _kill(self) -> None:
        channel, self._channel = self._channel, None
        if channel is not None:
            channel.kill()

    def _side_by_boxes(self) -> int:
        """The side, where no line says it: a box off all tiles is refused as NothingVoid, but as BadBox if it is longer than a side."""
        least, greatest = LEAST_SIDE, GREATEST_SIDE
        while least < greatest:
            tried = (least + greatest + 1) // 2
            box = questions.Patch(_OFF_ALL_TILES, 0, _OFF_ALL_TILES + tried - 1, 0, 0)
            try:
                with self._lock:
                    self._surely(lambda: self._asked(box, box.line()))
            except BadBox:
                greatest = tried - 1
            except NothingVoid:
                least = tried
        return least


def open_store(
    path: PathLike,
    program: PathLike | None = None,
    timeout: float | None = None,
    wait: float = 0.0,
    restart: bool = False,
) -> Session:
    """Opens a store by `mosaic serve`: a session, to be used in a `with`.

    `program` is the program's path (see `find_program`); `mosaic-tiles` beside it serves in its place. `timeout` is how many
    seconds may pass while the program neither reads nor writes; it is ended then. `wait` is how many seconds a store that
    another program has open is waited for. With `restart` a session that dies is begun anew within the call, and nothing is
    asked twice.

    CannotOpen, StoreBusy, ProgramNotFound, or a refusal of opening (NotAStore, Version, Damaged, TooSmall, Device).
    """
    return _served("serve", path, program, timeout, wait, restart)


def read_store(
    path: PathLike, program: PathLike | None = None, timeout: float | None = None, restart: bool = False
) -> Session:
    """Reads a store that another program may be editing, by `mosaic-tiles read`: a session for questions alone.

    Each answer is of the store as it was at one moment since the question was asked; Changing where the store changes faster
    than that. Commands and `step` are BadLine. `program`, `timeout` and `restart` are as for `open_store`.

    CannotOpen, ProgramNotFound, or a refusal of opening.
    """
    if os.path.basename(find_server(program)) == "mosaic":
        raise ProgramNotFound("the program `mosaic-tiles` wasn't found beside `mosaic`: it reads beside an edit")
    return _served("read", path, program, timeout, 0.0, restart)


def memory_table(
    side: int, capacity: int, program: PathLike | None = None, timeout: float | None = None
) -> Session:
    """An empty mosaic in memory by `mosaic table`, for tiles of a side, at most `capacity` of them: for tests and trials.

    BadSide or BadCapacity out of range.
    """
    session = _session(["table", str(side), str(capacity)], None, program, timeout, False)
    session._side, session._capacity = side, capacity
    session._start(0.0)
    return session


def _served(
    word: str, path: PathLike, program: PathLike | None, timeout: float | None, wait: float, restart: bool
) -> Session:
    if not os.path.isfile(path):
        raise cannot_open(path)
    place = os.path.abspath(os.fsdecode(path))  # this process may work in another folder when the program is begun anew
    session = _session([word, path_word(place)], place, program, timeout, restart)
    session._start(wait)
    return session


def _session(
    words: list[Union[str, bytes]], path: PathLike | None, program: PathLike | None, timeout: float | None, restart: bool
) -> Session:
    server = find_server(program)
    return Session([os.path.abspath(server) if os.path.dirname(server) else server, *words], path, timeout, restart)


def _end(line: str) -> bytes:
    return line.encode("ascii") + b"\n"


def _replied(question: Question[Answer], line: str, words: list[str], channel: Channel) -> Answer:
    """The answer to a question that was sent as a line, from the words of its reply; its refusal raised."""
    if words[:1] == ["OK"]:
        try:
            return question.answer(words[1:], channel)
        except ValueError as fault:
            raise BadReply(str(fault)) from None
    refusal = refusal_of(words, line)
    if refusal is not None:
        raise refusal
    if words[:1] == ["mosaic:"]:
        raise SessionDied(" ".join(words))
    raise BadReply(f"a reply was due, and this came: {' '.join(words)[:80]!r}: is this the program `mosaic`?")
