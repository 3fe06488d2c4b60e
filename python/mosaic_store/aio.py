"""A session for asyncio: the questions and commands of `Session`, to be awaited, by a thread of its own.

    async with open_store("region/store") as store:
        y, x = store.point_of(37.5, -105.25)
        print(await store.fill(y, x), "m")
        async with store.readers() as readers:
            levels = await asyncio.gather(*(readers.ask(Fill(y, x)) for x in range(1000)))
"""

from __future__ import annotations

import asyncio
import contextlib
import functools
from collections.abc import AsyncIterator, Callable, Iterable
from concurrent.futures import Future, ThreadPoolExecutor
from typing import Any, ParamSpec, TypeVar

from . import session as sessions
from .errors import BadArgument, Refusal, SessionDied
from .lattice import Direction, Place, Point
from .questions import Command, Numbers, Question, Watershed
from .stores import PathLike, Report
from .signals import DeferredSignals
from .trials import Trial

Answer = TypeVar("Answer")
Result = TypeVar("Result")
Given = ParamSpec("Given")


class Session:
    """A session that is awaited. Made by `open_store` or `memory_table`, to be used in an `async with`.

    Its one thread asks one line at a time, in the order in which they were awaited, so that no event loop waits for the
    program. A task that is cancelled stops waiting: a line that was sent is answered all the same, and a command made, and one
    whose turn hasn't come isn't sent.
    """

    def __init__(self, begin: Callable[[], sessions.Session]) -> None:
        self._begin = begin
        self._worker = ThreadPoolExecutor(1, "mosaic")
        self._session: sessions.Session | None = None
        self._capacity: int | None = None

    async def __aenter__(self) -> Session:
        begun = self._worker.submit(self._begun)
        try:
            session = await asyncio.wrap_future(begun)
        except BaseException:
            begun.add_done_callback(_close_begun)  # it may begin all the same, where this task was cancelled
            self._worker.shutdown(wait=False)
            raise
        self._session = session
        return self

    def _begun(self) -> sessions.Session:
        session = self._begin()
        try:
            session.side  # from now on it is known without a question
            self._capacity = session.capacity
        except BaseException:
            session.close()
            raise
        return session

    async def __aexit__(self, *_: object) -> None:
        try:
            await self.close()
        finally:
            self._worker.shutdown(wait=False)

    async def close(self) -> None:
        """Ends the program once all questions are answered."""
        await asyncio.shield(self._call(self.blocking.close))

    @property
    def blocking(self) -> sessions.Session:
        """The session beneath, for any thread that may wait."""
        if self._session is None:
            raise BadArgument("a session is used in an `async with`")
        return self._session

    async def _call(self, act: Callable[Given, Result], *given: Given.args, **named: Given.kwargs) -> Result:
        try:
            asked = asyncio.get_running_loop().run_in_executor(self._worker, functools.partial(act, *given, **named))
        except RuntimeError:  # its thread has ended
            raise SessionDied("the session is closed") from None
        return await asked

    # ---- the store, known without a question ----

    @property
    def side(self) -> int:
        """The side of each tile, in samples."""
        return self.blocking.side

    @property
    def capacity(self) -> int | None:
        """The greatest number of tiles; None if the program can't answer that, as `mosaic` can't."""
        return self._capacity

    def point_of(self, latitude: float, longitude: float) -> Point:
        """The point that is nearest to a place in degrees, north and east positive."""
        return self.blocking.point_of(latitude, longitude)

    def degrees_of(self, y: int, x: int) -> Place:
        """The place of a point in degrees, north and east positive."""
        return self.blocking.degrees_of(y, x)

    # ---- questions and commands: as those of `mosaic_store.Session` ----

    async def ask(self, question: Question[Answer]) -> Answer:
        """The answer to any question or command of `questions`."""
        return await self._call(lambda: self.blocking.ask(question))

    async def ask_many(self, asked: Iterable[Question[Answer]]) -> list[Answer | Refusal]:
        """The answers to many questions in their order, refusals in place; far faster than one by one."""
        questions = list(asked)
        return await self._call(lambda: self.blocking.ask_many(questions))

    async def import_tile(self, name: str, data: Any) -> int:
        return await self._call(self.blocking.import_tile, name, data)

    async def remove(self, name: str) -> int:
        return await self._call(self.blocking.remove, name)

    async def patch(self, y0: int, x0: int, y1: int, x1: int, height: int) -> int:
        return await self._call(self.blocking.patch, y0, x0, y1, x1, height)

    async def burn(self, depth: int, points: Iterable[tuple[int, int]]) -> int:
        return await self._call(self.blocking.burn, depth, points)

    async def wall(self, height: int, points: Iterable[tuple[int, int]]) -> int:
        return await self._call(self.blocking.wall, height, points)

    async def sink(self, y: int, x: int) -> int:
        return await self._call(self.blocking.sink, y, x)

    async def unsink(self, y: int, x: int) -> int:
        return await self._call(self.blocking.unsink, y, x)

    async def elevation(self, y: int, x: int) -> int | None:
        return await self._call(self.blocking.elevation, y, x)

    async def fill(self, y: int, x: int) -> int:
        return await self._call(self.blocking.fill, y, x)

    async def direction(self, y: int, x: int) -> Direction:
        return await self._call(self.blocking.direction, y, x)

    async def trace(self, y: int, x: int) -> list[Point]:
        return await self._call(self.blocking.trace, y, x)

    async def watershed(self, y: int, x: int) -> Watershed:
        return await self._call(self.blocking.watershed, y, x)

    async def export(self, name: str) -> bytes:
        return await self._call(self.blocking.export, name)

    async def tile(self, name: str) -> Any:
        return await self._call(self.blocking.tile, name)

    async def levels(self, name: str) -> Any:
        return await self._call(self.blocking.levels, name)

    async def directions(self, name: str) -> Any:
        return await self._call(self.blocking.directions, name)

    async def upstream(self, name: str) -> Any:
        return await self._call(self.blocking.upstream, name)

    async def tiles(self) -> list[str]:
        return await self._call(self.blocking.tiles)

    async def sinks(self) -> list[Point]:
        return await self._call(self.blocking.sinks)

    async def info(self) -> Numbers:
        return await self._call(self.blocking.info)

    async def step(self) -> str | None:
        return await self._call(self.blocking.step)

    async def count(self) -> int:
        return await self._call(self.blocking.count)

    async def backup(self, path: PathLike) -> int:
        return await self._call(self.blocking.backup, path)

    async def report(self) -> Report:
        return await self._call(self.blocking.report)

    async def reopen(self) -> sessions.Recovery:
        return await self._call(self.blocking.reopen)

    # ---- trials and readers ----

    @contextlib.asynccontextmanager
    async def trial(self) -> AsyncIterator[Trial]:
        """Edits inside are taken back exactly at the end, unless `keep` was called.

        Other tasks aren't kept waiting: what they edit meanwhile belongs to the trial, and is taken back with it. A signal that ends
        the program waits while that is done; before it SIGTERM and SIGHUP end the program at once, unless it catches them.
        """
        begun = self._worker.submit(self.blocking.begin_trial)
        try:
            trial = await asyncio.wrap_future(begun)
        except BaseException:
            begun.add_done_callback(_end_begun)  # it may begin all the same, where this task was cancelled
            raise
        try:
            yield trial
        finally:
            deferred = DeferredSignals()
            try:
                deferred.start()
                if trial.is_open:
                    await asyncio.shield(self._call(trial.take_back))
            finally:
                deferred.end()

    @contextlib.asynccontextmanager
    async def readers(self) -> AsyncIterator[Readers]:
        """Lets any number of tasks ask: what they ask at the same moment goes to the program together."""
        readers = Readers(self)
        try:
            yield readers
        finally:
            await readers.end()


def _close_begun(begun: Future[sessions.Session]) -> None:
    if not begun.cancelled() and begun.exception() is None:
        begun.result().close()


def _end_begun(begun: Future[Trial]) -> None:
    if not begun.cancelled() and begun.exception() is None:
        begun.result().keep()


class Readers:
    """Questions of many tasks, put together. Made by `Session.readers`."""

    def __init__(self, session: Session) -> None:
        self._session = session
        self._waiting: list[tuple[Question[Any], asyncio.Future[Any]]] = []
        self._asking: asyncio.Task[None] | None = None

    async def ask(self, question: Question[Answer]) -> Answer:
        """The answer to a question; its refusal raised. Commands are the session's, one at a time."""
        if isinstance(question, Command):
            raise BadArgument("readers ask questions; a command is the session's")
        question.line()  # what no line can carry is this task's fault alone
        future: asyncio.Future[Answer] = asyncio.get_running_loop().create_future()
        self._waiting.append((question, future))
        if self._asking is None:
            self._asking = asyncio.create_task(self._ask_waiting())
        return await future

    async def end(self) -> None:
        """Waits until all that was asked is answered."""
        if self._asking is not None:
            await asyncio.shield(self._asking)  # others may wait for answers when this task is cancelled

    async def _ask_waiting(self) -> None:
        """Asks what waits, as much at a time as there is."""
        try:
            while self._waiting:
                batch, self._waiting = self._waiting, []
                await self._answer(batch)
        finally:
            self._asking = None

    async def _answer(self, batch: list[tuple[Question[Any], asyncio.Future[Any]]]) -> None:
        answers: list[Any]
        try:
            answers = await self._session.ask_many([question for question, _ in batch])
        except Exception as fault:
            answers = [fault] * len(batch)
        for (_, future), answer in zip(batch, answers):
            if future.done():
                continue  # its task was cancelled
            if isinstance(answer, Exception):
                future.set_exception(answer)
            else:
                future.set_result(answer)


def open_store(
    path: PathLike,
    program: PathLike | None = None,
    timeout: float | None = None,
    wait: float = 0.0,
    restart: bool = False,
) -> Session:
    """A store by `mosaic serve`, opened by `async with`; the arguments are those of `mosaic_store.open_store`."""
    return Session(functools.partial(sessions.open_store, path, program, timeout, wait, restart))


def memory_table(side: int, capacity: int, program: PathLike | None = None, timeout: float | None = None) -> Session:
    """An empty mosaic in memory by `mosaic table`, begun by `async with`."""
    return Session(functools.partial(sessions.memory_table, side, capacity, program, timeout))
