"""The session for asyncio: the same answers, many readers, and an event loop that goes on meanwhile."""

import asyncio
import signal
import subprocess
import sys
import threading
import unittest
import unittest.mock

from mosaic_store import BadArgument, SessionDied, aio, errors, open_store, questions

from .support import A_WHILE, PROGRAM, InFolder

POINTS = [(y, x) for y in range(21) for x in range(21)]
BEGINNING = "".join(
    f"sys.stdin.readline(), print({reply!r}, flush=True)\n"
    for reply in ("OK 0", "OK side 11 capacity 4 version 2 count 0 commits 1 fresh 0 stale 0")
)
"""What a program answers while a session begins."""


class Awaited(InFolder, unittest.IsolatedAsyncioTestCase):
    def setUp(self):
        super().setUp()
        self.path = self.store(11)
        with open_store(self.path, PROGRAM) as store:
            asked = [questions.Fill(*point) for point in POINTS]
            self.wanted = [str(answer) for answer in store.ask_many(asked)]

    async def asyncSetUp(self):
        asyncio.get_running_loop().slow_callback_duration = A_WHILE  # tells nothing of a loaded machine

    async def test_every_method_answers_as_the_other_session_does(self):
        async with aio.open_store(self.path, PROGRAM) as store:
            self.assertEqual(store.blocking._side, 11)  # known before a point is asked for
            self.assertEqual((store.side, store.capacity), (11, store.blocking.capacity))
            y, x = store.point_of(0.5, 0.5)
            self.assertEqual(store.degrees_of(y, x), (0.5, 0.5))
            answers = [
                await store.elevation(y, x),
                await store.fill(y, x),
                await store.direction(y, x),
                await store.trace(y, x),
                await store.watershed(y, x),
                await store.tiles(),
                await store.export("N00E000"),
            ]
            counts = [
                await store.wall(900, [(y, x)]),
                await store.burn(3, [(y, x)]),
                await store.sink(y, x),
                await store.unsink(y, x),
                await store.remove("N00E000"),
                await store.import_tile("N00E000", answers[-1]),
                await store.count(),
            ]
            self.assertEqual(counts, [5, 6, 7, 8, 9, 10, 10])
            self.assertEqual(await store.sinks(), [])
            self.assertEqual(await store.backup(self.folder / "copy"), 10)
            with self.assertRaises(errors.Outside):
                await store.fill(99, 99)
        with open_store(self.folder / "copy", PROGRAM) as store:
            names = ("elevation", "fill", "direction", "trace", "watershed")
            same = [*(getattr(store, name)(y, x) for name in names), store.tiles(), store.export("N00E000")]
            self.assertEqual(sorted(map(str, answers)), sorted(map(str, same)))

    async def test_many_readers_get_each_its_own_answer(self):
        async with aio.open_store(self.path, PROGRAM) as store, store.readers() as readers:
            asked = [readers.ask(questions.Fill(*point)) for point in POINTS]
            answers = await asyncio.gather(*asked, return_exceptions=True)
            self.assertEqual([str(answer) for answer in answers], self.wanted)
            with self.assertRaises(BadArgument):
                await readers.ask(questions.Sink(1, 1))
            with self.assertRaises(BadArgument):
                await readers.ask(questions.Fill(10**12, 1))
            cancelled = asyncio.create_task(readers.ask(questions.Fill(1, 1)))
            await asyncio.sleep(0)
            cancelled.cancel()
            self.assertEqual(str(await readers.ask(questions.Fill(*POINTS[0]))), self.wanted[0])

    async def test_a_trial_is_taken_back(self):
        async with aio.open_store(self.path, PROGRAM) as store:
            before = [await store.export(name) for name in await store.tiles()]
            async with store.trial():
                await store.wall(900, [(5, 5), (10, 10)])
                self.assertEqual(await store.elevation(10, 10), 900)
            self.assertEqual([await store.export(name) for name in await store.tiles()], before)

    async def test_a_signal_while_a_trial_is_taken_back(self):
        """It waits until that is done, and ends the program then."""
        script = (
            "import asyncio, os, signal, sys\n"
            "from mosaic_store import aio\n"
            "signal.signal(signal.SIGTERM, signal.SIG_DFL)\n"
            "async def main():\n"
            "    async with aio.open_store(sys.argv[1]) as store:\n"
            "        async with store.trial():\n"
            "            await store.wall(900, [(5, 5), (10, 10)])\n"
            "            asked = store.blocking._asked\n"
            "            def spied(*question):\n"
            "                os.kill(os.getpid(), signal.SIGTERM)\n"
            "                return asked(*question)\n"
            "            store.blocking._asked = spied\n"
            "asyncio.run(main())\n"
        )
        with open_store(self.path, PROGRAM) as store:
            before = [store.export(name) for name in store.tiles()]
        done = subprocess.run([sys.executable, "-c", script, self.path], env=self.surroundings(), check=False)
        self.assertEqual(done.returncode, -signal.SIGTERM)
        with open_store(self.path, PROGRAM, wait=A_WHILE) as store:
            self.assertEqual([store.export(name) for name in store.tiles()], before)

    async def test_the_loop_goes_on_while_the_program_works(self):
        """The program answers once the loop has let it."""
        go = self.folder / "go"
        waiting = self.script(
            f"{BEGINNING}sys.stdin.readline()\n"
            f"while not os.path.exists({str(go)!r}): time.sleep(0.01)\n"
            "print('OK 7', flush=True)"
        )
        async with aio.open_store(self.path, waiting) as store:
            answer = asyncio.create_task(store.fill(1, 1))
            for _ in range(5):
                await asyncio.sleep(0)
            self.assertFalse(answer.done())
            go.touch()
            self.assertEqual(await answer, 7)

    async def test_a_store_whose_opening_is_given_up_is_free_again(self):
        """The program is begun, and answers after its opening was abandoned; then the end of its input ends it."""
        begun, go, ended = (self.folder / name for name in ("begun", "go", "ended"))
        waiting = self.script(
            f"open({str(begun)!r}, 'w').close()\n"
            f"while not os.path.exists({str(go)!r}): time.sleep(0.01)\n"
            f"{BEGINNING}sys.stdin.read()\n"
            f"open({str(ended)!r}, 'w').close()"
        )
        opening = asyncio.create_task(aio.open_store(self.path, waiting).__aenter__())
        await asyncio.to_thread(self.wait_for, begun)
        opening.cancel()
        with self.assertRaises(asyncio.CancelledError):
            await opening
        go.touch()
        await asyncio.to_thread(self.wait_for, ended)

    async def test_a_trial_whose_beginning_is_given_up(self):
        """It begins all the same, once its task was cancelled, and is ended: another one can begin."""
        async with aio.memory_table(3, 1, PROGRAM) as table:
            asked, go, sinks = threading.Event(), threading.Event(), table.blocking.sinks
            with unittest.mock.patch.object(table.blocking, "sinks", lambda: asked.set() or go.wait() and sinks()):
                beginning = asyncio.create_task(table.trial().__aenter__())
                await asyncio.to_thread(asked.wait)
                beginning.cancel()
                with self.assertRaises(asyncio.CancelledError):
                    await beginning
                go.set()
                await table.count()
            async with table.trial() as trial:
                self.assertTrue(trial.is_open)

    async def test_a_closing_that_is_given_up(self):
        """The program is ended all the same, once what was asked is answered."""
        asked, go, store = threading.Event(), threading.Event(), aio.open_store(self.path, PROGRAM)

        async def use():
            async with store:
                with unittest.mock.patch.object(store.blocking, "count", lambda: asked.set() or go.wait()):
                    await store.count()

        using = asyncio.create_task(use())
        await asyncio.to_thread(asked.wait)
        for _ in range(2):  # it leaves the question, and then the closing
            using.cancel()
            for _ in range(5):
                await asyncio.sleep(0)
        go.set()
        with self.assertRaises(asyncio.CancelledError):
            await using
        await asyncio.to_thread(store._worker.shutdown)
        self.assertIsNone(store.blocking.pid)

    async def test_who_gives_up_its_readers_leaves_others_theirs(self):
        """What another task has asked by them is answered."""
        asked, go = threading.Event(), threading.Event()
        async with aio.memory_table(3, 1, PROGRAM) as table:
            readers, many = aio.Readers(table), table.blocking.ask_many
            with unittest.mock.patch.object(table.blocking, "ask_many", lambda asks: asked.set() or go.wait() and many(asks)):
                answer = asyncio.create_task(readers.ask(questions.Count()))
                await asyncio.to_thread(asked.wait)
                ending = asyncio.create_task(readers.end())
                await asyncio.sleep(0)
                ending.cancel()
                with self.assertRaises(asyncio.CancelledError):
                    await ending
                go.set()
                await asyncio.wait([answer], timeout=A_WHILE if readers._asking else 0)
                self.assertEqual(answer.done() and answer.result(), 0)

    async def test_it_is_closed_twice(self):
        async with aio.memory_table(3, 1, PROGRAM) as table:
            await table.close()
            with self.assertRaisesRegex(SessionDied, "closed"):
                await table.count()
        with self.assertRaisesRegex(SessionDied, "closed"):
            await table.count()

    async def test_what_cannot_be_opened(self):
        with self.assertRaises(errors.CannotOpen):
            async with aio.open_store(self.folder / "none", PROGRAM):
                pass
        with self.assertRaises(BadArgument):
            await aio.open_store(self.path, PROGRAM).count()


if __name__ == "__main__":
    unittest.main()
