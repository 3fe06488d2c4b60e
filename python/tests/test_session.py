"""Sessions: each word, each refusal, many questions, threads, deaths."""

import contextlib
import itertools
import os
import pickle
import random
import shutil
import signal
import subprocess
import sys
import threading
import unittest
import unittest.mock

from mosaic_store import (
    BadArgument,
    BadReply,
    CannotOpen,
    Direction,
    ProgramNotFound,
    Refusal,
    Session,
    SessionDied,
    StoreBusy,
    StoreChanged,
    StoreExists,
    TimedOut,
    check_store,
    errors,
    find_program,
    format_store,
    memory_table,
    open_store,
    questions,
)

from .support import A_WHILE, IS_REAL, PROGRAM, PYTHON, THREE, InFolder, hills, needs


class Words(unittest.TestCase):
    """The worked rows of docs/lines.md."""

    def setUp(self):
        self.table = memory_table(3, 4, PROGRAM)
        self.addCleanup(self.table.close)
        self.assertEqual(self.table.import_tile("N00E000", THREE), 1)

    def test_questions(self):
        table = self.table
        self.assertEqual(table.elevation(0, 2), 5)
        self.assertEqual(table.fill(1, 1), 5)
        self.assertIs(table.direction(1, 1), Direction.SOUTH_EAST)
        self.assertEqual(table.trace(0, 0), [(0, 0), (1, 1), (0, 2)])
        found = table.watershed(0, 2)
        self.assertEqual((found.cells, found.runs), (9, ((2, 0, 2), (1, 0, 2), (0, 0, 2))))
        self.assertEqual(len(list(found.points())), 9)
        self.assertEqual(table.export("N00E000"), THREE)
        self.assertEqual(table.tiles(), ["N00E000"])
        self.assertEqual((table.step(), table.step()), ("N00E000", None))
        self.assertEqual((table.count(), table.acknowledged), (1, 1))
        self.assertEqual((table.side, table.capacity), (3, 4))

    def test_commands(self):
        table = self.table
        self.assertEqual(table.wall(7, [(0, 2)]), 2)
        self.assertEqual(table.burn(2, [(0, 2), (1, 1)]), 3)
        self.assertEqual((table.elevation(0, 2), table.elevation(1, 1)), (5, -1))
        self.assertEqual(table.sink(1, 1), 4)
        self.assertEqual(table.sinks(), [(1, 1)])
        self.assertEqual(table.unsink(1, 1), 5)
        self.assertEqual(table.remove("n00e000"), 6)
        self.assertEqual(table.import_tile("N00E000", b"\x80\0" * 9), 7)
        self.assertIsNone(table.elevation(1, 1))
        self.assertEqual(table.patch(0, 0, 2, 2, -4), 8)
        self.assertEqual(table.elevation(1, 1), -4)

    def test_refusals_are_classes(self):
        self.assertEqual(len(errors.REFUSALS), 29)
        for number, kind in errors.REFUSALS.items():
            self.assertEqual((kind.number, kind.word), (number, kind.__name__))
            self.assertTrue(kind.cause and kind.cure, kind)
            again = pickle.loads(pickle.dumps(kind("fill 9 9")))  # as a pool of processes hands it on
            self.assertEqual((type(again), again.line, str(again)), (kind, "fill 9 9", str(kind("fill 9 9"))))

    def test_each_refusal_and_the_next_answer(self):
        """Each refusal that lines reach, and after each one the replies are still in step."""
        table = self.table
        void = b"\x80\0" * 9
        table.import_tile("N01E000", void)
        table.sink(1, 1)
        asked = [
            (2, lambda: table.export("XX")),
            (2, lambda: table.import_tile("N90E000", THREE)),
            (3, lambda: table.import_tile("N00E001", THREE[:-1])),
            (3, lambda: table.import_tile("N00E001", b"")),
            (4, lambda: table.import_tile("N00E000", THREE)),
            (5, lambda: table.remove("S01E000")),
            (5, lambda: table.export("S01E000")),
            (7, lambda: table.elevation(9, 9)),
            (7, lambda: table.watershed(9, 9)),
            (8, lambda: table.fill(3, 1)),
            (8, lambda: table.trace(3, 1)),
            (9, lambda: table.patch(0, 0, 1, 1, 5)),
            (10, lambda: table.wall(40000, [(0, 0)])),
            (11, lambda: table.burn(0, [(0, 0)])),
            (12, lambda: table.patch(1, 0, 0, 0, 5)),
            (13, lambda: table.wall(5, [(0, 0), (0, 0)])),
            (14, lambda: table.burn(32767, [(0, 0), (1, 1)]) and table.burn(32767, [(1, 1)])),
            (15, lambda: table.sink(1, 1)),
            (17, lambda: table.unsink(0, 0)),
        ]
        for number, ask in asked:
            with self.subTest(number), self.assertRaises(errors.REFUSALS[number]) as caught:
                ask()
            self.assertIn(errors.REFUSALS[number].cause, str(caught.exception))
            self.assertEqual(table.tiles(), ["N00E000", "N01E000"])
        for name in ("N00E001", "N01E001"):
            table.import_tile(name, void)
        with self.assertRaises(errors.Full):
            table.import_tile("N02E000", THREE)
        count = table.count()
        for sink in [(y, x) for y in range(3) for x in range(3) if (y, x) != (1, 1)]:
            table.sink(*sink)
        self.assertEqual(table.count(), count + 8)

    def test_sinks_full(self):
        with memory_table(5, 1, PROGRAM) as table:
            table.import_tile("N00E000", b"\0\1" * 25)
            for at in range(16):
                table.sink(at // 4, at % 4)
            with self.assertRaises(errors.SinksFull):
                table.sink(4, 4)

    def test_arguments_that_no_line_carries(self):
        table = self.table
        asked = [
            lambda: table.elevation(1.5, 1),
            lambda: table.elevation("1", 1),
            lambda: table.fill(10**9, 1),
            lambda: table.wall(5, []),
            lambda: table.wall(5, [(0, at) for at in range(65)]),
            lambda: table.wall(5, [(1, 2, 3)]),
            lambda: table.wall(5, [1, 2]),
            lambda: table.export(""),
            lambda: table.export("N00E000\nremove N00E000"),
            lambda: table.export("N00 E000"),
            lambda: table.remove("N" * 3000),
            lambda: table.remove(None),
            lambda: table.ask_many([questions.Fill(1, 1), questions.Remove("N00E000")]),
            lambda: table.ask_many([questions.Fill(1, 1), questions.Fill(1, None)]),
        ]
        for number, ask in enumerate(asked):
            with self.subTest(number), self.assertRaises(BadArgument):
                ask()
            self.assertEqual((table.count(), table.tiles()), (1, ["N00E000"]))
        self.assertEqual(table.wall(-5, [(0, at) for at in range(3)]), 2)

    @needs("numpy")
    def test_arrays(self):
        import numpy

        table = self.table
        found = table.tile("N00E000")
        self.assertEqual((found.dtype, found.tolist()), (numpy.int16, [[9, 9, 9], [9, 1, 9], [9, 9, 5]]))
        table.import_tile("N01E000", numpy.arange(9, dtype=numpy.int64).reshape(3, 3) - 4)
        self.assertEqual(table.tile("N01E000").tolist(), [[-4, -3, -2], [-1, 0, 1], [2, 3, 4]])
        self.assertEqual(table.elevation(numpy.int64(0), numpy.int32(2)), 5)
        for wrong in (numpy.zeros((2, 3), int), numpy.zeros((3, 3)), numpy.full((3, 3), 40000), numpy.zeros(9, int)):
            with self.assertRaises(BadArgument):
                table.import_tile("S02E000", wrong)
        self.assertEqual(table.tiles(), ["N00E000", "N01E000"])


class Many(unittest.TestCase):
    """Many questions at once are answered as one by one."""

    def test_pipelined_as_one_by_one(self):
        chance = random.Random(7)
        kinds = [questions.Elevation, questions.Fill, questions.FlowDirection, questions.Trace, questions.WatershedOf]
        with memory_table(11, 4, PROGRAM) as table:
            for name, data in hills(11, 2, 2).items():
                table.import_tile(name, data)
            points = [(chance.randrange(-1, 22), chance.randrange(-1, 22)) for _ in range(60)]
            asked = [kind(*point) for kind, point in itertools.product(kinds, points)]
            asked += [questions.Tiles(), questions.Export("N01E001"), questions.Export("N05E005"), questions.Sinks()] * 9
            chance.shuffle(asked)
            together = table.ask_many(asked)
            for question, answer in zip(asked, together, strict=True):
                try:
                    self.assertEqual(table.ask(question), answer)
                except Refusal as refusal:
                    self.assertIs(type(answer), type(refusal))

    def test_more_than_the_pipes_hold(self):
        """Some megabytes each way: neither side waits for the other."""
        with memory_table(101, 1, PROGRAM, timeout=A_WHILE) as table:
            table.import_tile("N00E000", b"\0\1" * 101**2)
            answers = table.ask_many([questions.Export("N00E000")] * 200 + [questions.Elevation(0, 0)] * 30000)
            self.assertEqual(len(answers), 30200)
            self.assertEqual({len(answer) for answer in answers[:200]}, {2 * 101**2})
            self.assertEqual(set(answers[200:]), {1})
            stream = table.pipeline(questions.Elevation(0, 0) for _ in itertools.count())
            self.assertEqual(sum(itertools.islice(stream, 9000)), 9000)
            self.assertEqual(table.count(), 1)

    def test_threads(self):
        with memory_table(11, 4, PROGRAM) as table:
            for name, data in hills(11, 2, 2).items():
                table.import_tile(name, data)
            points = [(y, x) for y in range(5, 15) for x in range(5, 15)]
            wanted = {point: table.elevation(*point) for point in points}
            wrong = []

            def ask(seed):
                chance = random.Random(seed)
                for _ in range(150):
                    point = chance.choice(points)
                    if table.elevation(*point) != wanted[point] or table.trace(*point)[0] != point:
                        wrong.append(point)

            threads = [threading.Thread(target=ask, args=(seed,)) for seed in range(8)]
            for thread in threads:
                thread.start()
            for thread in threads:
                thread.join()
            self.assertEqual(wrong, [])


class Stores(InFolder):
    """Files of stores, and the errors where there is none."""

    def test_making_and_checking(self):
        path = self.store()
        with open_store(path, PROGRAM) as store:
            store.step()
            self.assertEqual((store.side, store.acknowledged), (11, 4))
        report = check_store(path, PROGRAM)
        self.assertEqual((report.count, report.seams), (4, 0))
        self.assertEqual(report.tiles, {"N00E000": True, "N00E001": False, "N01E000": False, "N01E001": False})
        with self.assertRaises(StoreExists):
            format_store(path, 11, 4, PROGRAM)
        for side, capacity, kind in ((2, 1, errors.BadSide), (11, 241, errors.BadCapacity)):
            with self.assertRaises(kind):
                format_store(self.folder / "other", side, capacity, PROGRAM)
        self.assertFalse((self.folder / "other").exists())
        with self.assertRaises(CannotOpen):
            format_store(self.folder / "no" / "folder", 11, 4, PROGRAM)

    def test_a_path_that_begins_as_an_option_does(self):
        """The program takes no word that begins with -."""
        with contextlib.chdir(self.folder):
            format_store("-store", 3, 1, PROGRAM)
            with open_store(b"-store", PROGRAM) as store:
                store.import_tile("N00E000", THREE)
                self.assertEqual(store.report().count, 1)
            self.assertEqual(check_store("-store", PROGRAM).count, 1)

    def test_a_process_that_goes_to_another_folder(self):
        """A session begun anew, its program and its copies are found from there, too."""
        self.store(name="relative")
        program = os.path.relpath(PROGRAM, self.folder)
        with contextlib.chdir(self.folder), open_store("relative", program) as store:
            with contextlib.chdir("/"):
                os.kill(store.pid, signal.SIGKILL)
                self.assertEqual(store.reopen().count, 4)
                self.assertEqual(store.backup(self.folder / "copy"), 4)

    def test_what_cannot_be_opened(self):
        (self.folder / "text").write_text("no store\n" * 3000)
        for path, kind, words in (
            (self.folder / "none", CannotOpen, "no such file"),
            (self.folder, CannotOpen, "no regular file"),
            (self.folder / "text", errors.NotAStore, "no store"),
        ):
            with self.subTest(path), self.assertRaises(kind) as caught:
                open_store(path, PROGRAM)
            self.assertIn(words, str(caught.exception))
        with self.assertRaises(ProgramNotFound), open_store(self.store(), "/no/such/program"):
            pass

    def test_locked(self):
        path = self.store()
        with open_store(path, PROGRAM) as store:
            for ask in (lambda: open_store(path, PROGRAM), lambda: check_store(path, PROGRAM)):
                with self.assertRaises(StoreBusy) as caught:
                    ask()
                self.assertIn("another program has it open", str(caught.exception))
            refused = threading.Event()

            def start_once(session):
                """Notes that the store was busy, once it was."""
                try:
                    usual(session)
                except StoreBusy:
                    refused.set()
                    raise

            usual = Session._start_once
            closing = threading.Thread(target=lambda: refused.wait() and store.close())
            closing.start()
            with unittest.mock.patch.object(Session, "_start_once", start_once), open_store(path, PROGRAM, wait=A_WHILE) as other:
                self.assertEqual(other.count(), 4)
            closing.join()

    def test_a_store_that_is_let_go_of_meanwhile(self):
        """It is busy for the program, and free again once it is asked why the program didn't open it: it is waited for, too."""
        path, met = self.store(), self.folder / "met"
        busy_at_first = self.script(f"""
if os.path.exists({str(met)!r}):
    os.execv({PROGRAM!r}, [{PROGRAM!r}, *sys.argv[1:]])
open({str(met)!r}, "w").close()
print("mosaic: cannot open", sys.argv[2])
sys.exit(1)""")
        with self.assertRaises(CannotOpen):
            open_store(path, busy_at_first)
        met.unlink()
        with open_store(path, busy_at_first, wait=A_WHILE) as store:
            self.assertEqual(store.count(), 4)

    def test_bytes_in_paths(self):
        path = self.folder / "st\xe9re of mine"
        format_store(path, 3, 1, PROGRAM)
        with open_store(path, PROGRAM) as store:
            self.assertEqual(store.side, 3)
        latin = os.fsencode(self.folder) + b"/st\xe9re"
        if not IS_REAL:
            self.skipTest("the plain program takes any path")
        asked = [
            lambda: format_store(latin, 3, 1, PROGRAM),
            lambda: shutil.copy(path, latin) and open_store(latin, PROGRAM),
            lambda: check_store(latin, PROGRAM),
        ]
        for ask in asked:
            with self.assertRaises(CannotOpen) as caught:
                ask()
            self.assertIn("UTF-8", str(caught.exception))

    def test_upgrade(self):
        if not IS_REAL:
            self.skipTest("the plain program upgrades nothing")
        from mosaic_store import upgrade_store

        with self.assertRaises(errors.NotOld):
            upgrade_store(self.store(), PROGRAM)


class Deaths(InFolder):
    """A program that dies, hangs or talks nonsense."""

    def test_killed_and_begun_anew(self):
        path = self.store()
        with open_store(path, PROGRAM) as store:
            os.kill(store.pid, signal.SIGKILL)
            with self.assertRaises(SessionDied) as caught:
                store.wall(900, [(5, 5)])
            self.assertIn("SIGKILL", str(caught.exception))
            with self.assertRaises(SessionDied):
                store.count()
            recovery = store.after_crash()
            self.assertEqual((recovery.acknowledged, recovery.in_doubt), (4, questions.Wall(900, ((5, 5),))))
            self.assertEqual(recovery.stands, recovery.count == 5)
            self.assertEqual(store.elevation(5, 5) == 900, recovery.stands)
            self.assertIsNone(store.reopen().in_doubt)

    def test_nothing_is_lost_to_kills(self):
        """A thread kills the program, and again once a command was answered: all that were answered stand, and each once."""
        path = self.store()
        with open_store(path, PROGRAM, restart=True) as store:
            point, burns = (12, 12), 60
            height = store.elevation(*point)
            ending, answered = threading.Event(), threading.Event()

            def kill():
                chance = random.Random(3)
                while answered.wait() and not ending.wait(chance.uniform(0, 0.02)):
                    answered.clear()
                    try:
                        os.kill(store.pid or 0, signal.SIGKILL) if store.pid else None
                    except ProcessLookupError:
                        pass

            killer = threading.Thread(target=kill)
            killer.start()
            done = 0
            try:
                while done < burns:
                    try:
                        store.burn(1, [point])
                    except SessionDied:  # killed while it began anew
                        while True:
                            try:
                                recovery = store.reopen()
                                break
                            except SessionDied:
                                pass
                        done += recovery.stands
                        continue
                    done += 1
                    answered.set()
            finally:
                ending.set()
                answered.set()
                killer.join()
            store.reopen()
            self.assertEqual((store.elevation(*point), store.count()), (height - burns, 4 + burns))

    def test_a_drive_that_failed(self):
        """A command that was answered 20 stays in doubt, whatever is asked before the store is opened again. A copy shows it."""
        store, runs = self.folder / "text", self.folder / "runs"
        store.write_text("a store")
        for then, stands in ((5, True), (4, False)):
            runs.write_text("")
            program = self.script(
                f"if sys.argv[1] == 'check': sys.exit(print('count {then} commits 9\\nseams 0'))\n"
                f"runs = open({str(runs)!r}, 'a+'); runs.write('x'); runs.flush(); runs.seek(0); again = len(runs.read()) > 1\n"
                "for line in sys.stdin:\n"
                "    word = line.split()[0]\n"
                f"    said = ('OK {then}' if again else 'OK 4') if word == 'count' else 'ERR 20 Device' if word == 'wall' else 'ERR 22 Failed'\n"
                "    print(said, flush=True)\n"
            )
            with self.subTest(then), open_store(store, program) as session:
                with self.assertRaises(errors.Device):
                    session.wall(5, [(1, 1)])
                for ask in (lambda: session.fill(1, 1), lambda: session.burn(1, [(2, 2)])):
                    with self.assertRaises(errors.Failed):
                        ask()
                self.assertEqual((session.count(), session.backup(self.folder / f"copy{then}")), (4, then))
                recovery = session.reopen()
                self.assertEqual((recovery.in_doubt, recovery.stands), (questions.Wall(5, ((1, 1),)), stands))

    def test_a_drive_that_failed_before_the_program_dies(self):
        """The command that it failed at stands after all; the one that the program died of is asked again."""
        store, runs = self.folder / "text", self.folder / "runs"
        store.write_text("a store")
        program = self.script(
            f"runs = open({str(runs)!r}, 'a+'); runs.write('x'); runs.flush(); runs.seek(0); again = len(runs.read()) > 1\n"
            "said = {'count': 'OK 5', 'burn': 'OK 6'} if again else {'count': 'OK 4', 'wall': 'ERR 20 Device'}\n"
            "for line in sys.stdin: print(said[line.split()[0]] if line.split()[0] in said else sys.exit(1), flush=True)\n"
        )
        with open_store(store, program, restart=True) as session:
            with self.assertRaises(errors.Device):
                session.wall(5, [(1, 1)])
            self.assertEqual(session.burn(1, [(2, 2)]), 6)

    def test_closed_and_begun_anew(self):
        store = open_store(self.store(), PROGRAM)
        store.close()
        with self.assertRaises(SessionDied):
            store.count()
        with store:
            self.assertFalse(store.reopen().stands)
            self.assertEqual(store.count(), 4)

    def test_another_program_meanwhile(self):
        path = self.store()
        with open_store(path, PROGRAM) as store:
            os.kill(store.pid, signal.SIGKILL)
            with self.assertRaises(SessionDied):
                store.count()
            with open_store(path, PROGRAM, wait=A_WHILE) as other:
                other.wall(900, [(5, 5)])
                other.wall(901, [(5, 5)])
            with self.assertRaises(StoreChanged):
                store.reopen()

    def test_timeout(self):
        silent = self.script("print('OK 0', flush=True)\nsys.stdin.readline(), sys.stdin.readline(), sys.stdin.read()")
        with memory_table(3, 1, silent, timeout=A_WHILE) as table:
            channel = table._channel
            channel._timeout = 300  # ms: once it has answered, so that its beginning may take as long as it likes
            with self.assertRaises(TimedOut) as caught:
                table.fill(1, 1)
            self.assertIn("within 0.3 s", str(caught.exception))
            self.assertEqual(channel.process.returncode, -signal.SIGKILL)
            with self.assertRaises(SessionDied):
                table.count()

    def test_nonsense(self):
        for said in ("hello", "OK", "OK x", "ERR 99 Nonsense", "ERR 7 Void", "OK 1 2", "\\x80", ""):
            with self.subTest(said), self.assertRaises((BadReply, SessionDied)):
                memory_table(3, 1, self.script(f"sys.stdin.readline()\nsys.stdout.buffer.write(b'{said}\\n')"))
        for said in ("OK 2\\n1 2\\n", "OK 1\\n1 2 3\\n", "OK 1\\nx y\\n", "OK 1 1\\n", "OK 2\\n0 0\\n0"):
            told = "print('OK 0', flush=True)\nsys.stdin.readline()\nsys.stdin.readline()\n"
            program = self.script(f"{told}print('{said}', end='')")
            with self.subTest(said), memory_table(3, 1, program) as table, self.assertRaises((BadReply, SessionDied)):
                table.trace(1, 1)

    def test_interrupted_while_waiting(self):
        """An exception from outside, once a question was read, ends the session rather than losing step."""
        interrupting = self.script(
            "sys.stdin.readline(), print('OK 0', flush=True), sys.stdin.readline()\n"
            f"os.kill(os.getppid(), {signal.SIGALRM:d})\nsys.stdin.read()"
        )

        def interrupt(*_):
            raise InterruptedError

        before = signal.signal(signal.SIGALRM, interrupt)
        self.addCleanup(signal.signal, signal.SIGALRM, before)
        with memory_table(3, 1, interrupting) as table:
            with self.assertRaises(InterruptedError):
                table.fill(1, 1)
            with self.assertRaises(SessionDied):
                table.fill(1, 1)

    def test_no_half_line(self):
        """The writer is killed at any moment: the program never meets the beginning of a command as a command.

        What it read is recorded: each line of a wall is whole, and a payload that is cut is the last thing.
        """
        record, ended = self.folder / "record", self.folder / "ended"
        recorder = self.script(
            f"sys.stderr, record = open(os.devnull, 'w'), open({str(record)!r}, 'wb', buffering=0)\n"
            "while line := sys.stdin.buffer.readline():\n"
            "    record.write(line)\n"
            "    try: os.write(1, b'OK 0\\n')\n"
            "    except BrokenPipeError: pass  # the writer is gone; what it had sent is read on\n"
            f"open({str(ended)!r}, 'w').close()\n"
        )
        writer = (
            "from mosaic_store import memory_table\n"
            f"table = memory_table(3, 1, {recorder!r})\n"
            "points = [(at + 100000, 200000 - at) for at in range(64)]\n"
            "while True: print(table.wall(12345, points), flush=True)\n"
        )
        whole = (questions.Wall(12345, [(at + 100000, 200000 - at) for at in range(64)]).line() + "\n").encode()
        chance = random.Random(1)
        for _ in range(6):
            with subprocess.Popen(
                [sys.executable, "-c", writer], stdout=subprocess.PIPE, env={**os.environ, "PYTHONPATH": str(PYTHON)}
            ) as process:
                for _ in range(chance.randrange(1, 500)):
                    process.stdout.readline()
                process.kill()
            self.wait_for(ended)  # the recorder has read all that came
            ended.unlink()
            lines = record.read_bytes().splitlines(keepends=True)
            self.assertGreater(len(lines), 1)
            self.assertEqual(set(lines[1:]), {whole})

    def test_ends_with_its_block(self):
        with memory_table(3, 1, PROGRAM) as table:
            process = table._channel.process
        self.assertTrue(table.pid is None and process.returncode is not None)
        with self.assertRaises(SessionDied):
            table.count()

    def test_a_table_is_gone_with_its_program(self):
        with memory_table(3, 1, PROGRAM) as table:
            os.kill(table.pid, signal.SIGKILL)
            with self.assertRaises(SessionDied):
                table.count()
            with self.assertRaises(SessionDied) as caught:
                table.reopen()
            self.assertIn("gone", str(caught.exception))

    def test_finding_the_program(self):
        self.assertEqual(find_program("x/y"), "x/y")


if __name__ == "__main__":
    unittest.main()
