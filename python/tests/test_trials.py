"""Trials: what is taken back, what is kept."""

import contextlib
import os
import signal
import struct
import subprocess
import sys
import threading
import unittest
import unittest.mock

from mosaic_store import BadArgument, SessionDied, errors, open_store, questions, signals, trials

from .support import A_WHILE, PROGRAM, InFolder

SIDE = 11


class Trials(InFolder):
    def setUp(self):
        super().setUp()
        self.session = open_store(self.store(SIDE), PROGRAM)
        self.addCleanup(self.session.close)
        self.session.sink(7, 7)
        self.session.sink(15, 4)
        self.before = self.image()

    def image(self):
        """Every sample of every tile, and the sinks."""
        session = self.session
        return {name: session.export(name) for name in session.tiles()}, session.sinks()

    def test_each_command_is_taken_back(self):
        session = self.session
        edits = {
            "wall": lambda: session.wall(2000, [(10, x) for x in range(21)]),
            "burn at four tiles": lambda: session.burn(5, [(10, 10)]),
            "patch": lambda: session.patch(0, 0, 9, 9, 7),
            "remove": lambda: session.remove("N01E001"),
            "sink": lambda: session.sink(3, 3),
            "unsink": lambda: session.unsink(7, 7),
            "another tile": lambda: session.remove("N00E000")
            and session.import_tile("n00e000", struct.pack(f">{SIDE**2}h", *[5] * SIDE**2)),
            "a removed sink": lambda: session.remove("N00E000") and session.sink(15, 5),
        }
        for name, edit in edits.items():
            with self.subTest(name):
                level = session.fill(12, 12)
                with session.trial() as trial:
                    edit()
                    self.assertNotEqual(self.image(), self.before)
                self.assertFalse(trial.is_open)
                self.assertEqual(self.image(), self.before)
                self.assertEqual(session.fill(12, 12), level)

    def test_seams_that_disagree_stay_so(self):
        """A wall gives every holder of a point one height; the tiles get their own samples back, voids too."""
        session = self.session
        own = struct.pack(f">{SIDE**2}h", *([-32768] * SIDE + [70] * (SIDE**2 - SIDE)))
        session.remove("N00E001")
        session.import_tile("N00E001", own)
        before = self.image()
        with session.trial():
            session.wall(3000, [(y, 10) for y in range(11)] + [(10, x) for x in range(11, 20)])
        self.assertEqual(self.image(), before)
        self.assertEqual(session.export("N00E001"), own)

    def test_tiles_are_put_back_one_after_another(self):
        """Wherever that ends, one tile at most is away."""
        session = self.session
        with session.trial() as trial:
            for name in ("N00E000", "N01E001"):
                session.remove(name)
                session.import_tile(name, bytes(2 * SIDE**2))
            self.assertEqual([type(command) for command in trial.inverse()], [questions.Remove, questions.Import] * 2)
        self.assertEqual(self.image(), self.before)

    def test_heights_are_given_back_by_edits(self):
        """Where the tiles agree and had heights, no tile leaves the store to be imported again."""
        session = self.session
        with unittest.mock.patch.object(session, "remove", side_effect=AssertionError("a tile was removed")):
            with session.trial():
                session.wall(2000, [(10, x) for x in range(21)])
                session.burn(3, [(5, 5), (6, 5), (10, 0)])
                session.burn(30000, [(5, 5)])
        self.assertEqual(self.image(), self.before)

    def test_kept(self):
        with self.session.trial() as trial:
            self.session.wall(2000, [(5, 5)])
            trial.keep()
        self.assertEqual(self.session.elevation(5, 5), 2000)
        self.assertEqual(trial.touched, ["N00E000"])
        with self.session.trial():
            self.session.wall(2100, [(5, 5)])
        self.assertEqual(self.session.elevation(5, 5), 2000)

    def test_an_error_inside(self):
        with self.assertRaises(ZeroDivisionError), self.session.trial():
            self.session.burn(1, [(5, 5)])
            1 / 0
        self.assertEqual(self.image(), self.before)

    def test_one_after_another(self):
        """Each puts back what it found: also where nothing, or an edit of its own kind, came between."""
        for between in (None, lambda: self.session.burn(2, [(5, 5)])):
            for _ in range(2):
                with self.session.trial():
                    self.session.wall(2000, [(5, 5), (5, 6)])
                    self.session.burn(7, [(5, 6)])
                self.assertEqual(self.image(), self.before)
            if between is not None:
                between()
                self.before = self.image()
        with self.session.trial():
            self.session.wall(2000, [(5, 5)])
        self.assertEqual(self.image(), self.before)

    def test_refused_edits_leave_nothing(self):
        count = self.session.count()
        with self.session.trial():
            for edit in (
                lambda: self.session.burn(0, [(5, 5)]),
                lambda: self.session.remove("S05E000"),
                lambda: self.session.patch(9, 0, 0, 9, 1),
                lambda: self.session.remove("XX"),
                lambda: self.session.wall(5, [(500, 500)]),
            ):
                with self.assertRaises(errors.Refusal):
                    edit()
        self.assertEqual((self.image(), self.session.count()), (self.before, count))

    def test_a_trial_at_a_time(self):
        with self.session.trial():
            with self.assertRaises(BadArgument):
                self.session.begin_trial()
        self.session.begin_trial().keep()
        trial = self.session.begin_trial()
        self.session.burn(1, [(5, 5)])
        ending = threading.Thread(target=trial.take_back)  # by hand, from another thread
        ending.start()
        ending.join()
        self.assertEqual(self.image(), self.before)
        with self.assertRaises(BadArgument):
            trial.take_back()

    def test_a_sink_that_could_not_be_declared_again(self):
        session = self.session
        session.remove("N00E000")
        with session.trial():
            with self.assertRaises(BadArgument):
                session.unsink(7, 7)
        self.assertEqual(session.sinks(), self.before[1])

    def test_sinks_whose_ground_comes_and_goes(self):
        """A sink is declared again where its point was ground, whatever became of its tile in the trial."""
        session = self.session
        tile = session.export("N00E000")
        with session.trial():
            session.remove("N00E000")
            session.unsink(7, 7)
        self.assertEqual(self.image(), self.before)
        session.remove("N00E000")
        with session.trial():
            session.import_tile("N00E000", tile)
            with self.assertRaises(BadArgument):
                session.unsink(7, 7)
            with self.assertRaises(errors.NoSink):
                session.unsink(8, 8)
        self.assertEqual((session.tiles(), session.sinks()), (["N00E001", "N01E000", "N01E001"], self.before[1]))

    def test_signals_wait_while_edits_are_taken_back(self):
        """Before each question of it: the edits are taken back all the same, and then the signal is met."""
        for number in (signal.SIGINT, signal.SIGTERM, signal.SIGHUP):
            for by_hand in (False, True):
                at = 0
                while self.is_met_at(at, number, by_hand):
                    self.assertEqual(self.image(), self.before, (number, by_hand, at))
                    at += 1
                self.assertGreater(at, 3, "questions were asked while the edits were taken back")

    def is_met_at(self, at, number, by_hand):
        """Sends a signal before a question of a trial's end, by its number; whether there was such a question."""
        session, asked, met, seen = self.session, [], [], type(self.session)._asked

        def spied(*question):
            asked.append(question)
            if len(asked) == at + 1:
                signal.raise_signal(number)
                self.assertEqual(met, [], "it waits")
            return seen(session, *question)

        def meet(number, _):
            met.append(number)
            raise InterruptedError

        before = signal.signal(number, meet)
        try:
            with contextlib.suppress(InterruptedError), contextlib.ExitStack() as block:
                trial = session.begin_trial() if by_hand else block.enter_context(session.trial())
                session.wall(2000, [(10, x) for x in range(21)])
                session.unsink(7, 7)
                session._asked = spied
                if by_hand:
                    trial.take_back()
        finally:
            signal.signal(number, before)
            session.__dict__.pop("_asked", None)
        self.assertEqual(met, [number] * (len(asked) > at))
        return bool(met)

    def test_a_signal_between_any_two_steps(self):
        """Whichever step of a trial's beginning or end it comes at, the store is afterwards as it was, and no trial is open."""
        at = 0
        while self.has_step(at):
            self.assertEqual(self.image(), self.before, at)
            self.session.begin_trial().keep()
            at += 3
        self.assertGreater(at, 200)

    def has_step(self, at):
        """Makes a trial, with SIGINT at a step of its own code, by its number; whether there was such a step."""
        steps = 0

        def trace(frame, event, _):
            nonlocal steps
            if frame.f_code.co_filename not in (trials.__file__, signals.__file__) or frame.f_code.co_name == "inverse":
                return None
            frame.f_trace_opcodes = True
            steps += event == "opcode"
            if steps == at + 1:
                sys.settrace(None)
                signal.raise_signal(signal.SIGINT)
            return trace

        before = signal.signal(signal.SIGINT, signal.default_int_handler)
        try:
            with contextlib.suppress(KeyboardInterrupt):
                sys.settrace(trace)
                with self.session.trial():
                    sys.settrace(None)
                    self.session.wall(2000, [(5, 5)])
                    sys.settrace(trace)
        finally:
            sys.settrace(None)
            signal.signal(signal.SIGINT, before)
        return steps > at

    def test_a_signal_whose_action_is_the_systems(self):
        """A program that sets nothing for it takes its edits back, and is ended by it then."""
        self.session.close()
        script = (
            "import os, signal, sys\n"
            "from mosaic_store import open_store\n"
            "signal.signal(signal.SIGTERM, signal.SIG_DFL)\n"
            "with open_store(sys.argv[1]) as store:\n"
            "    with store.trial():\n"
            "        store.wall(2000, [(5, 5)])\n"
            "        os.kill(os.getpid(), signal.SIGTERM)\n"
            "        store.wall(2001, [(6, 6)])\n"
        )
        done = subprocess.run([sys.executable, "-c", script, self.folder / "store"], env=self.surroundings(), check=False)
        self.assertEqual(done.returncode, -signal.SIGTERM)
        with open_store(self.folder / "store", PROGRAM, wait=A_WHILE) as self.session:
            self.assertEqual(self.image(), self.before)

    def test_the_program_dies_inside(self):
        session = self.session
        with self.assertRaises(SessionDied), session.trial():
            session.burn(1, [(5, 5)])
            os.kill(session.pid, signal.SIGKILL)
            session.fill(1, 1)
        self.assertEqual(self.image(), self.before)
        with session.trial():
            session.burn(1, [(5, 5)])
            os.kill(session.pid, signal.SIGKILL)
            session._channel.process.wait()  # before anything is asked of it
        self.assertEqual(self.image(), self.before)

    def test_the_drive_fails_inside(self):
        """The edits made before are taken back, too, where the store opens again."""
        failed = self.folder / "failed"
        failing = self.script(
            "import subprocess\n"
            f"with subprocess.Popen([{PROGRAM!r}, *sys.argv[1:]], stdin=subprocess.PIPE, bufsize=0) as server:\n"
            "    while line := sys.stdin.buffer.readline():\n"
            f"        if line.startswith(b'wall 2001 ') and not os.path.exists({str(failed)!r}):\n"
            f"            open({str(failed)!r}, 'w').close()\n"
            "            break\n"
            "        server.stdin.write(line)\n"
            "if line:\n"
            "    print('ERR 20 Device', flush=True)\n"
            "    while sys.stdin.readline(): print('ERR 22 Failed', flush=True)\n"
        )
        self.session.close()
        with open_store(self.folder / "store", failing) as session:
            with self.assertRaises(errors.Device), session.trial():
                session.wall(2000, [(5, 5)])
                session.wall(2001, [(6, 6)])
        with open_store(self.folder / "store", PROGRAM) as self.session:
            self.assertEqual(self.image(), self.before)

    def test_other_threads_wait(self):
        session, seen = self.session, []
        height = session.elevation(5, 5)
        with session.trial():
            thread = threading.Thread(target=lambda: seen.append(session.elevation(5, 5)))
            session.wall(4000, [(5, 5)])
            thread.start()
            session.fill(5, 5)
        thread.join()
        self.assertEqual(seen, [height])


if __name__ == "__main__":
    unittest.main()
