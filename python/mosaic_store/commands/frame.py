"""What the commands have in common: arguments, errors in one line, files written whole, progress.

A command ends with 0 where all was done, 1 where something was refused or failed, 2 for arguments that it can't read. Where
a signal ends it, the status is 128 and the signal's number, and it takes back first what a trial of it has edited.
"""

from __future__ import annotations

import argparse
import contextlib
import io
import os
import pathlib
import re
import signal
import sys
import threading
import time
from collections.abc import Callable, Iterator, Sequence
from types import FrameType
from typing import NoReturn

from ..errors import BadArgument, MosaicError, Outside, Refusal, SessionDied
from ..files import replacing
from ..lattice import Place, Point, Window, corners_named, degrees_of
from ..opening import opened_place
from ..places import number_of, numbers_in
from ..session import Session
from ..signals import ENDING
from ..snapping import FARTHEST, snapped
from ..version import version_and_commit

EPILOG = "The program itself, which takes no --help: man mosaic."

DONE, FAILED, BAD_ARGUMENTS, INTERRUPTED = 0, 1, 2, 130

MOST_POINTS = 50_000_000
"""The most points of a window whose water is asked for."""

_LEAST_MARGIN = 20
"""The fewest points that a picture's window has around what is drawn."""

_SECONDS_BETWEEN_LINES = 10.0

_BEYOND_LINES = 1_000_000_000
"""The least number that no line can carry."""


class CommandError(MosaicError):
    """Something that stops a command, reported in one line."""


class Parser(argparse.ArgumentParser):
    """Arguments, with errors in one line."""

    def error(self, message: str) -> NoReturn:
        self.exit(BAD_ARGUMENTS, f"{self.prog}: {message}; see {self.prog} --help\n")

    def options_of(self, arguments: Sequence[str] | None) -> argparse.Namespace:
        """The options of arguments, which may stand before, between and behind the places.

        A place may be one word, as "36.6N 84.2W", or several.
        """
        left = list(sys.argv[1:] if arguments is None else arguments)
        own = [action for action in self._actions if not action.option_strings]
        words: list[str] = []
        while left:
            option = self._option_named(left[0])
            if option is not None:
                words.append(left.pop(0))
            action = option or (own.pop(0) if len(own) > 1 else own[0])
            most = action.nargs if isinstance(action.nargs, int) else len(left)
            numbers, used = numbers_in(left, most) if action.type is number else ([], 0)
            if not used and (option is None or action.nargs is None):
                numbers, used = left[:1], 1
            words += numbers
            del left[:used]
        return self.parse_intermixed_args(words)

    def _option_named(self, word: str) -> argparse.Action | None:
        """The option that a word names, by as many letters as are needed; None for other words."""
        named = self._option_string_actions
        found = [action for name, action in named.items() if word.startswith("--") and name.startswith(word)]
        return named.get(word) or (found[0] if found else None)


def number(word: str) -> float:
    """As `number_of`, for an argument."""
    try:
        return number_of(word)
    except BadArgument as fault:
        raise argparse.ArgumentTypeError(str(fault)) from None


def parser(name: str, description: str) -> Parser:
    """The arguments that each command takes."""
    made = Parser(prog=name, description=description, epilog=EPILOG, formatter_class=argparse.RawDescriptionHelpFormatter)
    made._negative_number_matcher = re.compile(r"-[0-9.,]+.*")  # -84,2 and -84°12' are numbers, and no options
    made.add_argument("--version", action="version", version=f"%(prog)s {version_and_commit()}")
    made.add_argument("--program", help="the program `mosaic`; otherwise what MOSAIC names, or the one on PATH")
    return made


def add_places(made: argparse.ArgumentParser) -> None:
    """Lets places be given as points."""
    made.add_argument(
        "--points", action="store_true", help="numbers are points y x of the lattice, in place of degrees north and east"
    )


def add_snap(made: argparse.ArgumentParser) -> None:
    """Lets the outlets of watersheds move to the stream."""
    made.add_argument(
        "--snap",
        type=int,
        default=0,
        metavar="STEPS",
        help="moves the outlet of a watershed to the point within so many steps that most points drain to",
    )


def outlet_given(numbers: Sequence[float], session: Session, options: argparse.Namespace) -> Point:
    """The outlet that two numbers name, moved to the stream as far as `--snap` allows."""
    point = point_given(numbers, session, options.points)
    if not 0 <= options.snap <= FARTHEST:
        raise CommandError(f"an outlet moves by 0 to {FARTHEST} steps, not {options.snap}")
    return snapped(session, point, options.snap) if options.snap else point


def add_window(made: argparse.ArgumentParser, otherwise: str = "all tiles") -> None:
    """Lets a window be given; `otherwise` says which it is else."""
    made.add_argument(
        "--window",
        nargs=4,
        type=number,
        metavar=("SOUTH", "WEST", "NORTH", "EAST"),
        help=f"the window, ends included; {otherwise} without it",
    )


def run(name: str, body: Callable[[], int]) -> int:
    """Runs a command; its status. What stops it is reported in one line."""
    _end_in_order()
    if isinstance(sys.stdout, io.TextIOWrapper):
        sys.stdout.reconfigure(errors="backslashreplace")  # names of files are any bytes
    try:
        status = body()
        print(end="", flush=True)  # what can't be written is a failure, too
        return status
    except Refusal as refusal:
        return _stopped(name, f"{refusal}: {refusal.cure}")
    except SessionDied as death:
        return _stopped(name, f"{death}: what was acknowledged stands; run this again")
    except MosaicError as error:
        return _stopped(name, str(error))
    except BrokenPipeError:
        return FAILED
    except OSError as error:
        return _stopped(name, f"{error.filename or 'a file'}: {error.strerror or error}")
    except MemoryError:
        return _stopped(name, "not enough memory: take a smaller window")
    except KeyboardInterrupt:
        _stopped(name, "interrupted")
        return INTERRUPTED
    finally:
        _let_go_of_output()


def _end_in_order() -> None:
    """Has signals raise exceptions, so that trials are taken back, and files that aren't whole are taken away.

    One that is ignored stays so, as SIGHUP under nohup. Only the main thread may set what signals do.
    """
    if threading.current_thread() is threading.main_thread():
        for number in ENDING:
            if signal.getsignal(number) in (signal.SIG_DFL, signal.default_int_handler):
                signal.signal(number, _end)


def _end(number: int, _: FrameType | None) -> NoReturn:
    for each in ENDING:
        signal.signal(each, signal.SIG_IGN)  # another one would break off what this one takes back
    if number == signal.SIGINT:
        raise KeyboardInterrupt
    raise SystemExit(128 + number)


def _let_go_of_output() -> None:
    """Python writes at its end what standard output hasn't taken, and reports it in lines of its own where it can't."""
    try:
        print(end="", flush=True)
    except OSError:
        os.dup2(os.open(os.devnull, os.O_WRONLY), sys.stdout.fileno())


def _stopped(name: str, message: str) -> int:
    print(f"{name}: {' '.join(message.split())}", file=sys.stderr)
    return FAILED


@contextlib.contextmanager
def opened(path: str, program: str | None, edits: bool = False) -> Iterator[Session]:
    """A session with a store or a region that has a tile. Where it may only be read, and nothing is to be edited, with a copy of it."""
    with opened_place(path, program, edits) as session:
        if not session.tiles():
            raise CommandError(f"{path}: the store has no tile: load some with mosaic-load")
        yield session


def flood(session: Session, name: str) -> None:
    """Floods each stale tile and keeps its levels, so that no question has to. Of a region what edits changed is joined anew."""
    start = time.monotonic()
    if hasattr(session, "refresh"):
        progress = Progress(name, 0, "turns of tiles done", tells_time=True)
        try:
            session.refresh(progress.tell_of)
        finally:
            progress.clear()
        print(f"flooded, joined and directed in {time.monotonic() - start:.1f} s", flush=True)
        return
    progress = Progress(name, f"at most {len(session.tiles())}", "tiles flooded")
    flooded = 0
    try:
        while session.step() is not None:
            flooded += 1
            progress.tell(flooded)
    finally:
        progress.clear()
        if flooded:
            print(f"{flooded} tile{'' if flooded == 1 else 's'} flooded in {time.monotonic() - start:.1f} s, and their levels kept", flush=True)


def point_given(numbers: Sequence[float], session: Session, as_points: bool) -> Point:
    """The point that two numbers name, by degrees or as they are. A CommandError where no tile has a place in degrees."""
    point = point_told(numbers, session, as_points)
    if not as_points:
        _check_held(numbers, point, session)
    return point


def point_told(numbers: Sequence[float], session: Session, as_points: bool) -> Point:
    """The point that two numbers tell, whether a tile holds it or not."""
    if not as_points:
        try:
            return session.point_of(*numbers)
        except ValueError as fault:
            hint = _hint(numbers, session) or ": give degrees (EPSG:4326), or points of the lattice with --points"
            raise CommandError(f"{fault}{hint}") from None
    return whole_point(numbers)


def whole_point(numbers: Sequence[float]) -> Point:
    """The point of the lattice that two numbers are."""
    if not all(float(number).is_integer() and abs(number) < _BEYOND_LINES for number in numbers):
        shown = " ".join(f"{number:g}" for number in numbers)
        raise CommandError(f"points are whole numbers y x of at most nine digits, not {shown}: leave --points out for degrees")
    return Point(*map(int, numbers))


def _check_held(numbers: Sequence[float], point: Point, session: Session) -> None:
    """A CommandError in the words of the place that was given, where no tile has it."""
    try:
        session.elevation(*point)
    except Outside:
        tiles = shown_window(extent_of(session), session.side)
        raise CommandError(f"no tile holds {shown_place(Place(*numbers))}: the tiles lie {tiles}{_hint(numbers, session)}") from None


def _hint(numbers: Sequence[float], session: Session) -> str:
    """What may have been meant by a place outside all tiles; empty where nothing comes to mind."""
    latitude, longitude = numbers
    others = {"latitude and longitude are exchanged": (longitude, latitude), "the west is negative": (latitude, -longitude)}
    windows = tile_windows(session)
    hints = [hint for hint, other in others.items() if _is_held(other, windows, session)]
    return f"; is it that {hints[0]}?" if hints else ""


def _is_held(numbers: tuple[float, float], windows: Sequence[Window], session: Session) -> bool:
    try:
        point = session.point_of(*numbers)
    except ValueError:
        return False
    return any(window.holds(point) for window in windows)


def window_given(numbers: Sequence[float] | None, session: Session, as_points: bool) -> Window:
    """The window of four numbers; without them the least that has all tiles."""
    extent = extent_of(session)
    if numbers is None:
        return extent
    south_west = point_told(numbers[:2], session, as_points)
    north_east = point_told(numbers[2:], session, as_points)
    window = Window(*south_west, *north_east)
    if window.width < 1 or window.height < 1:
        raise CommandError("the window is out of order: give its south-west end first, then its north-east end")
    if all(window.met(tile) is None for tile in tile_windows(session)):
        reach = shown_window(extent, session.side)
        raise CommandError(f"the window lies off the tiles, which reach {reach}: choose one there")
    return window


def window_around(whole: Window, points: Sequence[Point]) -> Window:
    """The window around what is drawn, a tenth wider on each side; the whole one where nothing is."""
    if not points:
        return whole
    ys, xs = zip(*points)
    margin = max(_LEAST_MARGIN, (max(ys) - min(ys)) // 10, (max(xs) - min(xs)) // 10)
    south, west = max(whole.y0, min(ys) - margin), max(whole.x0, min(xs) - margin)
    return Window(south, west, min(whole.y1, max(ys) + margin), min(whole.x1, max(xs) + margin))


def check_size(window: Window, what: str, most: int = MOST_POINTS) -> None:
    """A CommandError where a window has too many points for the memory that they take."""
    points = window.width * window.height
    if points > most:
        raise CommandError(f"the window has {points:,} points, and the most for {what} is {most:,}: give a smaller --window")


def tile_windows(session: Session) -> list[Window]:
    """The points of each tile of a store."""
    return [corner.window(session.side) for corner in corners_named(session.tiles())]


def extent_of(session: Session) -> Window:
    """The least window that has all tiles of a store."""
    return Window.around(tile_windows(session))


def shown_window(window: Window, side: int) -> str:
    """A window in words, by degrees and points."""
    low, high = (degrees_of(Point(*end), side) for end in (window[:2], window[2:]))
    return f"from {shown_place(low)} to {shown_place(high)} (points {window.y0} {window.x0} to {window.y1} {window.x1})"


def shown_place(place: Place) -> str:
    """A place in words, as 37.5 N 105.25 W."""
    north = f"{abs(place.latitude):.6g} {'S' if place.latitude < 0 else 'N'}"
    return f"{north} {abs(place.longitude):.6g} {'W' if place.longitude < 0 else 'E'}"


def check_picture(name: str) -> None:
    """A CommandError where no picture of this name can be drawn."""
    from ..drawing import FORMS, needed_matplotlib

    needed_matplotlib()
    if pathlib.Path(name).suffix.lower() not in FORMS:
        raise CommandError(f"{name}: the name of a picture ends in {', '.join(FORMS)}")


def check_place(path: str, store: str | None = None) -> None:
    """A CommandError where no file of this name can be made, or where it is the store, which it would replace."""
    target = pathlib.Path(path)
    if store is not None and target.exists() and os.path.exists(store) and target.samefile(store):
        raise CommandError(f"{path}: is the store: name another file")
    if target.is_dir():
        raise CommandError(f"{path}: is a folder: give the name of a file in it")
    if not target.parent.is_dir():
        raise CommandError(f"{path}: there is no folder {target.parent}: make it first")


@contextlib.contextmanager
def written_whole(path: str) -> Iterator[str]:
    """The name of a file to write beside `path`, which takes its place once it was written; a failure leaves nothing.

    A pipe or a device stays, and takes what is written as it comes.
    """
    check_place(path)
    is_file = not os.path.exists(path) or os.path.isfile(path)
    try:
        with replacing(path) if is_file else contextlib.nullcontext(path) as made:
            yield made
    except BrokenPipeError:
        raise
    except OSError as fault:
        raise CommandError(f"{path}: not written: {fault.strerror or fault}") from None


class Progress:
    """Tells on standard error how far a command is: in place on a terminal, now and then elsewhere."""

    def __init__(self, name: str, total: int | str, what: str, tells_time: bool = False) -> None:
        """With `tells_time` it prints how many minutes are left, once it knows the number of turns."""
        self._name, self._total, self._what, self._tells_time = name, total, what, tells_time
        self._began = time.monotonic()
        self._on_terminal = sys.stderr.isatty()
        self._told = time.monotonic()

    def tell_of(self, done: int, total: int) -> None:
        """So many of so many are done."""
        self._total = total
        self.tell(done)

    def tell(self, done: int) -> None:
        """So many are done."""
        now = time.monotonic()
        if now - self._told < (0.1 if self._on_terminal else _SECONDS_BETWEEN_LINES):
            return
        self._told = now
        line = f"{self._name}: {done} of {self._total} {self._what}{self._left(done, now)}"
        shown = f"\r{line}\033[K" if self._on_terminal else f"{line}\n"
        print(shown, end="", file=sys.stderr, flush=True)

    def _left(self, done: int, now: float) -> str:
        if not self._tells_time or not isinstance(self._total, int) or not done:
            return ""
        return f", {(now - self._began) * (self._total - done) / done / 60:.1f} minutes left"

    def clear(self) -> None:
        """Makes room for another line."""
        if self._on_terminal:
            print("\r\033[K", end="", file=sys.stderr, flush=True)
