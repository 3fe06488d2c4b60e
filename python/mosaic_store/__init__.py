"""`mosaic`, a crash-safe store of elevation tiles that answers drainage questions, from Python.

    from mosaic_store import open_store

    with open_store("region/store") as store:
        y, x = store.point_of(0.1525, 0.3425)
        with store.trial():
            store.wall(1193, [(y, at) for at in range(x - 15, x + 16)])
            print(store.elevation(y, x), store.fill(y - 1, x))
        print(store.watershed(y, x).cells)

A point is a pair y, x of whole numbers: y grows to the north, x to the east, and (0, 0) lies at 0 N 0 E, with side - 1
points a degree. Heights are whole metres. The package needs nothing but Python; arrays need numpy.
"""

from . import errors, questions
from .errors import (
    BadArgument,
    BadReply,
    CannotOpen,
    MosaicError,
    ProgramNotFound,
    Refusal,
    SessionDied,
    StoreBusy,
    StoreChanged,
    StoreExists,
    TimedOut,
)
from .lattice import (
    VOID,
    Corner,
    Direction,
    Place,
    Point,
    Run,
    Window,
    corner_of,
    corners_of,
    degrees_of,
    point_of,
    side_of,
)
from .opening import is_region, open_place
from .questions import Command, Numbers, Question, Watershed
from .readers import Readers
from .session import Recovery, Session, memory_table, open_store, read_store
from .stores import Report, check_store, find_program, find_server, format_store, upgrade_store
from .trials import Trial
from .version import VERSION as __version__

__all__ = [
    "VOID",
    "BadArgument",
    "BadReply",
    "CannotOpen",
    "Command",
    "Corner",
    "Direction",
    "MosaicError",
    "Numbers",
    "Place",
    "Point",
    "ProgramNotFound",
    "Question",
    "Readers",
    "Recovery",
    "Refusal",
    "Report",
    "Run",
    "Session",
    "SessionDied",
    "StoreBusy",
    "StoreChanged",
    "StoreExists",
    "TimedOut",
    "Trial",
    "Watershed",
    "Window",
    "__version__",
    "check_store",
    "corner_of",
    "corners_of",
    "degrees_of",
    "errors",
    "find_program",
    "find_server",
    "format_store",
    "is_region",
    "memory_table",
    "open_place",
    "open_store",
    "point_of",
    "questions",
    "read_store",
    "side_of",
    "upgrade_store",
]
