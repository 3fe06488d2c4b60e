"""With more tiles of the largest side than fit the cache, floods and directions are evicted, and found again as they were. It takes 2 GB."""

import struct

from client import Session
from support import Case

SIDE, TILES = 3601, 21


class Room(Case):
    def test_tiles_that_are_given_up(self):
        data = bytearray().join(struct.pack(">h", row) * SIDE for row in range(SIDE))
        middle = 2 * (1800 * SIDE + 1800)
        data[middle:middle + 2] = b"\0\0"
        with Session(self.program, "table", str(SIDE), str(TILES)) as session:
            for tile in range(TILES):
                session.ask(f"import N00E{tile:03} {len(data)}", data)
            for tile in (*range(TILES), 0, 1):
                self.assertEqual(slope_and_pit(session, tile), ({"64"}, 1799, 32), tile)
            for tile in (0, TILES - 1):
                session.ask(f"burn 5 1801 {3600 * tile + 1800}")
                self.assertEqual(slope_and_pit(session, tile), ({"64"}, 1798, 64), tile)


def slope_and_pit(session, tile):
    """The directions of 300 points on the slope, more than are asked one by one, and the level and the direction of the pit."""
    session.send("\n".join(f"dir {1000 + row} {3600 * tile + 1000}" for row in range(300)))
    directions = {session.reply("dir")[0][0] for _ in range(300)}
    return directions, *(session.number(f"{word} 1800 {3600 * tile + 1800}") for word in ("fill", "dir"))
