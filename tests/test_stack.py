"""With 256 KB of stack each kind of work is done as with more, at the sides that satellites have: no call goes deeper where a tile is
larger."""

import resource
import struct
import subprocess

from support import Case

STACK = 256 * 1024
LINES = """\
fill {0} {0}
trace {0} {0}
watershed {0} {0}
step
burn 1 {0} {0}
wall 100 1 1 {0} {0}
fill {0} {0}
watershed 1 1
export N00E000
upstream N00E000
step
count
"""


class Stack(Case):
    def run_limited(self, given, *words, limit=STACK):
        """The status and the output of the program under a limit on its stack (`ulimit -s`)."""
        done = subprocess.run([self.tiles, *words], input=given, stdout=subprocess.PIPE,
                              preexec_fn=lambda: resource.setrlimit(resource.RLIMIT_STACK, (limit, limit)))
        return done.returncode, done.stdout

    def test_little_stack(self):
        for side in (1201, 3601):
            with self.subTest(side):
                self.check_side(side)

    def check_side(self, side):
        tile, lines, replies = self.folder / "N00E000.hgt", LINES.format(side // 2).encode(), []
        rough = (struct.pack(f">{side}h", *((row * 7 + column * 13) % 97 + row for column in range(side))) for row in range(side))
        tile.write_bytes(b"".join(rough))
        for limit in (8 * 1024 * 1024, STACK):
            store = self.folder / f"store{side}-{limit}"
            self.assertEqual(self.run_limited(b"", "format", store, str(side), "1", limit=limit), (0, b"OK 0\n"))
            self.assertEqual(self.run_limited(b"", "import", store, tile, limit=limit), (0, b"OK 1\n"))
            replies.append(self.run_limited(lines, "serve", store, limit=limit))
            self.assertEqual(self.run_limited(b"", "check", store, limit=limit), (0, b"count 3 commits 6\nN00E000 fresh\nseams 0\n"))
            store.unlink()
        self.assertTrue(replies[0] == replies[1], "the replies differ")
        self.assertEqual((replies[0][0], replies[0][1].splitlines()[-1]), (0, b"OK 3"))
