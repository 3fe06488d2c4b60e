"""The plain reference program of bench/, asked about tiles that are edited by plain bytes."""

import struct

from support import output


class Region:
    """The tiles of a region, to be edited by plain bytes and asked by the reference."""

    def __init__(self, reference, side, folder, rows=2, columns=2):
        self.words = [reference, "answer", str(side), str(rows), str(columns), folder]
        self.side, self.folder = side, folder

    def edit(self, y, x, change):
        """Gives a point that only the tile N00E000 has another height."""
        path = self.folder / "N00E000.hgt"
        data = bytearray(path.read_bytes())
        at = 2 * ((self.side - 1 - y) * self.side + x)
        data[at:at + 2] = struct.pack(">h", change(struct.unpack(">h", data[at:at + 2])[0]))
        path.write_bytes(data)

    def answers(self, lines):
        return output(*self.words, input="\n".join(lines) + "\n").splitlines()

    def levels(self, points):
        return {point: int(reply.split()[1]) for point, reply in zip(points, self.answers([f"fill {y} {x}" for y, x in points])) if reply.startswith("OK")}

    def heights_and_levels(self, points):
        """Height and filled level of each point, and how much drains through the last."""
        numbers = [int(reply.split()[1]) for reply in self.answers([f"{word} {y} {x}" for y, x in points for word in ("elev", "fill")])]
        return [*zip(numbers[::2], numbers[1::2])], int(self.answers(["watershed %d %d" % points[-1]])[0].split()[1])
