"""Lengths and areas on the ellipsoid of WGS 84, beside values of tables."""

import math
import unittest

from mosaic_store import Run
from mosaic_store.ellipsoid import cell_area, degree
from mosaic_store.geojson import square_kilometres


class Degrees(unittest.TestCase):
    def test_known_lengths(self) -> None:
        """Of a degree to the north and to the east, by a (1 - e2) / (1 - e2 sin2)^1.5 and a cos / (1 - e2 sin2)^0.5."""
        rows = ((0, 110_574.276, 111_319.491), (30, 110_852.442, 96_486.280), (45, 111_131.777, 78_846.835), (60, 111_412.287, 55_800.002))
        for latitude, north, east in rows:
            for signed in (latitude, -latitude):
                found = degree(signed)
                self.assertAlmostEqual(found[0], north, delta=0.001)
                self.assertAlmostEqual(found[1], east, delta=0.001)

    def test_the_whole_earth(self) -> None:
        """The cells of all points of a quarter of a degree have its area together: 510.0656 million km2."""
        runs = [Run(y, -720, 719) for y in range(-359, 360)]
        self.assertAlmostEqual(square_kilometres(runs, 5) / 510_065_621.7, 1, delta=2e-6)
        self.assertEqual(cell_area(91 * 4, 5), 0)

    def test_a_degree_square(self) -> None:
        """From 45 to 46 degrees: 8,699.0 km2, by the area of a zone of the ellipsoid."""
        e2 = 0.00669437999014
        e, b2 = math.sqrt(e2), 6_378_137.0**2 * (1 - e2)

        def zone(latitude: float) -> float:
            s = math.sin(math.radians(latitude))
            return b2 / 2 * (s / (1 - e2 * s * s) + math.atanh(e * s) / e) * math.radians(1) / 1e6

        cells = [Run(y, 0, 1199) for y in range(45 * 1200 + 1, 46 * 1200)]
        halves = [Run(y, 0, 1199) for y in (45 * 1200, 46 * 1200)]
        found = square_kilometres(cells, 1201) + square_kilometres(halves, 1201) / 2
        self.assertAlmostEqual(found / (zone(46) - zone(45)), 1, delta=1e-7)


if __name__ == "__main__":
    unittest.main()
