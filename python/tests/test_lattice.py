"""Points, degrees and names."""

import unittest

from mosaic_store import Corner, Direction, Place, Point, Window, corner_of, corners_of, degrees_of, point_of, side_of


class Lattice(unittest.TestCase):
    def test_degrees_both_ways(self):
        self.assertEqual(point_of(37.5, -105.25, 1201), Point(45000, -126300))
        self.assertEqual(degrees_of(Point(45000, -126300), 1201), Place(37.5, -105.25))
        for point in (Point(0, 0), Point(-108000, 215999), Point(183, 411), Point(-7, -1)):
            self.assertEqual(point_of(*degrees_of(point, 1201), 1201), point)

    def test_places_off_the_globe(self):
        for place in ((91, 0), (-90.1, 0), (0, 180.5), (float("nan"), 0), (0, float("inf"))):
            with self.subTest(place), self.assertRaises(ValueError):
                point_of(*place, 1201)

    def test_names(self):
        for name, corner in (("N37W105", (37, -105)), ("s01w001", (-1, -1)), ("S00W000", (0, 0)), ("N89E179", (89, 179))):
            self.assertEqual(corner_of(name), corner)
        for name in ("", "N37W10", "N90E000", "N00E180", "S91E000", "N37W1055", "M37W105", "N37W105\n", "N٣7W105"):
            self.assertIsNone(corner_of(name), name)
        self.assertEqual(Corner(-1, -1).name, "S01W001")
        self.assertEqual(Corner(0, 0).name, "N00E000")

    def test_who_holds_a_point(self):
        def names(y, x):
            return [corner.name for corner in corners_of(Point(y, x), 3)]

        self.assertEqual(names(0, 0), ["S01W001", "S01E000", "N00W001", "N00E000"])
        self.assertEqual(names(1, 2), ["N00E000", "N00E001"])
        self.assertEqual(names(1, 1), ["N00E000"])
        self.assertEqual(names(180, 0), ["N89W001", "N89E000"])

    def test_windows_and_steps(self):
        self.assertEqual(Corner(1, -2).window(11), Window(10, -20, 20, -10))
        self.assertEqual((Window(1, 2, 3, 5).height, Window(1, 2, 3, 5).width), (3, 4))
        self.assertEqual(Direction(2).step, (-1, 1))
        self.assertEqual(Direction(0).step, (0, 0))

    def test_sides(self):
        self.assertEqual([side_of(length) for length in (18, 2884802, 25934402)], [3, 1201, 3601])
        self.assertEqual([side_of(length) for length in (0, 8, 17, 19, 2884800, 2 * 3602**2)], [None] * 6)


if __name__ == "__main__":
    unittest.main()
