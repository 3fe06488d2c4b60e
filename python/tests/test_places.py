"""Places as people write them."""

from __future__ import annotations

import unittest

from mosaic_store.errors import BadArgument
from mosaic_store.places import angle_of, numbers_in, place_of


class Places(unittest.TestCase):
    def test_a_place_is_read_as_it_is_written(self) -> None:
        rows = {
            "37.5 -105.25": (37.5, -105.25),
            "37.5,-105.25": (37.5, -105.25),
            "(37.5, -105.25)": (37.5, -105.25),
            "37 105": (37, 105),
            "37,105": (37, 105),
            "36,6 -84,2": (36.6, -84.2),
            "36,6; -84,2": (36.6, -84.2),
            "36,6, -84,2": (36.6, -84.2),
            "37.5 n 105.25 w": (37.5, -105.25),
            "37.5° S, 105.25° E": (-37.5, 105.25),
            "N37.5W105.25": (37.5, -105.25),
            "N 37.5 W 105.25": (37.5, -105.25),
            "105.25 W 37.5 N": (37.5, -105.25),
            "36°36'N 84°12'W": (36.6, -84.2),
            "36°36′0″N, 84°12′18″W": (36.6, -84.205),
            "−36.5 10": (-36.5, 10),
        }
        for text, place in rows.items():
            with self.subTest(text):
                self.assertEqual(tuple(round(number, 9) for number in place_of(text)), place)

    def test_what_is_no_place_is_refused(self) -> None:
        rows = {
            "": "no place",
            "36.6": "no place",
            "36,6,-84,2": "no place",
            "nan 3": "no place",
            "1e5 3": "no place",
            "36 N 84 N": "twice",
            "-36 N 84 W": "a sign or a letter",
            "36°61'N 84 W": "below 60",
            "95 3": "from -90 to 90",
            "3 181": "from -180 to 180",
        }
        for text, told in rows.items():
            with self.subTest(text), self.assertRaisesRegex(BadArgument, told):
                place_of(text)

    def test_one_number(self) -> None:
        rows = {"36.5N": 36.5, "36,5": 36.5, "-84,2": -84.2, "84°12'W": -84.2, "s 3": -3}
        for text, angle in rows.items():
            with self.subTest(text):
                self.assertAlmostEqual(angle_of(text), angle)
        for text in ("", "x", "nan", "1e5", "3 3"):
            with self.subTest(text), self.assertRaisesRegex(BadArgument, "no number of degrees"):
                angle_of(text)
        for text, axis in (("84W", "NS"), ("36N", "EW")):
            with self.subTest(text), self.assertRaisesRegex(BadArgument, "exchange it"):
                angle_of(text, axis)

    def test_words_of_a_command(self) -> None:
        """At most four numbers, and how many words name them: the latitude of each place first, by its letter."""
        rows = (
            ("36.6 -84.2 store", [36.6, -84.2], 2),
            ("84.2W 36.6N", [36.6, -84.2], 2),
            ("84.2 W 36.6 N", [36.6, -84.2], 4),
            ("N 36.6 W 84.2 37N 84W", [36.6, -84.2, 37, -84], 6),
            ("1e-1 5", [0.1, 5], 2),
            ("36.6 84.2 S", [36.6, 84.2], 2),  # a store of the name S
            ("36,6N|84,2W 37 -84", [36.6, -84.2, 37, -84], 3),
            ("36.6 store", [36.6], 1),
            ("1 2 3 4 5", [1, 2, 3, 4], 4),
            ("store", [], 0),
        )
        for text, numbers, used in rows:
            with self.subTest(text):
                found, words = numbers_in([word.replace("|", " ") for word in text.split()], 4)
                self.assertEqual(([float(number) for number in found], words), (numbers, used))


if __name__ == "__main__":
    unittest.main()
