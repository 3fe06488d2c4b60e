"""The first store, and the worked rows of docs/lines.md through the client for other languages."""

from support import A_TILE, EXAMPLES, Case, output
from client import Ended, Refused, Session, place_of, point_of

FIRST_STORE = """OK 0
OK 1
OK 5
OK 5
OK 2
OK 3
0 0
1 1
0 2
OK 9 3
2 0 2
1 0 2
0 0 2
OK 2
OK 7
      9      9      9
      9      1      9
      9      9      7
count 2 commits 3
N00E000 stale
seams 0
"""


class Client(Case):
    def test_first_store(self):
        self.assertEqual(output(EXAMPLES / "first_store"), FIRST_STORE)

    def test_rows(self):
        session = Session(self.program, "table", "3", "4")
        self.assertEqual(session.ask("import N00E000 18", A_TILE), ["1"])
        self.assertEqual(session.number("elev 0 2"), 5)
        self.assertEqual(session.rows("trace 0 0"), [(0, 0), (1, 1), (0, 2)])
        self.assertEqual(session.rows("watershed 0 2"), [(2, 0, 2), (1, 0, 2), (0, 0, 2)])
        self.assertEqual(session.export("N00E000"), A_TILE)
        # The heads of replies with rows, and the text after them.
        self.assertEqual([session.ask(line) for line in ("watershed 0 2", "export N00E000", "tiles")], [["9", "3"], ["18"], ["1", "N00E000"]])
        self.assertEqual([session.number("sink 1 1"), session.rows("sinks")], [2, [(1, 1)]])
        with self.assertRaises(Refused) as caught:
            session.ask("elev 5 5")
        self.assertEqual((caught.exception.number, str(caught.exception)), (7, "7 Outside"))
        self.assertEqual((session.number("count"), session.quit()), (2, 0))

    def test_store_that_is_not_there(self):
        with self.assertRaises(Ended) as caught:
            Session(self.program, "serve", "/nowhere").ask("count")
        self.assertEqual(str(caught.exception), "mosaic: cannot open /nowhere")

    def test_degrees(self):
        self.assertEqual((point_of(37.5, -105.25, 1201), place_of(45000, -126300, 1201)), ((45000, -126300), (37.5, -105.25)))
