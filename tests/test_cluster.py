"""A region on several workers; some are killed at work."""

from support import EXAMPLES, Case, needs, output, python_that_has


class Cluster(Case):
    @classmethod
    def setUpClass(cls):
        super().setUpClass()
        needs("g++", "g++")
        python_that_has("distributed, numpy", "python3-distributed python3-numpy")

    def test_workers_that_are_killed(self):
        text = output(EXAMPLES / "cluster", self.folder / "cluster")
        print(text, end="")
        self.assertEqual(text.count("  killed a worker with turns to do"), 3)
        self.assertEqual(text.count("  killed the program"), 1)
        self.assertRegex(text, r"[1-9]\d{5} levels, directions and counts equal to the plain reference's")
        self.assertRegex(text, r"50 watersheds equal to the plain reference's, the largest of [1-9]\d* points in 12 stores")
