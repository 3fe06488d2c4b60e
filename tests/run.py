"""Runs the tests of a part, for `./test`: a module of this folder or a class of one, or the Python package's own tests.

usage: tests/run.py MODULE[.CLASS] | python

What is left out is named, and the last line is `N passed, M failed`.
"""

import collections
import pathlib
import sys
import unittest

sys.dont_write_bytecode = True
ROOT = pathlib.Path(__file__).resolve().parent.parent
sys.path[1:1] = [str(ROOT / "examples"), str(ROOT / "tools")]


def tests(name):
    """The tests of a part, each by itself."""
    if name == "python":
        sys.path.pop(0)  # there is a package of the name `tests`
        return unittest.defaultTestLoader.discover(str(ROOT / "python" / "tests"), top_level_dir=str(ROOT / "python"))
    return unittest.defaultTestLoader.loadTestsFromName(name)


def main():
    if len(sys.argv) != 2:
        sys.exit(__doc__.splitlines()[2])
    found = unittest.TextTestRunner(verbosity=2).run(tests(sys.argv[1]))
    for reason, count in collections.Counter(reason for _, reason in found.skipped).items():
        print(f"left out of {sys.argv[1]}: {count} test{'s' * (count > 1)}: {reason}")
    failed = len(found.failures) + len(found.errors) + len(found.unexpectedSuccesses)
    passed = Passed.count
    print(f"{passed} passed, {failed} failed")
    sys.exit(failed > 0 or passed + len(found.skipped) == 0)


class Passed(unittest.TextTestResult):
    """Counts what has passed: a test with a part that is left out hasn't."""

    count = 0

    def addSuccess(self, test):
        Passed.count += 1
        super().addSuccess(test)


unittest.TextTestRunner.resultclass = Passed

if __name__ == "__main__":
    main()
