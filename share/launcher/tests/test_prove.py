"""What is told of the lines that rt ci says."""

from __future__ import annotations

import unittest

import prove
from progress import Progress


class Kept(Progress):
    """A telling that keeps its lines."""

    def __init__(self) -> None:
        super().__init__()
        self.lines: list[str] = []

    def say(self, text: str) -> None:
        self.lines += text.split("\n")


class Told(unittest.TestCase):
    def setUp(self) -> None:
        self.progress = Kept()
        self.told = prove.Told(3, self.progress)

    def take(self, *lines: str) -> None:
        """Takes lines of rt ci."""
        for line in lines:
            self.told.line(line)

    def test_it_counts_the_crates(self) -> None:
        self.assertEqual(self.told.state(), "0 of 3 crates proved")
        self.take("== one", "goals", "rt: one proved", "== one: its tests", "rt: one: its tests are proved")
        self.take("rt: two is kept: an earlier run on this machine proved the same files over the same libraries")
        self.assertEqual(self.progress.phase, "2 of 3 crates proved")
        self.take("rt: three proved")
        self.assertEqual(self.told.state(), "3 of 3 crates proved; now their tests, wrong bodies and the program")
        self.assertEqual(self.progress.lines, [])

    def test_it_tells_what_failed(self) -> None:
        self.take("== one", "of one", "rt: one proved", "== two", "no proof of the goal", "rt: two NOT PROVED")
        wanted = ["the crate two could not be proved:", "no proof of the goal", "rt: two NOT PROVED"]
        self.assertEqual(self.progress.lines, wanted)
        self.told.end(1)
        self.assertEqual(self.progress.lines, wanted)

    def test_it_tells_which_tests_failed(self) -> None:
        self.take("== two: its tests", "no", "rt: two: its tests are NOT PROVED")
        self.assertEqual(self.progress.lines[0], "the tests of the crate two could not be proved:")

    def test_it_tells_the_end_of_what_failed_else(self) -> None:
        self.take(*[f"line {number}" for number in range(100)], "rt: FAILED: caf (run)", "140 passed, 1 failed")
        self.told.end(1)
        self.assertEqual(self.progress.lines[0], "rt ci failed, with status 1:")
        self.assertEqual(self.progress.lines[-2:], ["rt: FAILED: caf (run)", "140 passed, 1 failed"])
        self.assertEqual(len(self.progress.lines), 1 + prove.TAIL)

    def test_it_tells_what_it_waits_for(self) -> None:
        self.take("rt: waiting for another rt ci in this copy of the repository to end")
        self.assertEqual(self.progress.lines, ["rt: waiting for another rt ci in this copy of the repository to end"])


if __name__ == "__main__":
    unittest.main()
