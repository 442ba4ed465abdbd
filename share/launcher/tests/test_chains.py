"""The chain of waits that the program tells: how its lines are read, said and cut off."""

import os
import unittest
from typing import List

from chains import Chain, chain_of
from ends import read_ends
from sentences import read_sentences
from scene import Scene
from source_text import Source
from survey import survey
from tables import read_tables, tables_path
from tail import Tail
from told_stuck import told_stuck
from trace import Wait

HOME = os.path.dirname(os.path.dirname(os.path.dirname(os.path.dirname(os.path.abspath(__file__)))))
CYCLE = ["why image 1 waits for image 2", "why image 2 waits for image 3", "why image 3 waits for image 2"]
CYCLE.append("why cycle from image 2")
STOPPED = ["why image 2 waits for image 4", "why image 4 waits for image 1", "why image 1 stopped"]
POST = ["why image 1 waits for image 2", "why image 2 waits for a post"]


def said(lines: List[str]) -> List[str]:
    """Returns what is said of a chain."""
    scene = Scene(read_tables(tables_path(HOME)), read_sentences(HOME), Source(""), survey(iter(()), 4, []), [], "a")
    return list(told_stuck(scene, [Wait(1, 1, "lock")], chain_of(read_ends(lines))).helps)


class ChainTest(unittest.TestCase):
    def test_cycle(self) -> None:
        chain = chain_of(read_ends(["stuck image 1 line 1 lock", *CYCLE]))
        self.assertEqual(chain, Chain((1, 2, 3), "cycle", 2))
        self.assertEqual(chain and chain.cycle, (2, 3, 2))
        self.assertEqual(said(CYCLE), ["image 2 waits for image 3, which waits for image 2: none of them can go on"])

    def test_stopped(self) -> None:
        chain = chain_of(read_ends(STOPPED))
        self.assertEqual(chain, Chain((2, 4, 1), "stopped"))
        self.assertEqual(chain and chain.cycle, ())
        self.assertEqual(said(STOPPED), ["image 2 waits for image 4, which waits for image 1, which has stopped"])

    def test_post(self) -> None:
        self.assertEqual(chain_of(read_ends(POST)), Chain((1, 2), "post"))
        self.assertEqual(said(POST), ["image 1 waits for image 2, which waits for a post"])

    def test_one_image_alone(self) -> None:
        self.assertEqual(chain_of(read_ends(POST[1:])), Chain((2,), "post"))
        self.assertEqual(said(POST[1:]), [])
        self.assertEqual(said(STOPPED[1:]), [])
        self.assertIsNone(chain_of(read_ends(["stuck image 1 line 1 wait"])))


class TailTest(unittest.TestCase):
    def test_each_cut(self) -> None:
        front, end = b"1: why\nstuck image 1 line 1 lock\n", b"why image 1 waits for a post\n"
        for at in range(len(front + end) + 1):
            for is_passed in (False, True):
                with self.subTest(at=at, is_passed=is_passed):
                    tail = Tail(is_passed)
                    text = front + end
                    shown = tail.take(text[:at]) + tail.take(text[at:]) + tail.rest()
                    self.assertEqual(shown, text if is_passed else front)
                    self.assertEqual(tail.lines(), [] if is_passed else ["why image 1 waits for a post"])

    def test_the_line_of_every_behind_it(self) -> None:
        front, last = b"stuck image 1 line 1 lock\n", b"this order: line 1, lock\n"
        why = b"why image 1 waits for a post\n"
        text = front + why + last
        for at in range(len(text) + 1):
            for is_passed in (False, True):
                with self.subTest(at=at, is_passed=is_passed):
                    tail = Tail(is_passed)
                    shown = tail.take(text[:at]) + tail.take(text[at:]) + tail.rest()
                    self.assertEqual(shown, text if is_passed else front + last)
                    self.assertEqual(tail.lines(), [] if is_passed else ["why image 1 waits for a post"])

    def test_no_such_lines(self) -> None:
        tail = Tail(False)
        self.assertEqual(tail.take(b"1: 2\n") + tail.take(b"w") + tail.rest(), b"1: 2\nw")
        self.assertEqual(tail.lines(), [])


if __name__ == "__main__":
    unittest.main()
