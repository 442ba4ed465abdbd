"""What is said of a run that doesn't speak for every order."""

import os
import re
import unittest
from typing import List

from ending import Caller
from ends import read_ends
from given_file import Asked, GivenFile
from messages import Answered, messages
from sentences import read_sentences
from told_order import _CASES, reason_of

HOME = os.path.dirname(os.path.dirname(os.path.dirname(os.path.dirname(os.path.abspath(__file__)))))
SOURCE = b"lock (a)\n  x = 1\nend\n"


def said(status: int, words: List[str], *lines: str) -> List[str]:
    """Returns the lines that are said of the answer to a call."""
    asked = Asked(words, len(words) - 1, GivenFile("a.f90", "a.f90", SOURCE))
    return messages(Caller(HOME, "caf"), asked, Answered(status, lines)).split("\n")[:-1]


class ReasonTest(unittest.TestCase):
    def test_lines(self) -> None:
        self.assertIsNone(reason_of([]))
        self.assertIsNone(reason_of(["every order", "stuck image 1 line 1 lock"]))
        lines = ["stuck image 1 line 1 lock", "this order: line 12, other poster"]
        self.assertEqual(reason_of(lines), (12, "other poster"))

    def test_it_tells_no_end(self) -> None:
        self.assertEqual(read_ends(["every order", "this order: line 12, lock"]), [])


class SaidTest(unittest.TestCase):
    def test_every_order_needs_no_word(self) -> None:
        self.assertEqual(said(0, ["run", "--every", "a.f90"], "every order"), [])

    def test_this_order(self) -> None:
        got = said(0, ["run", "-n", "2", "-w", "2", "--every", "a.f90"], "this order: line 1, lock")
        text = "another order may end otherwise: here a lock goes to who comes first"
        self.assertEqual(got[0], f"a.f90:1:1: note: {text} [ThisOrder]")
        self.assertEqual(got[1], "    1 | lock (a)")
        self.assertEqual(got[3:], ["help: this runs it in many orders:", "    caf explore -n 2 a.f90"])

    def test_a_replay_has_no_other_orders(self) -> None:
        got = said(0, ["replay", "--every", "a.trace", "a.f90"], "this order: line 2, race")
        text = "another order may end otherwise: this access is in a race"
        self.assertEqual(got[0], f"a.f90:2:3: note: {text} [ThisOrder]")
        self.assertEqual(got[3:], [])

    def test_behind_what_is_said_of_the_end(self) -> None:
        words = ["run", "-n", "1", "--order", "0", "--every", "a.f90"]
        got = said(4, words, "error stop image 1 line 2 code 7", "this order: line 2, errorstop")
        starts = [it for it in got if re.match("a.f90:[0-9]", it)]
        self.assertEqual(len(starts), 2)
        self.assertIn("[ThisOrder]", starts[1])

    def test_teams_of_other_teams_and_a_clash(self) -> None:
        words = ["run", "--every", "a.f90"]
        nested = said(0, words, "this order: line 1, form")
        self.assertIn("another order may number the teams that are formed here otherwise [ThisOrder]", nested[0])
        clash = said(9, words, "clash image 2 line 2 against image 1 line 1", "this order: line 2, form")
        self.assertTrue(any(it.endswith("it may not come to this [ThisOrder]") for it in clash))

    def test_each_case_has_its_sentence(self) -> None:
        cases = {case for end, case in read_sentences(HOME).rows if end == "ThisOrder"}
        self.assertEqual(cases, {*_CASES.values(), "end", "help"})


if __name__ == "__main__":
    unittest.main()
