"""Whom each image of a stuck run waits for, of small traces, against what was worked out by hand."""

import re
import unittest
from typing import List, Sequence

from chosen_image import value_of
from tests.test_waits import first_form
from trace import read_run
from waited_for import circle, reasons

CROSSED = """\
1 1 3 m1 lock left:0 > 0
2 2 6 m1 lock right:0 > 0
3 3 8 m3 lock right:0 > 0
stuck image 1 line 4 lock
stuck image 2 line 7 lock
"""
CROSSED_SOURCE = ["", "", "", "lock (right[1])", "", "", "lock (left[one])"]
# The last image of its team hasn't come to the second round, since it waits for a post; image 4 has failed.
TEAMS = """\
trace 2 images 5
1 1 3 board leave 1/-1 1 > 0 teams 2/8:1.2.4 3/9:3.5
1 2 3 board leave 1/-1 1 > 0 teams 2/8:1.2.4 3/9:3.5
2 1 4 board arrive 2/8 sync > round 1
3 2 4 board arrive 2/8 sync > round 1
4 1 4 board leave 2/8 1 > 0
5 1 5 board gather 2/8 sum 0 I4 7 > round 2
5 4 0 own fail > ok
6 2 4 board leave 2/8 1 > 0
7 1 6 m2 post e:0 > 0
8 3 5 board arrive 3/9 sync > round 1
9 5 9 board stop 0 > ok
stuck image 1 line 5 take
stuck image 2 line 7 wait
stuck image 3 line 5 leave
"""
PAIRS = """\
1 1 2 board pair 2,3 > ok
2 2 3 board pair 1 > ok
3 2 3 board unpair > 0
4 4 5 board enter 1 > 0
5 2 4 board pair 3,4 > ok
6 4 6 m4 lock l:0 > 0
7 4 7 board stop 0 > ok
stuck image 1 line 2 unpair
stuck image 2 line 4 unpair
stuck image 3 line 5 enter
stuck image 5 line 9 lock
"""


def told(text: str, source: Sequence[str] = ()) -> List[str]:
    """Returns why each image waits, in words."""
    return [f"{it.wait.image}: {it.text}" for it in reasons(read_run(text), source)]


class WaitedForTest(unittest.TestCase):
    def test_locks(self) -> None:
        first = "1: lock right:0[1], held by image 2 since line 6"
        second = "2: lock left:0[1], held by image 1 since line 3"
        self.assertEqual(told("var 1 one = 3\nvar 2 one = 1\n" + CROSSED, CROSSED_SOURCE), [first, second])
        self.assertEqual(told(CROSSED), ["1: lock, one that images 2, 3 hold", "2: lock, one that images 1, 3 hold"])
        all_reasons = reasons(read_run("var 2 one = 1\n" + CROSSED), CROSSED_SOURCE)
        self.assertEqual([it.others for it in all_reasons], [(2,), (1,)])
        self.assertEqual(circle(all_reasons), [1, 2])
        freed = CROSSED.replace("m3 lock right:0", "m1 free left:0")
        self.assertEqual(told(freed)[1], "2: lock")

    def test_rounds_and_events(self) -> None:
        waits = ["1: CO_SUM r2 of team 2 (number 8), image 2 hasn't come", "2: event e, 1 of 2 posts"]
        waits.append("3: SYNC r1 of team 3 (number 9)")
        source = [""] * 6 + ["EVENT WAIT (E, UNTIL_COUNT = 2)"]
        self.assertEqual(told(TEAMS, source), waits)
        self.assertEqual(told(first_form(TEAMS), source), [re.sub(r" \(number .\)", "", it) for it in waits])
        self.assertEqual(circle(reasons(read_run(TEAMS), source)), [])
        self.assertEqual(told(TEAMS, [""] * 6 + ["event wait (e, until_count = n)"])[1], "2: event e, 1 post so far")
        self.assertEqual(told(TEAMS.replace("m2 post", "m1 post"))[1], "2: event, 0 posts so far")

    def test_pairs_a_construct_and_a_holder_that_has_stopped(self) -> None:
        waits = [
            "1: SYNC IMAGES, image 3 hasn't come",
            "2: SYNC IMAGES, image 3 hasn't come",
            "3: CRITICAL, with image 4, which has stopped, since line 5",
            "5: lock l:0[4], held by image 4, which has stopped, since line 6",
        ]
        self.assertEqual(told(PAIRS), waits)

    def test_values(self) -> None:
        table = [
            ("mod(me, num_images()) + 1", 1),
            ("THIS_IMAGE() - 1", 3),
            ("-7 / 2 + me", 1),
            ("me * (2 + 1)", 12),
            ("you", None),
            ("me, 1", None),
            ("x(1)", None),
            ("me // 0", None),
            ("me / 0", None),
            ("'a'", None),
        ]
        for text, value in table:
            self.assertEqual(value_of(text, 4, 4, {"me": 4}), value, text)
