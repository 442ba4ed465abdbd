"""Whom an image of a stuck run waits for, by its trace; and what the trace and the source tell of a race."""

import re
import unittest
from typing import List

from source_text import Source
from survey import survey
from trace import read_run
from waits import Held, Waiting, waits_of

LOCKS = """\
1 1 3 m1 lock l:0 > 0
1 2 5 m2 lock l:0 > 0
stuck image 1 line 4 lock
stuck image 2 line 6 lock
"""
LOCKS_SOURCE = "\n\nlock (l[1])\nlock (l[2])\nlock (l[2])\nlock (l[1])\n"
TEAMS = """\
trace 2 images 3
1 1 1 board arrive 1/-1 form 1 0 > round 1
2 2 1 board arrive 1/-1 form 1 0 > round 1
3 3 1 board arrive 1/-1 form 2 0 > round 1
4 1 1 board leave 1/-1 1 > 0 teams 2/1:1.2 3/2:3
5 2 1 board leave 1/-1 1 > 0 teams 2/1:1.2 3/2:3
6 3 1 board leave 1/-1 1 > 0 teams 2/1:1.2 3/2:3
7 1 2 board arrive 2/1 change > round 1
8 3 9 board stop 0 > ok
stuck image 1 line 2 leave
stuck image 2 line 3 unpair
"""


def first_form(text: str) -> str:
    """Returns a trace of form 2 in form 1: without its first line and the team numbers."""
    text = re.sub("^trace 2 images [0-9]+\\n", "", text, flags=re.MULTILINE)
    return re.sub("( (?:arrive|leave|gather|take|failed|stopped|status) [0-9]+)/-?[0-9]*", "\\1", text)


def waits(text: str, source: str = "", images: int = 0) -> List[Waiting]:
    """Returns what the images of a run wait for."""
    return waits_of(read_run(text), Source(source), images)


class WaitsTest(unittest.TestCase):
    def test_locks(self) -> None:
        got = waits(LOCKS, LOCKS_SOURCE)
        self.assertEqual([it.others for it in got], [(Held(2, 5),), (Held(1, 3),)])
        self.assertEqual([it.thing for it in got], ["l[2]", "l[1]"])

    def test_a_lock_that_was_released(self) -> None:
        text = LOCKS.replace("stuck", "2 2 5 m2 unlock l:0 > 0\nstuck", 1)
        self.assertEqual([it.others for it in waits(text, LOCKS_SOURCE)], [(), (Held(1, 3),)])

    def test_locks_of_an_array(self) -> None:
        text = "1 1 3 m1 lock l:0 > 0\n1 2 3 m1 lock l:1 > 0\nstuck image 1 line 4 lock\nstuck image 3 line 5 lock\n"
        source = "type (lock_type) :: l(0:1)[*]\n\n\nlock (l(1)[1])\nlock (l(k)[1])\n"
        got = waits(text, source)
        self.assertEqual([it.thing for it in got], ["l(1)[1]", "l(k)[1]"])
        self.assertEqual([it.others for it in got], [(Held(2, 3),), (Held(1, 3), Held(2, 3))])

    def test_only_the_members_of_a_team_are_awaited(self) -> None:
        got = waits(TEAMS)
        self.assertEqual((got[0].thing, got[0].others), ("CHANGE TEAM", (Held(2, 3),)))
        self.assertEqual(waits(first_form(TEAMS)), got)

    def test_pairs_are_counted(self) -> None:
        text = "1 1 1 board pair 2,3 > ok\n2 2 1 board pair 1 > ok\n3 2 1 board unpair > 0\n4 2 2 board pair 1 > ok\n"
        got = waits(text + "stuck image 1 line 1 unpair\nstuck image 2 line 2 unpair\nstuck image 3 line 4 leave\n")
        self.assertEqual([it.others for it in got[:2]], [(Held(3, 4),), (Held(1, 1),)])

    def test_posts(self) -> None:
        text = "1 2 1 m1 post e:0 > 0\n2 2 1 m1 post e:0 > 0\n3 1 2 m1 wait e:0 1 > 0\n"
        text += "stuck image 1 line 3 wait\n"
        source = "\n\nevent wait (e, until_count = 2 + 1)\n"
        got = waits(text, source)[0]
        self.assertEqual((got.thing, got.has, got.wants, got.others), ("e", 1, 3, (Held(2, 1),)))
        got = waits(text, source.replace("2 + 1", "k"))[0]
        self.assertEqual((got.has, got.wants), (1, None))

    def test_a_critical_construct(self) -> None:
        text = "1 1 4 board enter 1 > 0\nstuck image 1 line 5 wait\nstuck image 2 line 4 enter\n"
        self.assertEqual(waits(text)[1].others, (Held(1, 4),))

    def test_a_collective_has_rounds_of_its_own(self) -> None:
        text = "1 1 1 board arrive 1/-1 sync > round 1\n2 2 2 board gather 1/-1 sum 0 I4 3 > round 1\n"
        got = waits(text + "stuck image 1 line 1 leave\nstuck image 2 line 2 take\n", "sync all\ncall co_sum (x)\n")
        self.assertEqual([it.thing for it in got], ["SYNC ALL", "CO_SUM"])
        self.assertEqual([it.others for it in got], [(Held(2, 2),), (Held(1, 1),)])

    def test_an_image_that_has_ended_is_awaited_by_none(self) -> None:
        text = "1 1 1 board arrive 1/-1 sync > round 1\n2 2 3 board stop 0 > ok\nstuck image 1 line 1 leave\n"
        self.assertEqual(waits(text, images=3)[0].others, (Held(3, 0),))


class SurveyTest(unittest.TestCase):
    def test_what_is_kept(self) -> None:
        lines = [b"var 1 i = 3", b"var 2 i = 4,5", b"var 1 l = T", b"trace 2 images 2"]
        lines += [b"1 1 2 m1 write x:0 1 > ok", b"1 2 2 m2 read x:0 > 0"]
        lines += [b"2 1 3 own print a > b > ok", b"3 1 2 m1 write x:1 1 > ok"]
        found = survey(lines, 2, [(1, 3)])
        self.assertEqual(found.variables, {1: {"i": [3]}, 2: {"i": [4, 5]}})
        self.assertEqual([it.number for it in found.last[1]], [2, 3])
        self.assertEqual((found.last[1][0].ask, found.last[1][0].reply), (("print", "a > b"), "ok"))
        self.assertEqual(found.chosen[1, 3].ask, ("write", "x:1", "1"))
        self.assertEqual(found.turns[1, 3], 2)
        self.assertIsNone(found.before_last(2))


if __name__ == "__main__":
    unittest.main()
