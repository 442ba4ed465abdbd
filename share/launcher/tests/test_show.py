"""A trace as typed entries, the words of the three views, and the columns of small traces, against what was written by
hand."""

import unittest

from acts import short_text
from show import Choice, show
from trace import Kind, Race, Side, Step, Wait, is_trace, read_run
from view_words import ViewWords, read_view_words
from words import Wrong

RACED = """\
1: 7 > 6
1 1 10 m2 write halo:1 7 > ok
1 2 11 m1 write halo:0 8 > ok
2 1 12 m1 read halo:0 > 8
3 1 13 own print 7 > 6 > ok
3 2 15 board stop 0 > ok
var 1 x = 3
race on halo:0 of image 1: image 2 event 1 line 11, image 1 event 2 line 12
"""

COLUMNS = """\
 |image 1                               |image 2
-+--------------------------------------+--------------------------------------
1|1 10 halo:1[2]=7                      !1 11 halo:0[1]=8
2!2 12 halo:0->8                        |
3|3 13 print 7 > 6                      |2 15 stop
race on halo:0 of image 1: image 2 event 1 line 11, image 1 event 2 line 12
"""

STUCK = """\
trace 2 images 4
1 1 3 board arrive 1/-1 sync > round 1
2 3 3 board arrive 1/-1 sync > round 1
3 4 0 own fail > ok
4 2 7 m1 lock l:0 > 0
stuck image 1 line 3 leave
stuck image 2 line 8 lock
stuck image 3 line 3 leave
"""

STUCK_COLUMNS = """\
 |image 1           |image 2           |image 3           |image 4
-+------------------+------------------+------------------+------------------
1|1 3 sync r1 ======|                  |                  |
2|==================|                  |1 3 sync r1 ======|
3|==================|                  |==================|1 0 fail
4|==================|1 7 lock l:0[1]   |==================|
 !  3 waits: SYNC   !  8 waits: lock   !  3 waits: SYNC   |
 !    r1, image 2   !                  !    r1, image 2   |
 !    hasn't come   !                  !    hasn't come   |
stuck
"""


def step(text: str) -> Step:
    """Returns the step of a line of a trace."""
    return read_run(text + "\n").steps[0]


class TraceTest(unittest.TestCase):
    def test_entries(self) -> None:
        run = read_run(RACED)
        self.assertEqual(run.printed, ["1: 7 > 6"])
        self.assertEqual(run.variables, ["var 1 x = 3"])
        numbers = [(it.stamp, it.image, it.number) for it in run.steps]
        self.assertEqual(numbers, [(1, 1, 1), (1, 2, 1), (2, 1, 2), (3, 1, 3), (3, 2, 2)])
        self.assertEqual(run.steps[0], Step(1, 1, 1, 10, "m2", ("write", "halo:1", "7"), "ok"))
        self.assertEqual(run.steps[3].ask, ("print", "7 > 6"))
        self.assertEqual([it.owner for it in run.steps], [2, 1, 1, 0, 0])
        self.assertEqual([it.is_remote for it in run.steps], [True, True, False, False, False])
        self.assertEqual(run.race, Race("halo", 0, 1, Side(2, 1, 11), Side(1, 2, 12)))
        self.assertEqual(run.images, 2)

    def test_how_many_images_there_are(self) -> None:
        steps = "1 1 3 m2 read x:0 > 4\n"
        for line, images in (("", 2), ("trace 2 images 7\n", 7), ("trace 2 images 1\n", 2), ("trace 3 images 7\n", 2)):
            with self.subTest(line=line):
                self.assertEqual(read_run(f"1: 4\n{line}{steps}").images, images)
        self.assertEqual(read_run(f"{steps}trace 2 images 7\n").images, 2)
        self.assertEqual(read_run(f"trace 2 images 999\n{steps}").images, 256)

    def test_the_team_of_an_ask(self) -> None:
        table = [("2/7", "2", "team 2 (number 7)"), ("1/-1", "1", "team 1 (number -1)"), ("3", "3", "team 3")]
        for ask, team, told in table:
            found = step(f"1 1 3 board leave {ask} 4 > 0")
            self.assertEqual((found.team, found.team_told), (team, told))

    def test_who_waits(self) -> None:
        run = read_run(STUCK)
        self.assertEqual(run.waits, [Wait(1, 3, "leave"), Wait(2, 8, "lock"), Wait(3, 3, "leave")])
        self.assertEqual(run.images, 4)

    def test_what_is_a_trace(self) -> None:
        self.assertTrue(is_trace(RACED))
        self.assertFalse(is_trace("1: 7\n"))
        self.assertFalse(is_trace("integer :: m2\nprint *, m2 > 3\nend\n"))

    def test_kinds(self) -> None:
        table = [("board gather 1 sum 0 I4 7 > round 1", Kind.COLLECTIVE), ("own gone > ok", Kind.FAILURE)]
        for text, kind in table:
            self.assertIs(step(f"1 1 1 {text}").kind, kind)

    def test_short_texts(self) -> None:
        table = [
            ("m1 read x:0:2*1 > 4,5", "x:0:2*1->4,5"),
            ("m2 read x:0 > dead", "x:0[2]->dead"),
            ("m2 write x:3 -1 > ok", "x:3[2]=-1"),
            ("m2 write x:3 4 > absent", "x:3[2]=4->absent"),
            ("m2 atomic add x:0 3 0 > 9", "add x:0[2] 3->9"),
            ("m1 atomic cas x:0 3 4 > 0", "cas x:0 3 4->0"),
            ("m1 atomic ref x:0 0 0 > 5", "ref x:0->5"),
            ("m2 lock l:0 > 6002", "lock l:0[2]->6002"),
            ("m2 trylock l:0 > busy", "trylock l:0[2]->busy"),
            ("m1 wait e:0 1 > 0", "wait e:0"),
            ("m1 wait e:0 3 > 0", "wait e:0 3"),
            ("board arrive 2/7 sync > round 5", "sync r5 t2/7"),
            ("board arrive 2 sync > round 5", "sync r5 t2"),
            ("board arrive 1/-1 sync > clash 2 7", "sync->clash 2 7"),
            ("board arrive 1 sync > clash 2 7", "sync->clash 2 7"),
            ("board arrive 1/-1 allocate x(1:4)[1:*] > round 1", "allocate r1"),
            ("board leave 1/-1 2 > 6001", "leave r2->6001"),
            ("board leave 3/12 2 > 6001", "leave r2 t3/12->6001"),
            ("board leave 1 2 > 0 teams 2/1:1.3", "leave r2 teams 2/1:1.3"),
            ("board gather 1/-1 max 0 I4 -7 > round 1", "max -7 r1"),
            ("board take 1/-1 1 > 0 20", "take r1->20"),
            ("board take 1 1 > 6001", "take r1->6001"),
            ("board pair 2,3 > ok", "sync images 2,3"),
            ("board unpair > 0", "unpair"),
            ("board enter 2 > 0", "critical 2"),
            ("board exit 2 > ok", "end critical 2"),
            ("board stop 0 > ok", "stop"),
            ("own errorstop 3 > ok", "errorstop 3"),
            ("board failed 1/-1 > 2,3", "failed->2,3"),
            ("board stopped 2/7 > -", "stopped t2/7->-"),
            ("board status 1 3 > 6001", "status 3->6001"),
            ("board status 4/7 3 > 0", "status t4/7 3"),
            ("own print > ok", "print"),
        ]
        for text, wanted in table:
            self.assertEqual(short_text(step(f"1 1 1 {text}")), wanted)


class ShowTest(unittest.TestCase):
    def test_a_race_is_marked(self) -> None:
        self.assertEqual(show(read_run(RACED), Choice()), COLUMNS)

    def test_a_barrier_is_a_band_and_who_waits_is_marked(self) -> None:
        self.assertEqual(show(read_run(STUCK), Choice()), STUCK_COLUMNS)

    def test_four_images_take_80_columns_and_lose_nothing(self) -> None:
        values = ",".join(str(it) for it in range(1000, 1012))
        told = show(read_run(f"123456 4 100 m4 read field:0:12*1 > {values}\n"), Choice())
        self.assertLessEqual(max(len(line) for line in told.split("\n")), 80)
        cells = [line.split("|")[4].strip() for line in told.split("\n")[2:] if "|" in line]
        self.assertIn(values[:15], "".join(cells))

    def test_less_of_it(self) -> None:
        run = read_run(RACED)
        self.assertEqual([it for it in run.steps if Choice((2,)).has(it)], run.steps[1:2] + run.steps[4:])
        self.assertEqual([it for it in run.steps if Choice((), 2, 2).has(it)], run.steps[2:3])
        self.assertEqual([it for it in run.steps if Choice(kinds=(Kind.PRINT,)).has(it)], run.steps[3:4])

    def test_many_images(self) -> None:
        told = show(read_run("1 9 3 m9 read x:0 > 4\n"), Choice()).split("\n")
        self.assertEqual(len(told[1]), 1 + 9 * 19)
        self.assertEqual(told[2][1 + 8 * 19 :], "|1 3 x:0->4")


class ViewWordsTest(unittest.TestCase):
    def test_valid(self) -> None:
        read = read_view_words("show -n 2 --only access,lock --order 3 --image 1,2 a.f90".split())
        self.assertEqual(
            read, ViewWords("show", "run -n 2 --order 3 a.f90".split(), 5, {"--only": "access,lock", "--image": "1,2"})
        )
        read = read_view_words("explore --fails --made 1 4".split())
        self.assertEqual(read, ViewWords("explore", "run --made 1 4".split(), None, {"--fails": ""}))

    def test_wrong(self) -> None:
        table = [
            ("show", 2),
            ("show --svg a.f90", 2),
            ("show --only access", 4),
            ("show --only", 3),
            ("show --only reads a.f90", 3),
            ("show --image 1,257 a.f90", 3),
            ("show --from 1 --from 2 a.f90", 4),
            ("show --trace a.f90", 2),
            ("show --from 1 -n 257 a.f90", 5),
            ("show --from 1 -n", 5),
            ("picture --svg", 3),
            ("explore --runs 0 a.f90", 3),
            ("explore a.f90 --fails b.f90", 4),
        ]
        for text, number in table:
            self.assertEqual(read_view_words(text.split()), Wrong(number), text)
