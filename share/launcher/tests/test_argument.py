"""Which argument a statement doesn't take (6006), of small sources and traces, against what was worked out by hand."""

import os
import unittest

from scene import Scene
from sentences import read_sentences
from source_text import Source
from survey import survey
from tables import read_tables, tables_path
from told_stop import told_stop

HOME = os.path.dirname(os.path.dirname(os.path.dirname(os.path.dirname(os.path.abspath(__file__)))))
TABLES, SENTENCES = read_tables(tables_path(HOME)), read_sentences(HOME)
STOP = "9 1 {} own errorstop 6006 > ok"


def said(source: str, *shown: str) -> str:
    """Returns what is said of image 1 of two, whose last line ends the run; of no trace where no line is shown."""
    lines = [it.encode("ascii") for it in shown]
    number = source.count("\n") + 1
    if shown:
        lines.append(STOP.format(number).encode("ascii"))
    scene = Scene(TABLES, SENTENCES, Source(source), survey(lines, 2), ["run", "a.f90"], "a.f90")
    return told_stop(scene, 1, number, "6006").text


class Objects(unittest.TestCase):
    FRONT = "integer, allocatable :: a(:), b(:)\n"

    def test_allocate(self) -> None:
        table = [
            ("allocate (a(3))", ["var 1 a = 0,0"], "image 1 allocates a, which is allocated already"),
            (
                "allocate (b(3), a(2), stat=k)",
                ["var 1 a = 0,0", "var 1 b = unallocated"],
                "image 1 allocates a, which is allocated already",
            ),
            (
                "allocate (a(70000))",
                ["var 1 a = unallocated"],
                "image 1 allocates a, and has no room for so many cells",
            ),
            ("allocate (a(7))", ["var 1 b = 0"], "ALLOCATE of a on image 1 got the status 6006"),
            (
                "deallocate (b, a)",
                ["var 1 a = unallocated", "var 1 b = 0"],
                "image 1 deallocates a, which isn't allocated",
            ),
        ]
        for call, variables, wanted in table:
            with self.subTest(call=call, variables=variables):
                self.assertEqual(said(self.FRONT + call, *variables), wanted)


class Collectives(unittest.TestCase):
    FRONT = "integer :: a, k, n\n"
    STEPS = ("1 1 2 board gather 1/-1 sum 1 I4 1 > round 1", "2 1 2 board take 1/-1 1 > 6006")

    def test_the_image(self) -> None:
        table = [
            ("call co_sum(a, k)", "var 1 k = 5", "CO_SUM of image 1 names image 5, which isn't there"),
            ("call co_sum(a, k)", "var 1 n = 5", "CO_SUM of image 1 names an image that isn't there, by `k`"),
            ("call co_max(a, 2)", "var 1 k = 1", "CO_MAX of image 1 names an image that isn't there, by `2`"),
        ]
        for call, variable, wanted in table:
            with self.subTest(call=call, variable=variable):
                self.assertEqual(said(self.FRONT + call, variable), wanted)

    def test_the_result(self) -> None:
        wanted = "the result of CO_SUM leaves the range of its kind, on image 1"
        self.assertEqual(said(self.FRONT + "call co_sum(a, k)", *self.STEPS), wanted)
        self.assertEqual(said(self.FRONT + "call co_sum(a)"), wanted)

    def test_no_trace(self) -> None:
        self.assertEqual(said(self.FRONT + "call co_sum(a, k)"), "CO_SUM of image 1 got the status 6006")
        wanted = "CO_MIN of image 1 names an image that isn't there, by `k`"
        self.assertEqual(said(self.FRONT + "call co_min(a, k)"), wanted)


class ImageSets(unittest.TestCase):
    FRONT = "integer :: k, s(0:2), other\n"

    def test_what_the_values_show(self) -> None:
        front = "SYNC IMAGES of image 1"
        absent = f"{front} names an image that isn't there, by"
        table = [
            ("k", "var 1 k = 7", f"{front} names image 7, which isn't there"),
            ("k", "var 1 other = 1", f"{absent} `k`"),
            ("k", "var 1 k = 2", f"{absent} `k`"),
            ("[1, k]", "var 1 k = 1", f"{front} names image 1 twice"),
            ("[1, k]", "var 1 other = 1", f"{front} doesn't take the images `[1, k]`"),
            ("[k, s]", "var 1 s = 1,2,2", f"{front} names image 2 twice"),
            ("s", "var 1 s = 1,2,3", f"{front} names image 3, which isn't there"),
            ("s(1:)", "var 1 s = 1,2,2", f"{front} names image 2 twice"),
            ("s(0:1)", "var 1 s = 1,1,5", f"{front} names image 1 twice"),
            ("s(0:2:2)", "var 1 s = 1,2,1", f"{front} doesn't take the images `s(0:2:2)`"),
            ("s", "var 1 other = 1", f"{front} doesn't take the images `s`"),
        ]
        for text, variable, wanted in table:
            with self.subTest(text=text, variable=variable):
                self.assertEqual(said(f"{self.FRONT}sync images({text})", variable), wanted)


class Teams(unittest.TestCase):
    FRONT = "integer :: k\n"

    def test_what_the_images_give(self) -> None:
        front = "FORM TEAM of image 1 doesn't take"
        table = [
            ("0 0", "1 0", f"{front} the team number 0"),
            ("1 0", "-1 0", f"{front} the team number -1 of image 2"),
            ("1 1", "1 1", f"{front} NEW_INDEX=1 of images 1 and 2"),
            ("1 1", "1 3", f"{front} NEW_INDEX=3 of image 2, in a team of 2"),
            ("4 1", "5 2", f"{front} NEW_INDEX=2 of image 2, in a team of 1"),
            ("1 1", "1 0", f"{front} the arguments of `form team(k, t)`"),
        ]
        for first, second, wanted in table:
            arrivals = [f"1 {it} 2 board arrive 1/-1 form {ask} > round 3" for it, ask in ((1, first), (2, second))]
            steps = [*arrivals, "3 1 2 board leave 1/-1 1 > 6006"]
            with self.subTest(first=first, second=second):
                self.assertEqual(said(f"{self.FRONT}form team(k, t)", *steps), wanted)
        self.assertEqual(said(f"{self.FRONT}form team(k, t)", "var 1 k = 0"), f"{front} the team number k, which is 0")


if __name__ == "__main__":
    unittest.main()
