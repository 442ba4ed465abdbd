"""What is said of an answer: each kind of end, columns and bytes, and the forms of Fortran that aren't read."""

import os
import tempfile
import unittest
from typing import List

from ending import Caller
from given_file import Asked, GivenFile
from messages import Answered, messages

KEEP = ("run --trace 'a b.f90' >run.trace", "replay run.trace 'a b.f90'")
HOME = os.path.dirname(os.path.dirname(os.path.dirname(os.path.dirname(os.path.abspath(__file__)))))


def said(status: int, source: bytes, *lines: str) -> List[str]:
    """Returns the lines that are said of an answer to a call with a kept source."""
    asked = Asked(["check", "a.f90"], 1, GivenFile("a.f90", "a.f90", source))
    return messages(Caller(HOME, "caf"), asked, Answered(status, lines)).split("\n")[:-1]


class MessagesTest(unittest.TestCase):
    def test_statuses_without_an_end(self) -> None:
        self.assertEqual(said(0, b"end\n"), [])
        self.assertEqual(said(1, b"end\n"), [])
        self.assertEqual(said(11, b"end\n"), ["caf: standard output took no more than a front of the text"])
        self.assertEqual(said(12, b"end\n"), ["caf: there was no memory for the next step"])
        self.assertEqual(said(13, b"end\n"), ["caf: a.f90 has more than 1,048,576 bytes"])
        self.assertEqual(said(139, b""), ["caf: the program was ended from outside, by signal 11"])

    def test_a_file_that_went_away(self) -> None:
        with tempfile.TemporaryDirectory() as work:
            asked = Asked(["check", f"{work}/a"], 1, GivenFile(f"{work}/a", f"{work}/a"))
            told = messages(Caller(HOME, "caf"), asked, Answered(10, ["read fault"]))
            self.assertEqual(told, f"caf: there is no file {work}/a\n")
            told = messages(Caller(HOME, "caf"), asked, Answered(3, ["refused 20 at 2:1"]))
            self.assertEqual(told.split(": ")[0], f"{work}/a:2:1")

    def test_columns_count_bytes_and_carets_characters(self) -> None:
        got = said(3, "! é\n\tprint *, 'é', \xe4\n".encode("utf-8"), "refused 1 at 2:17")
        text = "error: `\xc3\xa4` isn't ASCII, and may stand in a comment alone [1 NotAscii]"
        self.assertEqual(got[0], f"a.f90:2:17: {text}")
        self.assertEqual(got[1], "    2 | \tprint *, '\xc3\xa9', \xc3\xa4")
        self.assertEqual(got[2], "      | \t              ^")

    def test_bytes_that_are_no_utf8_stay(self) -> None:
        got = said(3, b"a = \xff\n", "refused 1 at 1:5")
        self.assertEqual(got[1], "    1 | a = \xff")

    def test_bytes_that_command_a_terminal(self) -> None:
        got = said(3, b"a\x1b[2J = b\r\n", "refused 5 at 1:2")
        self.assertEqual(got[1:3], ["    1 | a?[2J = b", "      |  ^"])

    def test_a_long_line_is_cut(self) -> None:
        got = said(3, b"x" * 300 + b"?" + b"y" * 300, "refused 5 at 1:301")
        self.assertEqual(got[1], "    1 | .." + "x" * 44 + "?" + "y" * 43 + "..")
        self.assertEqual(got[2], "      | " + " " * 46 + "^")

    def test_a_place_behind_the_end(self) -> None:
        got = said(3, b"do\n", "refused 8 at 2:1")
        self.assertEqual(len([it for it in got if " | " in it]), 0)

    def test_a_refusal(self) -> None:
        got = said(3, b"integer :: counter\nlogical :: counter\n", "refused 21 at 2:12")
        wanted = [
            "a.f90:2:12: error: `counter` is declared already [21 DeclaredTwice]",
            "    2 | logical :: counter",
            "      |            ^~~~~~~",
            "a.f90:1:12: note: `counter` is declared here first",
            "    1 | integer :: counter",
            "      |            ^",
            "help: caf --explain 21 says more",
        ]
        self.assertEqual(got, wanted)
        got = said(3, b"integer :: counter\ncouter = 1\n", "refused 20 at 2:1")
        self.assertEqual(got[0], "a.f90:2:1: error: `couter` isn't declared [20 UnknownName]")
        self.assertEqual(got[3:], ["help: did you mean `counter`?", "help: caf --explain 20 says more"])

    def test_forms_that_are_left_out(self) -> None:
        table = [
            (b"a = 1.5", "refused 5 at 1:6", "`1.5` is a real number, and there is no REAL"),
            (b"a = 2d0", "refused 7 at 1:6", "`2d0` is a real number, and there is no REAL"),
            (b"real :: a", "refused 7 at 1:6", "there is no REAL"),
            (b"10 continue", "refused 7 at 1:1", "there are no labels"),
            (b"do concurrent (i = 1:3)", "refused 7 at 1:15", "there is no DO CONCURRENT"),
            (b"sync all (errmsg = m)", "refused 35 at 1:11", "there is no ERRMSG="),
            (b"print *, sum(x)", "refused 20 at 1:10", "there is no SUM"),
        ]
        for source, line, text in table:
            with self.subTest(source=source):
                self.assertIn(f": error: {text} [", said(3, source, line)[0])
        for source, line in ((b"real = 3 + * 4", "refused 7 at 1:12"), (b"write (6, *) 1", "refused 7 at 1:11")):
            with self.subTest(source=source):
                self.assertFalse(any("there is no" in it for it in said(3, source, line)))

    def test_codes(self) -> None:
        got = said(4, b"sync all\n", "error stop image 2 line 1 code 6001")
        self.assertIn("[6001 STAT_FAILED_IMAGE]", got[0])
        got = said(4, b"error stop -7\n", "error stop image 2 line 1 code -7")
        self.assertEqual(got[0], "a.f90:1:1: error: image 2 executed ERROR STOP, with the code -7 [ErrorStop]")

    def test_ends_without_a_trace_or_a_source(self) -> None:
        race = "race on x:1 of image 2: image 2 event 1 line 2, image 1 event 3 line 4"
        rows = [
            (5, race, "race on cell 1 of x of image 2: image 2 uses it here, in its step 1 [Race]"),
            (6, "stuck image 1 line 2 lock", "image 1 waits for a lock that another image holds [Stuck]"),
            (8, "fault image 1 line 2 Bounds", "a subscript leaves its bounds on image 1 [Bounds]"),
            (8, "fault image 1 line 2 Overflow", "a number leaves its kind on image 1 [Overflow]"),
            (9, "clash image 2 line 2 against image 1 line 3", "image 2 is here, and image 1 at another statement"),
            (4, "error stop image 1 line 2 code 6000", "a statement of image 1 needed an image that had stopped"),
            (7, "limit image 1 line 2 statements 100000001", "image 1 has executed 100,000,000 statements"),
        ]
        for status, line, wanted in rows:
            with self.subTest(line=line):
                got = said(status, b"", line)
                self.assertTrue(got[0].startswith("a.f90:2:1: error: "), got)
                self.assertIn(wanted, got[0])

    def test_faults_of_a_function_on_the_line(self) -> None:
        rows = [
            (b"k = team_number()", "TEAM_NUMBER gives a team number that leaves kind 4 on image 1"),
            (b"k = team_number() + 1", "a number in `team_number() + 1` leaves its kind"),
            (b"k = n + 1", "the sum `n + 1` leaves kind 4 on image 1"),
        ]
        for text, wanted in rows:
            with self.subTest(text=text):
                got = said(8, b"integer :: k, n\n" + text + b"\nend\n", "fault image 1 line 2 Overflow")
                self.assertIn(f"a.f90:2:5: error: {wanted}", got[0])
        source = (
            b"use iso_fortran_env\ntype (event_type), allocatable :: ev(:)[:]\nallocate (ev(2)[*])\n"
            b"event wait (ev(2), until_count=%s)\ncontains\ninteger function f()\nf = 1\nend function\nend\n"
        )
        for count, wanted in ((b"f()", "ev isn't allocated on image 1, or was made anew without the element ["),
                              (b"1", "ev isn't allocated on image 1 [")):
            with self.subTest(count=count):
                got = said(8, source % count, "fault image 1 line 4 NotAllocated")
                self.assertIn(f": error: {wanted}", got[0])

    def test_a_limit_that_no_option_raises(self) -> None:
        got = said(7, b"do\n", "limit image 1 line 1 statements 100000001")
        self.assertIn("help: --steps allows no more", got)
        got = said(7, b"do\n", "limit image 1 line 1 statements 60000001")
        self.assertIn("help: --steps 100000000 allows more, if the loop comes to an end", got)
        got = said(7, b"do\n", "limit image 1 line 1 words 4194305")
        self.assertIn("image 1 has recorded 4,194,305 words of its trace, and its share is 4,194,304 [words]", got[0])
        shares = "help: that is its share of 16,777,216 words among 4 images: of fewer images each has more"
        self.assertEqual(got[3], shares)
        self.assertTrue(got[4].startswith("help: no option allows more"))
        asked = Asked(["run", "-n", "1", "a"], 3, GivenFile("a", "a", b"do\n"))
        told = messages(Caller(HOME, "caf"), asked, Answered(7, ["limit image 1 line 1 words 16777220"]))
        self.assertIn("has recorded 16,777,220 words of its trace, and its share is 16,777,216 [words]\n", told)
        self.assertNotIn("among", told)

    def test_a_run_on_workers_tells_how_to_look_for_it(self) -> None:
        asked = Asked(["run", "-w", "2", "--trace", "-n", "3", "-"], 6, GivenFile("/dev/stdin", "<stdin>", b"stop\n"))
        told = messages(Caller(HOME, "caf"), asked, Answered(8, ["fault image 1 line 1 Shape"]))
        self.assertIn("\n    caf explore -n 3 FILE\n", told)
        asked = Asked(["run", "--order", "2", "a"], 3, GivenFile("a", "a", b"stop\n"))
        self.assertNotIn("explore", messages(Caller(HOME, "caf"), asked, Answered(8, ["fault image 1 line 1 Shape"])))

    def test_a_run_on_workers_tells_how_it_is_kept(self) -> None:
        def told(words: str) -> List[str]:
            """Returns the calls that are told of a run with these words."""
            given = words.split()
            asked = Asked(given, len(given) - 1, GivenFile("a b.f90", "a b.f90", b"stop\n"))
            asked = asked._replace(words=[*given[:-1], "a b.f90"])
            lines = messages(Caller(HOME, "caf"), asked, Answered(6, ["stuck image 1 line 1 lock"])).split("\n")
            return [it[4:] for it in lines if it.startswith("    caf ")]

        kept = "caf replay -n 3 --fail 1@2 run.trace 'a b.f90'"
        keep = "caf run --trace -w 2 -n 3 --fail 1@2 'a b.f90' >run.trace"
        explored = "caf explore -n 3 --fail 1@2 'a b.f90'"
        self.assertEqual(told("run -w 2 --vars -n 3 --fail 1@2 a"), [explored, keep, kept])
        self.assertEqual(told("run -w 2 --trace -n 3 --fail 1@2 a"), [explored, kept])
        self.assertEqual(told("run a"), ["caf explore 'a b.f90'", *(f"caf {it}" for it in KEEP)])
        self.assertEqual(told("run --order 2 a"), [])
        self.assertEqual(told("replay run.trace a"), [])
        asked = Asked("run -n 2 --made 1 4".split())
        got = messages(Caller(HOME, "caf"), asked, Answered(6, ["stuck image 1 line 10 leave"]))
        self.assertEqual(("explore" in got, "replay" in got), (True, False))

    def test_a_made_source(self) -> None:
        asked = Asked(["run", "--made", "1", "4"])
        told = messages(Caller(HOME, "caf"), asked, Answered(6, ["stuck image 1 line 10 leave"]))
        self.assertEqual(told.split(": ")[0], "made source:10:1")


if __name__ == "__main__":
    unittest.main()
