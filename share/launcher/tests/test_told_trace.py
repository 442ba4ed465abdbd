"""What is said of a trace that is no run of the source, of a line that is none of a trace, and of a judged race."""

import json
import os
import tempfile
import unittest
from typing import List

from ending import Caller
from given_file import Asked, GivenFile
from messages import Answered, messages
from traced_file import KEPT, TraceFile

HOME = os.path.dirname(os.path.dirname(os.path.dirname(os.path.dirname(os.path.abspath(__file__)))))
SOURCE = b"integer :: x[*]\n  x = this_image()\nend\n"
STEPS = b"1 1 2 m1 write x:0 1 > ok\n1 2 2 m2 write x:0 3 > ok\n"
EXPLAIN = ("help: caf --explain NotARun says more", "help: caf --explain BadTrace says more")
FORM = "help: a line that begins with digits and a blank is a step: STAMP IMAGE LINE OBJECT ASK > REPLY"


def asked(trace: bytes, words: str = "judge -n 2 t a.f90") -> Asked:
    """Returns a call with a kept trace and a kept source."""
    given = words.split()
    source = GivenFile("a.f90", "a.f90", SOURCE)
    return Asked(given, len(given) - 1, source, len(given) - 2, GivenFile("t", "t", trace))


def said(trace: bytes, status: int, line: str, words: str = "judge -n 2 t a.f90", form: str = "text") -> List[str]:
    """Returns the lines that are said of an answer."""
    return messages(Caller(HOME, "caf", form), asked(trace, words), Answered(status, [line])).split("\n")[:-1]


class NotARunTest(unittest.TestCase):
    """A step that goes on with no run."""

    def test_a_step(self) -> None:
        wanted = [
            "t:3:1: error: no run of a.f90 on 2 images goes on with step 2 of this trace [NotARun]",
            "    3 | 1 2 2 m2 write x:0 3 > ok",
            "      | ^",
            "a.f90:2:3: note: the step of image 2 names this line",
            "    2 |   x = this_image()",
            "      |   ^",
            "help: the source, -n, --steps and --fail have to be those of the run",
            EXPLAIN[0],
        ]
        self.assertEqual(said(b"1: 1\n" + STEPS, 14, "not a run at step 2"), wanted)

    def test_the_first_step(self) -> None:
        got = said(STEPS, 14, "not a run at step 1", "replay t a.f90")
        self.assertEqual(got[0], "t:1:1: error: no run of a.f90 on 4 images begins with this step [NotARun]")

    def test_other_images(self) -> None:
        got = said(b"trace 2 images 3\n" + STEPS, 14, "not a run at step 1")
        self.assertIn("help: the trace says that it is one of 3 images: -n 3", got)
        got = said(b"trace 2 images 2\n" + STEPS, 14, "not a run at step 1")
        self.assertIn("help: the source, -n, --steps and --fail have to be those of the run", got)

    def test_a_line_that_the_source_has_not(self) -> None:
        for line in (b"0", b"9", b"99999999999"):
            got = said(b"1 1 " + line + b" own memory > ok\n", 14, "not a run at step 1")
            self.assertEqual([it for it in got if "note" in it], [])

    def test_forms(self) -> None:
        (line,) = said(b"1: 1\n" + STEPS, 14, "not a run at step 2", form="json")
        told = json.loads(line)
        self.assertEqual((told["file"], told["line"], told["code"], told["status"]), ("t", 3, "NotARun", 14))
        self.assertEqual([(it["file"], it["line"], it["column"]) for it in told["notes"]], [("a.f90", 2, 3)])
        (line,) = said(b"1: 1\n" + STEPS, 14, "not a run at step 2", form="sarif")
        (result,) = json.loads(line)["runs"][0]["results"]
        places = [*result["locations"], *result["relatedLocations"]]
        uris = [it["physicalLocation"]["artifactLocation"]["uri"] for it in places]
        self.assertEqual((result["ruleId"], uris), ("NotARun", ["t", "a.f90"]))


class BadTraceTest(unittest.TestCase):
    """A line that no trace has."""

    def test_a_line(self) -> None:
        wanted = [
            "t:2:1: error: this is no line of a trace of a.f90 [BadTrace]",
            "    2 | 1 1 2 m1 sing",
            "      | ^",
            FORM,
            EXPLAIN[1],
        ]
        self.assertEqual(said(b"1: 2\n1 1 2 m1 sing\n", 15, "bad trace at line 2"), wanted)

    def test_what_ends_it(self) -> None:
        got = said(b"1 1 2 own memory > ok", 15, "bad trace at line 1")
        self.assertIn("no line feed stands behind this step, with which the file ends [BadTrace]", got[0])
        got = said(b"1 1 2 own memory > ok\r\n", 15, "bad trace at line 1")
        self.assertIn("a carriage return stands behind this step, before the line feed [BadTrace]", got[0])
        self.assertEqual(got[1], "    1 | 1 1 2 own memory > ok")

    def test_the_other_form(self) -> None:
        got = said(b"2 1 3 board arrive 1/-1 sync > round 1\n", 15, "bad trace at line 1")
        self.assertIn("this step is in form 2, with no line `trace 2 images N` before the first [", got[0])
        got = said(b"trace 2 images 2\n2 1 3 board leave 1 1 > 0\n", 15, "bad trace at line 2")
        self.assertIn("this step is in form 1, behind a line `trace 2 images N` [", got[0])
        got = said(b"trace 2 images 2\n2 1 3 board leave 7/5 1 > 0\n", 15, "bad trace at line 2")
        self.assertIn("this is no line of a trace of a.f90 [", got[0])

    def test_a_line_that_is_gone(self) -> None:
        got = said(b"", 15, "bad trace at line 2")
        self.assertTrue(got[0].startswith("t: error: this is no line of"))


class TraceFileTest(unittest.TestCase):
    """The lines of a trace file."""

    def test_lines(self) -> None:
        trace = TraceFile(GivenFile("t", "t", b"1: 1\ntrace 2 images 2\n1 1\n2\tx\n12\n3 4"))
        self.assertEqual(list(trace.lines()), [b"1 1", b"2\tx", b"3 4"])
        steps = [trace.step(it) for it in (1, 2, 3, 4)]
        self.assertEqual([it and it.number for it in steps], [3, 4, 6, None])
        lines = [trace.line(it) for it in (1, 6, 7)]
        self.assertEqual([it and (it.text, it.end) for it in lines], [("1: 1", "\n"), ("3 4", ""), None])

    def test_images(self) -> None:
        table = [
            (b"trace 2 images 256\n", 256),
            (b"trace 2 images 2", 2),
            (b"trace 2 images 257\ntrace 2 images 1\n1 1\n", 1),
            (b"trace 2 images 0\n", None),
            (b"trace 2 images 02\n", None),
            (b"trace 2 images 2\r\n", None),
            (b" trace 2 images 2\n", None),
            (b"1 1\ntrace 2 images 2\n", None),
            (b"1: 1\ntrace 2 images 2\n1 1\n", 2),
        ]
        for text, wanted in table:
            with self.subTest(text=text):
                self.assertEqual(TraceFile(GivenFile("t", "t", text)).images(), wanted)

    def test_a_long_line(self) -> None:
        line = TraceFile(GivenFile("t", "t", b"1 " + b"x" * 9999 + b"\r\n")).step(1)
        assert line is not None
        self.assertEqual((len(line.text), line.end), (KEPT, "\r\n"))

    def test_a_file(self) -> None:
        with tempfile.TemporaryDirectory() as work:
            with open(f"{work}/t", "wb") as made:
                made.write(STEPS)
            trace = TraceFile(GivenFile(f"{work}/t", "t"))
            self.assertEqual([it.decode() + "\n" for it in trace.lines()], STEPS.decode().splitlines(True))
            os.remove(f"{work}/t")
            self.assertEqual((list(trace.lines()), trace.line(1), trace.images()), ([], None, None))


class JudgedTest(unittest.TestCase):
    """A race of a judged trace, which is told by its steps."""

    def test_a_race(self) -> None:
        steps = b"1 1 2 m1 write x:0 1 > ok\n1 2 2 m2 write x:0 2 > ok\n2 2 2 m1 read x:0 > 1\n"
        line = "race on x:0 of image 1: image 1 event 1 line 2, image 2 event 2 line 2"
        trace = TraceFile(GivenFile("t", "t", steps))
        got = messages(Caller(HOME, "caf"), asked(steps), Answered(5, [line], trace)).split("\n")
        self.assertEqual(got[0], "a.f90:2:3: error: race on x[1]: image 1 writes it here, in its step 1 [Race]")
        self.assertIn("a.f90:2:3: note: image 2 reads it here, in its step 2, and nothing orders the two", got)


if __name__ == "__main__":
    unittest.main()
