"""What is cut off the text of a run, and where what is cut off is kept."""

import re
import unittest
from unittest import mock

import traced
from traced import Cut, KeptTrace

PRINTED = b"1: 4\n2: var 1 x = 3\n12: 7 1 2 m1 read x:0 > 4\n"
VARIABLES = b"var 1 x = 3\nvar 2 y = \n"
FORM = b"trace 2 images 12\n"
STEPS = b"1 1 2 m1 write x:0 1 > ok\n12 3 4 own print a\\nfault image > ok\n"
END = b"race on x:0 of image 2\nsummary images 2\n"


class CutTest(unittest.TestCase):
    def test_any_pieces(self) -> None:
        traces, ends = (FORM + STEPS, STEPS), (END, b"every order\n", b"this order: line 3, lock\n")
        for trace, end in ((trace, end) for trace in traces for end in ends):
            text = PRINTED + VARIABLES + trace + end
            for has_variables in (False, True):
                for has_steps in (False, True):
                    wanted = PRINTED + VARIABLES * has_variables + trace * has_steps + end
                    for size in range(1, len(text) + 1):
                        with self.subTest(has_variables=has_variables, has_steps=has_steps, size=size):
                            kept = KeptTrace()
                            cut = Cut(kept, has_variables, has_steps)
                            pieces = [cut.take(text[at : at + size]) for at in range(0, len(text), size)]
                            self.assertEqual(b"".join(pieces) + cut.rest(), wanted)
                            self.assertEqual(b"".join(it + b"\n" for it in kept.lines()), VARIABLES + trace)

    def test_blocks_that_are_missing(self) -> None:
        blocks = [b"", END, PRINTED, STEPS, FORM + STEPS, VARIABLES, PRINTED + END, STEPS + END, FORM + STEPS + END]
        for text in [*blocks, FORM, FORM + END, VARIABLES + END, b"1: no feed", b"too long\n", b"trac"]:
            with self.subTest(text=text):
                cut = Cut(KeptTrace(), False, False)
                wanted = b"".join(it for it in text.splitlines(True) if not re.match(rb"var |trace |[0-9]+ ", it))
                self.assertEqual(cut.take(text) + cut.rest(), wanted)
                cut = Cut(KeptTrace(), False, False)
                pieces = [cut.take(text[at : at + 1]) for at in range(len(text))]
                self.assertEqual(b"".join(pieces) + cut.rest(), wanted)

    def test_what_is_passed_on_at_once(self) -> None:
        cut = Cut(KeptTrace(), False, False)
        self.assertEqual(cut.take(b"x" * 10), b"x" * 10)
        self.assertEqual(cut.take(b"\n12"), b"\n")
        self.assertEqual(cut.take(b": 3"), b"12: 3")
        self.assertEqual(cut.take(b"\n12"), b"\n")
        self.assertEqual(cut.rest(), b"12")
        cut = Cut(KeptTrace(), False, False)
        self.assertEqual(cut.take(b"trace"), b"")
        self.assertEqual(cut.take(b"s\n"), b"traces\n")


class KeptTraceTest(unittest.TestCase):
    def test_a_long_trace_is_kept_in_a_file(self) -> None:
        with mock.patch.object(traced, "MOST_IN_MEMORY", 10):
            kept = KeptTrace()
            for piece in (b"1 a\n2", b" b\n3 c\n", b"4 d\n"):
                kept.put(piece)
            for _ in range(2):
                self.assertEqual(list(kept.lines()), [b"1 a", b"2 b", b"3 c", b"4 d"])

    def test_a_trace_without_room(self) -> None:
        with mock.patch.object(traced, "MOST_IN_MEMORY", 1), mock.patch("tempfile.TemporaryFile", side_effect=OSError):
            kept = KeptTrace()
            kept.put(b"1 a\n")
            kept.put(b"2 b\n")
            self.assertEqual(list(kept.lines()), [])


if __name__ == "__main__":
    unittest.main()
