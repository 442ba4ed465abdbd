"""What a long work tells of itself."""

from __future__ import annotations

import io
import unittest
from unittest import mock

import progress


class Stream(io.StringIO):
    """Standard error, which is a terminal or isn't."""

    def __init__(self, is_terminal: bool) -> None:
        super().__init__()
        self.is_terminal = is_terminal

    def isatty(self) -> bool:
        return self.is_terminal


class Telling(unittest.TestCase):
    def told(self, is_terminal: bool, *seconds: float) -> str:
        """Returns what is told of a work whose phase `reads` is asked after at these times, and then ends."""
        stream = Stream(is_terminal)
        with mock.patch("sys.stderr", stream), mock.patch.dict("os.environ", {"TERM": "xterm"}):
            with mock.patch("time.monotonic", return_value=1000.0) as clock:
                telling = progress.Progress()
                telling.enter("reads")
                for it in seconds:
                    clock.return_value = 1000.0 + it
                    telling.tick()
                telling.say("done")
        return stream.getvalue()

    def test_each_half_minute_where_it_is_no_terminal(self) -> None:
        text = self.told(False, 0.5, 29.9, 30, 31, 59.9, 61, 185)
        self.assertEqual(
            text, "caf: 0 s: reads\ncaf: 30 s: reads\ncaf: 1 min 1 s: reads\ncaf: 3 min 5 s: reads\ncaf: done\n"
        )

    def test_each_second_in_one_line_of_a_terminal(self) -> None:
        wipe = progress.WIPE
        text = self.told(True, 0.5, 1, 1.5, 2.2)
        wanted = "".join(f"{wipe}caf: {it} s: reads" for it in (0, 1, 2))
        self.assertEqual(text, f"{wanted}{wipe}caf: done\n")

    def test_a_dumb_terminal_is_none(self) -> None:
        with mock.patch("sys.stderr", Stream(True)), mock.patch.dict("os.environ", {"TERM": "dumb"}):
            self.assertFalse(progress.is_terminal())

    def test_a_reader_who_left_ends_nothing(self) -> None:
        stream = Stream(False)
        with mock.patch("sys.stderr", stream), mock.patch.object(stream, "write", side_effect=BrokenPipeError):
            progress.Progress().enter("reads")


if __name__ == "__main__":
    unittest.main()
