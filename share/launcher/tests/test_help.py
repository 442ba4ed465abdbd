"""The help text: no line of it, nor of what is said of wrong words, has more than 100 columns."""

import os
import unittest

from ending import Caller
from help import help_lines, help_path, help_text, help_words
from render_text import WIDTH
from texts import read_file
from usage import read_help, usage_message

HOME = os.path.dirname(os.path.dirname(os.path.dirname(os.path.dirname(os.path.abspath(__file__)))))


class HelpTest(unittest.TestCase):
    def assert_narrow(self, text: str) -> None:
        """No line has more than 100 columns."""
        self.assertEqual([it for it in text.split("\n") if len(it) > WIDTH], [])

    def test_width(self) -> None:
        self.assert_narrow(help_text(HOME))

    def test_lists_are_cut_as_they_stand(self) -> None:
        listed = [it for it in help_words(HOME).split("\n") if it.startswith("    ")]
        shown = [it for it in read_file(help_path(HOME)).split("\n") if it.startswith("    ")]
        self.assertEqual([line for it in listed for line in help_lines(it)], shown)
        self.assertEqual([it for it in listed if it.startswith("     ")], [])

    def test_wrong_words(self) -> None:
        words = ["", "run", "judge", "replay", "check", "make", "show", "picture", "explore -x", "run --only"]
        words.append("run --message-format")
        words += [f"run {option}" for option in read_help(help_words(HOME)).options]
        words += [f"{it} -x a" for it in words]
        for it in words:
            for number in range(1, len(it.split()) + 2):
                with self.subTest(words=it, number=number):
                    self.assert_narrow(usage_message(Caller(HOME, "caf"), it.split(), number))


if __name__ == "__main__":
    unittest.main()
