"""Which lists of words are valid."""

import unittest

from tests.rows_of_words import rows, rows_of_standard_input
from words import Range, Valid, Wrong, read_words


class WordsTest(unittest.TestCase):
    def test_rows(self) -> None:
        for number, words in rows() + rows_of_standard_input():
            with self.subTest(words=words):
                got = read_words(words)
                self.assertEqual(got.word if isinstance(got, Wrong) else 0, number)

    def test_the_place_of_file(self) -> None:
        self.assertEqual(read_words(["check", "a.f90"]), Valid("check", 1))
        self.assertEqual(read_words(["run", "-n", "4", "--trace", "a.f90"]), Valid("run", 4))
        self.assertEqual(read_words(["run", "--made", "1", "4"]), Valid("run", None))
        self.assertEqual(read_words(["make", "1", "4"]), Valid("make", None))
        self.assertEqual(read_words(["judge", "-n", "4", "a.trace", "a.f90"]), Valid("judge", 4, 3))
        self.assertEqual(read_words(["replay", "--vars", "a.trace", "a.f90"]), Valid("replay", 3, 2))

    def test_what_begins_a_valid_list(self) -> None:
        # The words before the wrong one begin a valid list, which some words complete.
        one = ([], ["a.f90"], ["1", "a.f90"], ["1@1", "a.f90"], ["1"], ["1", "1"])
        endings = (*one, *([*it, "b.f90"] for it in one))
        for number, words in rows():
            if number > 1:
                with self.subTest(words=words):
                    front = words[: number - 1]
                    self.assertTrue(any(isinstance(read_words(front + ending), Valid) for ending in endings))

    def test_ranges(self) -> None:
        self.assertTrue(Range(0, 5).has("0"))
        self.assertTrue(Range(0, 5).has("5"))
        for word in ("6", "05", "", " 5", "5\n", "-0", "5.", "\xb2", "9" * 5000):
            with self.subTest(word=word):
                self.assertFalse(Range(0, 5).has(word))


if __name__ == "__main__":
    unittest.main()
