"""Other spellings of words, and the launcher's own option among them."""

import unittest

from spelling import spelt, take_form


class SpellingTest(unittest.TestCase):
    def test_rows(self) -> None:
        rows = [
            ("run -n4 a", "run -n 4 a"),
            ("run --order=3 a", "run --order 3 a"),
            ("run --fail=3@1 --fail 2@1 a", "run --fail 3@1 --fail 2@1 a"),
            ("run a -n 4 --trace", "run -n 4 --trace a"),
            ("run -n 4 -- a", "run -n 4 a"),
            ("run -- -n", "run ./-n"),
            ("check -- -", "check -"),
            ("run --made 1 4 -n 2", "run -n 2 --made 1 4"),
            ("run - -w2", "run -w 2 -"),
            ("show a --image=1,3", "show --image 1,3 a"),
            ("explore a --runs 5 --fails", "explore --runs 5 --fails a"),
            ("make 1 4", "make 1 4"),
            ("judge t a -n2", "judge -n 2 t a"),
            ("judge t -n 2 --fail=1@1 a", "judge -n 2 --fail 1@1 t a"),
            ("judge -- -t a", "judge ./-t a"),
            ("replay t a --trace --steps 9", "replay --trace --steps 9 t a"),
            ("replay - a", "replay - a"),
            ("judge --trace t a", None),
            ("judge -w2 t a", None),
            ("replay --order=0 t a", None),
            ("replay t a -n", None),
            ("run -n", None),
            ("run a -n", None),
            ("run --trace=1 a", None),
            ("run -trace a", None),
            ("run --steps9 a", None),
            ("check -n 4 a", None),
            ("chek a", None),
            ("", None),
        ]
        for given, wanted in rows:
            with self.subTest(given=given):
                got = spelt(given.split())
                self.assertEqual(" ".join(got.words) if got else None, wanted)

    def test_help(self) -> None:
        for given in ("run --help", "run -n 4 -h", "check a --help", "judge -h", "replay t --help"):
            self.assertTrue(spelt(given.split()).wants_help)
        self.assertFalse(spelt("run -- --help".split()).wants_help)

    def test_forms(self) -> None:
        self.assertEqual(take_form(["run", "a"]), (["run", "a"], "text"))
        self.assertEqual(take_form("run --message-format json a".split()), (["run", "a"], "json"))
        self.assertEqual(take_form("--message-format=sarif check a".split()), (["check", "a"], "sarif"))
        self.assertEqual(take_form("check a --message-format".split())[1], None)
        self.assertEqual(take_form("check -- --message-format".split()), (["check", "--", "--message-format"], "text"))


if __name__ == "__main__":
    unittest.main()
