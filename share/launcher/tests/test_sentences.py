"""The sentences of docs/use/REFUSALS.md, and the cases that the launcher tells by them."""

import glob
import os
import re
import unittest
from typing import Set

from sentences import Sentences, read_sentences
from tables import Kind, read_tables, tables_path

LAUNCHER = os.path.dirname(os.path.dirname(os.path.abspath(__file__)))
HOME = os.path.dirname(os.path.dirname(LAUNCHER))
SAID = re.compile(r'say\(\s*"(\w+)", "([^"]+)"')
WORDS = re.compile(r'"([a-z0-9 ]+)"')


def code(pattern: str) -> str:
    """Returns the text of the modules whose names fit."""
    text = ""
    for path in glob.glob(f"{LAUNCHER}/{pattern}.py"):
        with open(path, encoding="utf-8") as file:
            text += file.read()
    return text


class SentencesTest(unittest.TestCase):
    def setUp(self) -> None:
        self.rows = read_sentences(HOME).rows
        self.faults = [it.key for it in read_tables(tables_path(HOME)).entries if it.kind is Kind.FAULT]

    def test_names_are_filled_in(self) -> None:
        said = Sentences({("A", "b"): "{one} and {two}, {three}"}).say("A", "b", one=1, two="`x`")
        self.assertEqual(said, "1 and `x`, ")

    def test_what_is_said_has_a_sentence(self) -> None:
        found = SAID.findall(code("told*")) + SAID.findall(code("messages"))
        self.assertGreater(len(found), 15)
        self.assertEqual([it for it in found if it not in self.rows], [])

    def test_each_fault_has_its_cases(self) -> None:
        told: Set[str] = set(WORDS.findall(code("told_fault") + code("fault_*")))
        table = {case for end, case in self.rows if end in self.faults}
        ending = re.compile(r" of one\Z")
        self.assertEqual(sorted(it for it in table if ending.sub("", it) not in told), [])
        for fault in self.faults:
            with self.subTest(fault=fault):
                self.assertGreater(len([end for end, _ in self.rows if end == fault]), 1)


if __name__ == "__main__":
    unittest.main()
