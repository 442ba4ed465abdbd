"""Which program a call runs, and what it says at its end."""

from __future__ import annotations

import os
import unittest
from unittest import mock

import programs
import proof
import sources
from programs import Kind, Program
from trouble import NoProgram

from tests.checkouts import WithCheckout, put


class TheOrder(WithCheckout):
    def prove(self) -> None:
        """Has a program be there as if it were proved of the sources as they stand."""
        put(f"{self.home}/{proof.PROGRAM}", "#!/bin/sh\n")
        os.chmod(f"{self.home}/{proof.PROGRAM}", 0o755)
        proof.note_proof(self.home, sources.sum_of_sources(self.home), "kit logic one")

    def find(self, unproved: bool = False) -> Program:
        """Finds the program, where one without proof would be /quick."""
        with mock.patch("quick.program_of", return_value="/quick"):
            return programs.find_program(self.home, unproved)

    def test_the_one_that_is_named(self) -> None:
        self.prove()
        os.environ["CAF_PROGRAM"] = "/named"
        self.assertEqual(self.find(), Program("/named", Kind.NAMED))

    def test_the_one_that_was_proved_here(self) -> None:
        self.prove()
        found = Program(f"{self.home}/{proof.PROGRAM}", Kind.PROVED)
        self.assertEqual(self.find(), found)
        self.assertEqual(programs.proved_here(self.home), found)
        self.assertEqual(programs.closing_words(found), "")

    def test_without_proof_where_that_is_asked_for(self) -> None:
        self.prove()
        self.assertEqual(self.find(unproved=True), Program("/quick", Kind.UNPROVED))

    def test_a_change_beside_the_program_is_none(self) -> None:
        self.prove()
        put(f"{self.home}/crates/base_tests/src/lib.rt", "")
        self.assertEqual(self.find().kind, Kind.PROVED)

    def test_a_changed_source(self) -> None:
        self.prove()
        put(f"{self.home}/crates/caf/src/main.rt", "")
        self.assertEqual(self.find(), Program("/quick", Kind.UNPROVED, "there is no release"))
        self.assertIsNone(programs.proved_here(self.home))

    def test_a_program_that_was_built_anew_is_none(self) -> None:
        self.prove()
        put(f"{self.home}/{proof.PROGRAM}", "#!/bin/sh\nexit\n")
        self.assertEqual(self.find().kind, Kind.UNPROVED)

    def test_a_program_that_cant_be_run_is_none(self) -> None:
        self.prove()
        os.chmod(f"{self.home}/{proof.PROGRAM}", 0o644)
        self.assertEqual(self.find().kind, Kind.UNPROVED)

    def test_nothing_here(self) -> None:
        os.remove(f"{self.home}/crates.txt")
        with self.assertRaisesRegex(NoProgram, "^no program can be run: there is no release$"):
            self.find()
        with self.assertRaisesRegex(NoProgram, "^no program can be run: there are no sources here to build one of$"):
            self.find(unproved=True)


class TheLastLine(unittest.TestCase):
    def test_it_says_why_and_what_to_do(self) -> None:
        words = programs.closing_words(Program("/quick", Kind.UNPROVED, "there is no release"))
        self.assertEqual(
            words,
            "this program is built without proof, since there is no release; ./caf --prove builds the proved one "
            "(two to three hours, up to 30 GB of disk)",
        )

    def test_where_it_was_asked_for(self) -> None:
        words = programs.closing_words(Program("/quick", Kind.UNPROVED))
        self.assertTrue(words.startswith("this program is built without proof; ./caf --prove"), words)


if __name__ == "__main__":
    unittest.main()
