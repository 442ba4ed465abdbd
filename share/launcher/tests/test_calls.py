"""Which words lead to which program, and what is said behind its run."""

import contextlib
import json
import os
import signal
import unittest
from typing import Any, Dict, Iterator, List, Tuple
from unittest import mock

import calls
import programs_called
import report
import trouble
from captured import Captured
from children import Interrupted
from ending import Caller
from programs import Kind, NoProgram, Program
from running import Outcome

HOME = os.path.dirname(os.path.dirname(os.path.dirname(os.path.dirname(os.path.abspath(__file__)))))
FILE = os.path.join(HOME, "examples", "empty.f90")
FOUND = Program("/found", Kind.RELEASED)
UNPROVED = Program("/unproved", Kind.UNPROVED)
PROVED = Program("/proved", Kind.PROVED)


class CallsTest(unittest.TestCase):
    """Calls with stand-ins for all that they lead to."""

    def setUp(self) -> None:
        self.said: List[str] = []
        self.answered: List[str] = []
        self.find = self.put(mock.patch("programs.find_program", return_value=FOUND))
        self.proved_here = self.put(mock.patch("programs.proved_here", return_value=PROVED))
        self.prove = self.put(mock.patch("prove.prove", return_value=0))
        self.run_program = self.put(mock.patch("programs_called.run", return_value=Outcome(0, [])))
        for module in (calls, report):
            self.put(mock.patch.object(module, "tell", side_effect=self.said.append))
        for module in (calls, programs_called):
            self.put(mock.patch.object(module, "answer", side_effect=self.answered.append))

    def put(self, patch: "mock._patch[mock.MagicMock]") -> mock.MagicMock:
        """Puts a stand-in for the time of the test."""
        self.addCleanup(patch.stop)
        return patch.start()

    def call(self, *words: str) -> int:
        """Answers these words and returns the status."""
        return calls._answer(Caller(HOME, "caf"), list(words))

    def programs_run(self) -> List[Tuple[str, List[str]]]:
        """Returns the programs that were run and their words."""
        return [(it.args[0], it.args[1]) for it in self.run_program.call_args_list]

    def test_a_run(self) -> None:
        self.assertEqual(self.call("make", "1", "4"), 0)
        self.assertEqual(self.programs_run(), [("/found", ["make", "1", "4"])])
        self.find.assert_called_once_with(HOME, unproved=False)
        self.assertEqual(self.said, [])

    def test_its_end_is_told(self) -> None:
        self.run_program.return_value = Outcome(12, [])
        self.assertEqual(self.call("make", "1", "4"), 12)
        self.assertEqual(self.said, ["caf: there was no memory for the next step\n"])

    def test_a_program_without_proof_is_told_last(self) -> None:
        self.find.return_value = UNPROVED
        self.run_program.return_value = Outcome(12, [])
        self.assertEqual(self.call("--try", "make", "1", "4"), 12)
        self.find.assert_called_once_with(HOME, unproved=True)
        self.assertEqual(self.programs_run(), [("/unproved", ["make", "1", "4"])])
        first, last, *_ = "".join(self.said).splitlines()
        self.assertEqual(first, "caf: there was no memory for the next step")
        self.assertRegex(last, r"\Acaf: this program is built without proof")

    def test_no_program(self) -> None:
        self.find.side_effect = NoProgram("there is no program")
        self.assertEqual(self.call("make", "1", "4"), 1)
        self.assertEqual(self.said, ["caf: there is no program\n"])
        self.assertEqual(self.call("--which"), 1)
        self.assertEqual(self.answered, [])

    def test_which(self) -> None:
        self.assertEqual(self.call("--which"), 0)
        self.assertEqual(self.answered, ["/found\n"])

    def test_a_proof_alone(self) -> None:
        self.prove.return_value = 3
        self.assertEqual(self.call("--prove"), 3)
        self.assertEqual(self.programs_run(), [])

    def test_a_proof_and_a_run(self) -> None:
        self.assertEqual(self.call("--prove", "make", "1", "4"), 0)
        self.prove.assert_called_once_with(HOME)
        self.assertEqual(self.programs_run(), [("/proved", ["make", "1", "4"])])

    def test_a_proof_that_fails(self) -> None:
        self.prove.return_value = 1
        self.assertEqual(self.call("--prove", "make", "1", "4"), 1)
        self.assertEqual(self.programs_run(), [])

    def test_words_are_judged_first(self) -> None:
        for words, status, text in (
            (["--prove", "run"], 2, "usage: word 2\n"),
            (["--try"], 2, "usage: word 1\n"),
            (["--try", "check", "/nonexistent"], 10, "read fault\n"),
            (["check", "/"], 10, "read fault\n"),
        ):
            with self.subTest(words=words):
                self.answered.clear()
                self.assertEqual(self.call(*words), status)
                self.assertEqual(self.answered, [text])
        self.prove.assert_not_called()
        self.find.assert_not_called()

    def test_other_spellings(self) -> None:
        words = ["-n", "4", "--order", "3", "--trace"]
        for row in ("-n4 --order=3 --trace FILE", "FILE --trace -n 4 --order 3", "--order 3 -n4 --trace -- FILE"):
            given = ["run", *row.replace("FILE", FILE).split()]
            with self.subTest(given=given):
                self.run_program.reset_mock()
                self.assertEqual(self.call(*given), 0)
                self.assertEqual(sorted(self.programs_run()[0][1]), sorted(["run", *words, FILE]))

    def test_a_run_on_workers_is_traced(self) -> None:
        self.assertEqual(self.call("run", "-n", "2", FILE), 0)
        self.assertEqual(self.programs_run(), [("/found", ["run", "--trace", "--why", "-n", "2", FILE])])

    def test_a_trace(self) -> None:
        self.assertEqual(self.call("judge", FILE, FILE, "-n2"), 0)
        self.assertEqual(self.call("replay", "--vars", FILE, FILE), 0)
        words = [["judge", "-n", "2", FILE, FILE], ["replay", "--vars", FILE, FILE]]
        self.assertEqual(self.programs_run(), [("/found", it) for it in words])
        for given in (("judge", "/nonexistent", FILE), ("replay", FILE, "/nonexistent")):
            self.assertEqual(self.call(*given), 10)
        self.assertEqual(self.answered, ["read fault\n"] * 2)
        self.assertEqual(self.said, ["caf: there is no file /nonexistent\n"] * 2)
        self.assertEqual(len(self.programs_run()), 2)

    def test_a_trace_whose_run_ends_badly_is_replayed_again(self) -> None:
        outcome = Outcome(6, ["stuck image 1 line 1 lock"])
        self.run_program.return_value = outcome
        again = self.put(mock.patch("programs_called.run_again", return_value=outcome))
        self.assertEqual(self.call("replay", "-n", "2", "--trace", FILE, FILE), 6)
        words = ["replay", "--vars", "--why", "-n", "2", "--trace", FILE, FILE]
        self.assertEqual(again.call_args.args[:2], ("/found", words))
        self.assertEqual(self.call("judge", FILE, FILE), 6)
        self.assertEqual(again.call_count, 1)

    def test_several_files(self) -> None:
        self.run_program.side_effect = [Outcome(0, []), Outcome(3, ["refused 7 at 1:1"]), Outcome(13, ["too long"])]
        self.assertEqual(self.call("check", FILE, FILE, "/nonexistent", FILE), 3)
        self.assertEqual(self.answered, ["read fault\n"])
        self.assertEqual(len(self.programs_run()), 3)

    def test_several_files_behind_a_proof(self) -> None:
        self.assertEqual(self.call("--prove", "check", FILE, FILE), 0)
        self.prove.assert_called_once_with(HOME)
        self.assertEqual(self.programs_run(), [("/proved", ["check", FILE])] * 2)

    def test_help_behind_a_command(self) -> None:
        self.assertEqual(self.call("run", "--help"), 0)
        self.assertTrue(self.answered[0].startswith("caf runs "))

    def test_forms_of_messages(self) -> None:
        self.assertEqual(self.call("check", "/nonexistent", "--message-format", "json"), 10)
        told = json.loads("".join(self.said))
        self.assertEqual((told["code"], told["text"]), ("ReadFault", "there is no file /nonexistent"))
        self.assertEqual(self.call("--message-format=xml", "check", FILE), 2)
        self.assertEqual(self.answered[-1], "usage: word 1\n")

    def told(self) -> List[Dict[str, Any]]:
        """Returns the messages that were told as JSON, which are forgotten then."""
        lines = "".join(self.said).splitlines()
        self.said.clear()
        return [json.loads(it) for it in lines]

    def test_troubles_in_another_form(self) -> None:
        self.find.side_effect = NoProgram("there is no program")
        table = [
            (["show", FILE], 1, "NoProgram", "there is no program"),
            (["explore", FILE], 1, "NoProgram", "there is no program"),
            (["picture", "/nonexistent"], 10, "ReadFault", "there is no file /nonexistent"),
            (["run", FILE], 1, "NoProgram", "there is no program"),
            (["show", "-n"], 2, "Usage", "word 3 is missing: it has to be the N of -n, 1 to 256"),
        ]
        self.put(mock.patch("views.answer", side_effect=self.answered.append))
        for words, status, code, text in table:
            with self.subTest(words=words):
                self.assertEqual(self.call(*words, "--message-format=json"), status)
                found = [(it["code"], it["text"], it["status"], it["severity"]) for it in self.told()]
                self.assertEqual(found, [(code, text, status, "error")])
                self.assertEqual(self.call("--message-format", "sarif", *words), status)
                (log,) = self.told()
                self.assertEqual(log["runs"][0]["results"][0]["ruleId"], code)
                self.assertEqual(log["runs"][0]["invocations"][0]["exitCode"], status)
        self.assertEqual(self.call("--message-format=json", "--explain", "nothing"), 2)
        self.assertEqual(self.told()[0]["code"], "Usage")

    def test_a_run_that_is_shown(self) -> None:
        self.find.return_value = UNPROVED
        self.put(mock.patch("views.answer", side_effect=self.answered.append))
        self.put(mock.patch("explore.answer", side_effect=self.answered.append))
        run = self.put(mock.patch("views.run_captured", return_value=Captured(0, "1 1 1 own stop 0 > ok\n")))
        for words in (["show", FILE], ["picture", "--svg", FILE]):
            self.assertEqual(self.call(*words, "--message-format=json"), 0)
            self.assertEqual([(it["code"], it["severity"]) for it in self.told()], [("Unproved", "note")])
            self.assertEqual(self.call(*words, "--message-format=sarif"), 0)
            self.assertEqual([it["ruleId"] for it in self.told()[0]["runs"][0]["results"]], ["Unproved"])
        run.return_value = Captured(3, "refused 7 at 1:1\n")
        self.assertEqual(self.call("show", FILE, "--message-format=json"), 3)
        self.assertEqual([it["line"] for it in self.told()], [1])

    def test_lines_of_a_build(self) -> None:
        self.put(mock.patch.object(trouble, "teller", None))
        for form in ("json", "sarif"):
            caller = Caller(HOME, "caf", form)
            report.tell_as(caller)
            trouble.say("building")
            self.assertEqual(report.tell_rest(caller, 1), 1)
            told = self.told()[0]
            text = told["text"] if form == "json" else told["runs"][0]["results"][0]["message"]["text"]
            self.assertEqual(text, "building")
        self.assertEqual(report.tell_rest(caller, 1), 1)
        self.assertEqual(self.said, [])

    def test_a_signal_ends_the_call_by_itself(self) -> None:
        self.run_program.side_effect = Interrupted(signal.SIGTERM)
        with mock.patch("programs_called.end_by", side_effect=SystemExit) as ends:
            self.assertRaises(SystemExit, self.call, "make", "1", "4")
        ends.assert_called_once_with(signal.SIGTERM)


class MainTest(unittest.TestCase):
    """What may come to the top."""

    @contextlib.contextmanager
    def raising(self, wrong: BaseException) -> Iterator[List[str]]:
        """Lets the answer raise this, and gives what is said."""
        said: List[str] = []
        with mock.patch("calls._answer", side_effect=wrong), mock.patch("report.tell", side_effect=said.append):
            yield said

    def test_standard_output_that_takes_no_more(self) -> None:
        with self.raising(calls.NothingMoreTaken(False)) as said:
            self.assertEqual(calls.main(HOME), 11)
        self.assertEqual(said, ["caf: standard output took no more than a front of the text\n"])
        with self.raising(calls.NothingMoreTaken(True)) as said:
            self.assertEqual(calls.main(HOME), 11)
        self.assertEqual(said, [])

    def test_a_file_of_the_launcher_that_is_missing(self) -> None:
        with self.raising(FileNotFoundError(2, "No such file", "/docs")) as said:
            self.assertEqual(calls.main(HOME), 1)
        self.assertEqual(said, ["caf: /docs: No such file\n"])


if __name__ == "__main__":
    unittest.main()
