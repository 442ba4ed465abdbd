"""Messages as text, as JSON and as SARIF.

The published schema of SARIF 2.1.0 isn't read here, for a test reaches no network: REQUIRED and TYPES have what it asks
of the objects that are used, written down from its text.
"""

import json
import unittest
from typing import Any, Dict, List
from unittest import mock

from message import Message, Note
from render_json import render_json
from render_sarif import render_sarif
from render_text import WIDTH, TextRenderer, is_coloured, wrapped

RACE = Message(
    "race on x[2]",
    "Race",
    "a b.f90",
    3,
    16,
    4,
    "print *, 'é', x[2]".encode().decode("latin-1"),
    notes=(Note(2, 1, "image 2 writes it here", "x = 1"), Note(0, 0, "nowhere")),
    helps=("a SYNC ALL between line 2 and line 3 would order them", "this looks for it:\n./caf explore a"),
    status=5,
)
UNREAD = Message("there is no file b", "ReadFault", status=10)

# The properties that the schema requires of each object, by its name there.
REQUIRED: Dict[str, List[str]] = {
    "sarifLog": ["version", "runs"],
    "run": ["tool"],
    "tool": ["driver"],
    "toolComponent": ["name"],
    "reportingDescriptor": ["id"],
    "invocation": ["executionSuccessful"],
    "result": ["message"],
    "message": [],
    "location": [],
    "physicalLocation": ["artifactLocation"],
    "artifactLocation": [],
    "region": [],
}
# The type of each property that the schema has for it: a type of Python, an object of the schema by its name, a list of
# such objects, or the words that it may be.
TYPES: Dict[str, Dict[str, Any]] = {
    "sarifLog": {"$schema": str, "version": ("2.1.0",), "runs": ["run"]},
    "run": {
        "tool": "tool",
        "invocations": ["invocation"],
        "columnKind": ("utf16CodeUnits", "unicodeCodePoints"),
        "results": ["result"],
    },
    "tool": {"driver": "toolComponent"},
    "toolComponent": {"name": str, "version": str, "rules": ["reportingDescriptor"]},
    "reportingDescriptor": {"id": str},
    "invocation": {"executionSuccessful": bool, "exitCode": int},
    "result": {
        "ruleId": str,
        "ruleIndex": int,
        "level": ("none", "note", "warning", "error"),
        "message": "message",
        "locations": ["location"],
        "relatedLocations": ["location"],
    },
    "message": {"text": str},
    "location": {"id": int, "physicalLocation": "physicalLocation", "message": "message"},
    "physicalLocation": {"artifactLocation": "artifactLocation", "region": "region"},
    "artifactLocation": {"uri": str},
    "region": {"startLine": int, "startColumn": int, "endColumn": int},
}


def faults(told: Any, kind: str, path: str) -> List[str]:
    """Returns where an object isn't as the schema has it."""
    found = [f"{path} lacks {name}" for name in REQUIRED[kind] if name not in told]
    for name, value in told.items():
        wanted = TYPES[kind].get(name)
        if wanted is None:
            found.append(f"{path} has {name}")
        elif isinstance(wanted, tuple):
            found += [] if value in wanted else [f"{path}.{name} is {value}"]
        elif isinstance(wanted, list):
            for number, it in enumerate(value):
                found += faults(it, wanted[0], f"{path}.{name}[{number}]")
        elif isinstance(wanted, str):
            found += faults(value, wanted, f"{path}.{name}")
        elif type(value) is not wanted:
            found.append(f"{path}.{name} is {value!r}")
    if kind == "region" and not 1 <= told["startColumn"] < told["endColumn"]:
        found.append(f"{path} is empty")
    if kind == "artifactLocation" and any(it in told["uri"] for it in ' <>"'):
        found.append(f"{path} is no URI")
    return found


class TextTest(unittest.TestCase):
    def test_lines(self) -> None:
        self.assertEqual(
            TextRenderer(False).render([RACE, UNREAD]).split("\n"),
            [
                "a b.f90:3:16: error: race on x[2] [Race]",
                "    3 | print *, '\xc3\xa9', x[2]",
                "      | " + " " * 14 + "^~~~",
                "a b.f90:2:1: note: image 2 writes it here",
                "    2 | x = 1",
                "      | ^",
                "a b.f90: note: nowhere",
                "help: a SYNC ALL between line 2 and line 3 would order them",
                "help: this looks for it:",
                "    ./caf explore a",
                "caf: there is no file b",
                "",
            ],
        )

    def test_long_words_wrap(self) -> None:
        lines = wrapped("word " * 60 + "x" * 200, "help: ")
        self.assertTrue(all(len(it) <= WIDTH for it in lines[:-1]))
        self.assertEqual(" ".join(it.strip() for it in lines), "help: " + "word " * 60 + "x" * 200)
        self.assertTrue(all(it.startswith("    ") for it in lines[1:]))

    def test_colours(self) -> None:
        got = TextRenderer(True).render([RACE])
        self.assertIn("\033[1ma b.f90:3:16:\033[0m \033[1;31merror:\033[0m race", got)
        self.assertIn(" \033[1;31m^~~~\033[0m\n", got)
        self.assertIn("\033[1;32mhelp:\033[0m a SYNC ALL", got)

    def test_when_there_are_colours(self) -> None:
        for settings, is_terminal, wanted in (
            ({"TERM": "xterm"}, True, True),
            ({"TERM": "xterm", "NO_COLOR": ""}, True, True),
            ({"TERM": "xterm", "NO_COLOR": "1"}, True, False),
            ({"TERM": "dumb"}, True, False),
            ({}, True, False),
            ({"TERM": "xterm"}, False, False),
        ):
            with self.subTest(settings=settings), mock.patch.dict("os.environ", settings, clear=True):
                with mock.patch("os.isatty", return_value=is_terminal):
                    self.assertEqual(is_coloured(), wanted)


class JsonTest(unittest.TestCase):
    def test_one_object_a_line(self) -> None:
        first, second = (json.loads(it) for it in render_json([RACE, UNREAD]).splitlines())
        names = "severity code file line column endColumn text notes helps status".split()
        self.assertEqual(list(first), names)
        self.assertEqual([first[it] for it in names[:6]], ["error", "Race", "a b.f90", 3, 16, 20])
        note = {"file": "a b.f90", "line": 2, "column": 1, "endColumn": 2, "text": "image 2 writes it here"}
        self.assertEqual(first["notes"][0], note)
        self.assertIsNone(first["notes"][1]["line"])
        self.assertEqual(first["helps"], list(RACE.helps))
        self.assertEqual([second[it] for it in ("file", "line", "column", "status")], [None, None, None, 10])

    def test_bytes(self) -> None:
        text = "\xc3\xa9 \xff"
        told = json.loads(render_json([Message(text, file=text, line=1, column=1)]))
        self.assertEqual((told["text"], told["file"]), ("\u00e9 \ufffd", "\u00e9 \ufffd"))


class SarifTest(unittest.TestCase):
    def test_the_log_is_as_the_schema_has_it(self) -> None:
        for messages, status in (([], 0), ([RACE], 5), ([RACE, UNREAD, RACE], 5)):
            told = json.loads(render_sarif(messages, "0.2", status))
            self.assertEqual(faults(told, "sarifLog", "log"), [])
            self.assertEqual(len(told["runs"][0]["results"]), len(messages))

    def test_what_the_log_says(self) -> None:
        run = json.loads(render_sarif([UNREAD, RACE], "0.2", 10))["runs"][0]
        self.assertEqual([it["id"] for it in run["tool"]["driver"]["rules"]], ["Race", "ReadFault"])
        self.assertEqual([it["ruleIndex"] for it in run["results"]], [1, 0])
        self.assertEqual(run["invocations"], [{"executionSuccessful": False, "exitCode": 10}])
        place = run["results"][1]["locations"][0]["physicalLocation"]
        self.assertEqual(place["artifactLocation"], {"uri": "a%20b.f90"})
        # (the accent before it has two bytes)
        self.assertEqual(place["region"], {"startLine": 3, "startColumn": 15, "endColumn": 19})

    def test_that_the_constraints_are_felt(self) -> None:
        told = json.loads(render_sarif([RACE], "0.2", 5))
        told["runs"][0]["results"][0]["level"] = "fatal"
        told["runs"][0]["results"][0]["locations"][0]["physicalLocation"]["region"]["startLine"] = "3"
        del told["version"]
        self.assertEqual(len(faults(told, "sarifLog", "log")), 3)


if __name__ == "__main__":
    unittest.main()
