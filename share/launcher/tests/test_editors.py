"""The files of docs/editors, tried on what ./caf says in tools/messages.cases."""

import json
import os
import re
import shutil
import subprocess
import tempfile
import unittest
from typing import Any, Dict, List, Tuple

HOME = os.path.dirname(os.path.dirname(os.path.dirname(os.path.dirname(os.path.abspath(__file__)))))
EDITORS = os.path.join(HOME, "docs", "editors")
# The pattern of VS Code's own matcher `$gcc`.
GCC = r"^(.*):(\d+):(\d+):\s+(warning|error):\s+(.*)$"
PLACE = re.compile(r"(?:a\.f90|t):\d+:\d+: (error|note): ")

Found = Tuple[str, int, int, str]


def said() -> List[str]:
    """Returns the lines that are said in all cases whose messages are text."""
    with open(os.path.join(HOME, "tools", "messages.cases"), encoding="utf-8", errors="replace") as file:
        cases = file.read().split("\n== ")[1:]
    return [line for case in cases for line in case.partition("\n-- said\n")[2].split("\n") if line[:1] != "{"]


def wanted(lines: List[str]) -> List[Found]:
    """Returns the places that a reader of the lines sees."""
    found = []
    for line in (it for it in lines if PLACE.match(it)):
        file, row, column, severity = line.split(":", 4)[:4]
        found.append((file, int(row), int(column), severity.strip()))
    return found


def matched(pattern: str, lines: List[str]) -> List[Found]:
    """Returns the places that a pattern finds."""
    read = (re.match(pattern, it) for it in lines)
    return [(it[1], int(it[2]), int(it[3]), it[4]) for it in read if it]


def loaded(name: str) -> Any:
    """Returns what a file of docs/editors holds."""
    with open(os.path.join(EDITORS, name), encoding="utf-8") as file:
        return json.load(file)


class MatchersTest(unittest.TestCase):
    def setUp(self) -> None:
        self.lines = said()
        self.wanted = wanted(self.lines)
        self.assertGreater(len(self.wanted), 60)

    def test_github(self) -> None:
        (matcher,) = loaded("github-matcher.json")["problemMatcher"]
        (pattern,) = matcher["pattern"]
        self.check_pattern(pattern)

    def test_vscode(self) -> None:
        tasks = loaded("vscode-tasks.json")
        self.assertEqual(tasks["version"], "2.0.0")
        self.check_pattern(tasks["tasks"][0]["problemMatcher"]["pattern"])
        self.assertEqual(tasks["tasks"][1]["problemMatcher"], "$gcc")
        errors = [it for it in self.wanted if it[3] == "error"]
        self.assertEqual(matched(GCC, self.lines), errors)

    def check_pattern(self, pattern: Dict[str, Any]) -> None:
        """A pattern finds each place, its text, and the code behind it."""
        parts = ("file", "line", "column", "severity", "message", "code")
        self.assertEqual([pattern[it] for it in parts], list(range(1, 7)))
        self.assertEqual(matched(pattern["regexp"], self.lines), self.wanted)
        found = re.match(pattern["regexp"], "a.f90:3:1: error: subscript 4 of `a(4)` isn't within 1 to 3 [Bounds]")
        self.assertEqual(found.groups()[4:], ("subscript 4 of `a(4)` isn't within 1 to 3", "Bounds"))
        found = re.match(pattern["regexp"], "a.f90:3:1: note: image 1 reads x[2] here")
        self.assertEqual(found.groups()[4:], ("image 1 reads x[2] here", None))

    @unittest.skipUnless(shutil.which("vim"), "there is no vim")
    def test_vim(self) -> None:
        with tempfile.TemporaryDirectory() as work:
            os.mkdir(f"{work}/compiler")
            shutil.copy(os.path.join(EDITORS, "caf.vim"), f"{work}/compiler/caf.vim")
            with open(f"{work}/said", "w", encoding="utf-8") as file:
                file.write("\n".join(self.lines))
            form = "printf('%s|%d|%d|%s', bufname(v:val.bufnr), v:val.lnum, v:val.col, v:val.type)"
            script = ["compiler caf", "cgetfile said", f'call writefile(map(getqflist(), "{form}"), "found")', "qa!"]
            command = ["vim", "-es", "-u", "NONE", "-N", "--cmd", f"set rtp={work}"]
            for line in script:
                command += ["-c", line]
            subprocess.run(command, cwd=work, stdin=subprocess.DEVNULL, capture_output=True, check=False, timeout=60)
            if not os.path.exists(f"{work}/found"):
                self.skipTest("this vim has no expressions")
            with open(f"{work}/found", encoding="utf-8") as file:
                rows = [it.rstrip("\n").split("|") for it in file]
        kinds = {"e": "error", "n": "note"}
        found = [(it[0], int(it[1]), int(it[2]), kinds.get(it[3].lower(), it[3])) for it in rows]
        self.assertEqual(found, self.wanted)


if __name__ == "__main__":
    unittest.main()
