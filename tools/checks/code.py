"""The scripts: shellcheck over those of sh, and for those of Python their grammar, their form and their unit tests."""

import ast
import glob
import os
import shutil
import sys
from typing import List

from checks.comparing import HOME, Checks, call, read

LONGEST_LINE = 120
MOST_LINES = 300
_FOLDERS = (".", "bench", "tools", "tools/checks", "tools/stand_in", "share/launcher", "share/launcher/tests", ".ci")


def _files(first_line: bytes, ending: str) -> List[str]:
    """Returns the files of this repository that have such a name or begin with such a line."""
    found = []
    for folder in _FOLDERS:
        for path in sorted(glob.glob(f"{HOME}/{folder}/*")):
            if os.path.isfile(path) and (path.endswith(ending) or read(path).split(b"\n", 1)[0] == first_line):
                found.append(os.path.relpath(path, HOME))
    return found


def check_shell(checks: Checks) -> None:
    """Shellcheck has nothing to say of the scripts of sh, where it is there."""
    if shutil.which("shellcheck"):
        checks.same("shellcheck", b"", call(["shellcheck", *_files(b"#!/bin/sh", ".sh")]).text)


def check_python(checks: Checks) -> None:
    """What is written in Python is read by Python 3.8, has the form of this repository, and passes its unit tests."""
    for path in _files(b"#!/usr/bin/env python3", ".py"):
        text = read(f"{HOME}/{path}").decode("utf-8")
        try:
            ast.parse(text, path, feature_version=(3, 8))
            checks.holds(path, True)
        except SyntaxError as wrong:
            checks.holds(f"{path}: no Python 3.8: {wrong}", False)
        lines = text.splitlines()
        wide = [number for number, line in enumerate(lines, 1) if len(line) > LONGEST_LINE]
        checks.same(f"{path}: lines of more than {LONGEST_LINE} columns", "[]", str(wide))
        checks.holds(f"{path} has {len(lines)} lines", len(lines) <= MOST_LINES)
    tests = [sys.executable, "-B", "-m", "unittest", "discover", "-s", "tests", "-t", "."]
    done = call(tests, folder=f"{HOME}/share/launcher", timeout=600.0)
    checks.holds(f"the unit tests:\n{done.said.decode(errors='backslashreplace')}", done.status == 0)
