"""Calls of the launcher and of the program, and the count of what is as it has to be."""

import contextlib
import difflib
import os
import subprocess
import tempfile
from typing import IO, Any, Iterator, List, NamedTuple, Sequence, Union

HOME = os.path.dirname(os.path.dirname(os.path.dirname(os.path.abspath(__file__))))
LAUNCHER = f"{HOME}/caf"
# A call that takes longer has come to no end.
LONGEST = 120.0
NO_END = -1000

Input = Union[None, bytes, int, IO[bytes]]


class Done(NamedTuple):
    """What a call did: its standard output, its standard error and its status, below 0 for a signal."""

    text: bytes
    said: bytes
    status: int


def call(command: Sequence[Union[str, bytes]], given: Input = None, folder: str = HOME, **how: Any) -> Done:
    """Calls a command with these bytes, or this file, as its standard input, or with nothing there."""
    how = {"stdout": subprocess.PIPE, "stderr": subprocess.PIPE, "cwd": folder, "timeout": LONGEST, **how}
    if isinstance(given, bytes):
        how["input"] = given
    else:
        how["stdin"] = subprocess.DEVNULL if given is None else given
    try:
        done = subprocess.run(command, **how)
    except subprocess.TimeoutExpired:
        return Done(b"", b"the call came to no end", NO_END)
    return Done(done.stdout or b"", done.stderr or b"", done.returncode)


class Checks:
    """What was compared, by the launcher and the program."""

    def __init__(self, program: str) -> None:
        self.program = program
        self.passed = 0
        self.failed = 0

    def holds(self, what: str, is_so: bool) -> None:
        """Counts what has to be so; tells what it is where it isn't."""
        if is_so:
            self.passed += 1
        else:
            self.failed += 1
            print(f"FAILED: {what}", flush=True)

    def same(self, what: str, wanted: Union[str, bytes], got: Union[str, bytes]) -> bool:
        """Counts two texts that have to be the same; where they differ the lines are shown, those that are wanted with
        a minus."""
        is_same = _bytes(wanted) == _bytes(got)
        self.holds(what, is_same)
        if not is_same:
            for line in list(difflib.unified_diff(_lines(wanted), _lines(got), lineterm=""))[2:]:
                print(f"    {line}")
        return is_same


def _bytes(text: Union[str, bytes]) -> bytes:
    return text if isinstance(text, bytes) else text.encode("utf-8", "surrogateescape")


def _lines(text: Union[str, bytes]) -> List[str]:
    shown = _bytes(text).decode("utf-8", "backslashreplace")
    return shown.split("\n") if not shown or shown.endswith("\n") else [*shown.split("\n"), "(no line feed)"]


def with_status(done: Done) -> bytes:
    """Returns the text of a call and a line with its status."""
    return done.text + b"status %d\n" % done.status


@contextlib.contextmanager
def folder(prefix: str = "caf-check.") -> Iterator[str]:
    """Gives an empty folder, which is removed at the end."""
    with tempfile.TemporaryDirectory(prefix=prefix) as made:
        yield made


def read(path: str) -> bytes:
    """Returns the bytes of a file."""
    with open(path, "rb") as file:
        return file.read()


def write(path: str, data: Union[str, bytes]) -> str:
    """Writes a file and returns its path."""
    with open(path, "wb") as file:
        file.write(_bytes(data))
    return path


def started(command: Sequence[str], **how: Any) -> "subprocess.Popen[bytes]":
    """Starts a command in a session of its own."""
    return subprocess.Popen(command, stdin=subprocess.DEVNULL, cwd=HOME, start_new_session=True, **how)
