"""A run of the program whose whole text is kept, for those who read it."""

import os
import select
import subprocess
from typing import NamedTuple, Optional, Sequence

from children import interruptible
from progress import Progress
from running import bound
from texts import bytes_of, text_of

# When a terminal is first told that the program runs, and how often the time goes on, in seconds.
FIRST_SIGN = 2.0
NEXT_SIGN = 1.0
PIECE = 1 << 20


class Captured(NamedTuple):
    """The status with which the program ended, or 128 and the number of the signal that ended it; and its text."""

    status: int
    text: str


def begin(program: str, words: Sequence[str], standard_input: Optional[int]) -> "subprocess.Popen[bytes]":
    """Begins the program, whose text goes to a pipe. It ends where this process does."""
    command = [os.fsencode(program), *(bytes_of(word) for word in words)]
    given = subprocess.DEVNULL if standard_input is None else standard_input
    return subprocess.Popen(command, bufsize=0, stdin=given, stdout=subprocess.PIPE, preexec_fn=bound())


def end(child: "subprocess.Popen[bytes]") -> None:
    """Ends a run where it still goes on, and closes its pipe."""
    child.kill()
    child.wait()
    if child.stdout is not None:
        child.stdout.close()


def run_captured(program: str, words: Sequence[str], standard_input: Optional[int] = None) -> Captured:
    """Runs the program and returns what it wrote; raises Interrupted where a signal ends the run, and OSError where the
    program can't be begun."""
    with interruptible():
        child = begin(program, words, standard_input)
        try:
            text = _whole_text(child)
            status = child.wait()
        finally:
            end(child)
    return Captured(status if status >= 0 else 128 - status, text_of(text))


def _whole_text(child: "subprocess.Popen[bytes]") -> bytes:
    """Reads the text to its end. A terminal is told how long that takes."""
    assert child.stdout is not None
    progress = Progress()
    progress.change("the program runs")
    pieces = []
    wait = FIRST_SIGN
    try:
        while True:
            if select.select([child.stdout], [], [], wait)[0]:
                piece = os.read(child.stdout.fileno(), PIECE)
                pieces.append(piece)
                if not piece:
                    return b"".join(pieces)
            else:
                wait = NEXT_SIGN
                if progress.is_terminal:
                    progress.show()
    finally:
        progress.wipe()
