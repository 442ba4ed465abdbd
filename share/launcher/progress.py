"""Tells on standard error how far a long work is: on a terminal in one line that is written anew each second, else by
a line for each phase and each half minute."""

from __future__ import annotations

import contextlib
import os
import sys
import time

from trouble import say

WIPE = "\r\033[K"
WIDTH = 79


def spell(seconds: float) -> str:
    """Returns a time in words: `47 s`, `3 min 5 s`."""
    whole = int(seconds)
    return f"{whole} s" if whole < 60 else f"{whole // 60} min {whole % 60} s"


class Progress:
    """The telling of one work. `tick` is called several times a second, from the one thread that there is."""

    def __init__(self) -> None:
        self.begun = time.monotonic()
        self.phase = ""
        self.told = self.begun
        self.is_terminal = is_terminal()
        self.is_line = False

    def spent(self) -> str:
        """Returns the time so far, in words."""
        return spell(time.monotonic() - self.begun)

    def say(self, text: str) -> None:
        """Tells a line that stays."""
        self.wipe()
        say(text)

    def wipe(self) -> None:
        """Wipes the line of the phase from a terminal."""
        if self.is_line:
            self.write(WIPE)
            self.is_line = False

    def enter(self, phase: str) -> None:
        """Tells that a phase begins."""
        self.phase = phase
        self.show()

    def change(self, phase: str) -> None:
        """Notes how far the phase is, which the next line tells."""
        self.phase = phase

    def tick(self) -> None:
        """Tells the phase again where it's time to."""
        if self.phase and time.monotonic() - self.told >= (1 if self.is_terminal else 30):
            self.show()

    def show(self) -> None:
        """Tells the phase and the time so far."""
        self.told = time.monotonic()
        if self.is_terminal:
            self.write(WIPE + f"caf: {self.spent()}: {self.phase}"[:WIDTH])
            self.is_line = True
        else:
            say(f"{self.spent()}: {self.phase}")

    def write(self, text: str) -> None:
        """Writes on the terminal, if it is still there."""
        with contextlib.suppress(OSError, ValueError):
            sys.stderr.write(text)
            sys.stderr.flush()


def is_terminal() -> bool:
    """Returns whether standard error is a terminal on which a line can be written anew."""
    try:
        return sys.stderr.isatty() and os.environ.get("TERM", "dumb") != "dumb"
    except (AttributeError, ValueError):
        return False
