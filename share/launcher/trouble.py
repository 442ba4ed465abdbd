"""Why no program can be run, and lines on standard error."""

from __future__ import annotations

import contextlib
import sys
from typing import Callable, Optional


class NoProgram(Exception):
    """There is no program for the call to run; the text says why, without `caf: `. The call ends with status 1."""


# What takes the lines of the launcher where they are told in another form than text.
teller: Optional[Callable[[str], None]] = None


def say(text: str) -> None:
    """Writes a line of the launcher on standard error; where nobody takes it, the call goes on."""
    if teller is not None:
        teller(text)
        return
    with contextlib.suppress(OSError, ValueError, AttributeError):
        sys.stderr.write(f"caf: {text}\n")
        sys.stderr.flush()
