"""Statuses of the launcher's own, who calls, and how a call ends by a signal."""

import os
import signal
from typing import NamedTuple, NoReturn

DONE = 0
NO_PROGRAM = 1
USAGE = 2
READ_FAULT = 10
WRITE_FAULT = 11


class Caller(NamedTuple):
    """Who calls: the top of the checkout or of the installed tree, the command as it was called, and the form of the
    messages: text, json or sarif."""

    home: str
    called: str
    form: str = "text"


def end_by(number: int) -> NoReturn:
    """Ends this process by a signal, so that its caller sees by which."""
    signal.signal(number, signal.SIG_DFL)
    os.kill(os.getpid(), number)
    os._exit(128 + number)
