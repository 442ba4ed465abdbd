"""Processes that end with the one that began them, and signals that end a work in good order."""

from __future__ import annotations

import contextlib
import ctypes
import os
import signal
import subprocess
import time
from collections.abc import Callable, Iterator
from types import FrameType
from typing import Any

PR_SET_PDEATHSIG = 1
ENDING = (signal.SIGHUP, signal.SIGINT, signal.SIGTERM)
# How long a process that was told to end may take to tidy, in seconds.
GRACE = 10.0


class Interrupted(BaseException):
    """A signal ends the work; its number stands in `number`."""

    def __init__(self, number: int) -> None:
        super().__init__(number)
        self.number = number


@contextlib.contextmanager
def interruptible() -> Iterator[None]:
    """Raises Interrupted in its body where one of the signals comes that end a process. Those that are ignored stay
    so, as under nohup."""

    def interrupt(number: int, _: FrameType | None) -> None:
        # (a second one finds the tidying begun)
        for it in changed:
            signal.signal(it, signal.SIG_IGN)
        raise Interrupted(number)

    changed = {it: signal.getsignal(it) for it in ENDING if signal.getsignal(it) is not signal.SIG_IGN}
    try:
        for it in changed:
            signal.signal(it, interrupt)
        yield
    finally:
        for it, earlier in changed.items():
            signal.signal(it, earlier)


def begin(words: list[str], ends_by: int = signal.SIGKILL, **how: Any) -> subprocess.Popen[Any]:
    """Begins a process in a group of its own, which gets the signal `ends_by` where this one ends before it."""
    parent, prctl = os.getpid(), ctypes.CDLL(None).prctl

    def bind() -> None:
        prctl(PR_SET_PDEATHSIG, ends_by, 0, 0, 0)
        if os.getppid() != parent:
            os._exit(1)

    return subprocess.Popen(words, stdin=subprocess.DEVNULL, start_new_session=True, preexec_fn=bind, **how)


def end(begun: subprocess.Popen[Any], first: int = signal.SIGKILL) -> None:
    """Ends a process and its group: by that signal, and after some seconds by SIGKILL."""
    if begun.poll() is None:
        with contextlib.suppress(ProcessLookupError):
            os.killpg(begun.pid, first)
        with contextlib.suppress(subprocess.TimeoutExpired):
            begun.wait(GRACE)
    with contextlib.suppress(ProcessLookupError, PermissionError):
        os.killpg(begun.pid, signal.SIGKILL)
    begun.wait()


def wait(
    begun: list[subprocess.Popen[Any]], tick: Callable[[], None], is_done: Callable[[], bool] | None = None
) -> None:
    """Waits until these have ended, or until `is_done`, and calls `tick` ten times a second."""
    while any(it.poll() is None for it in begun) and not (is_done and is_done()):
        tick()
        time.sleep(0.1)
