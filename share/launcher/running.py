"""Runs the program: passes its text on as it comes, keeps the lines that tell how it ended, and ends it where the
launcher ends."""

import contextlib
import ctypes
import os
import re
import select
import signal
import stat
import subprocess
from typing import Callable, Iterator, List, NamedTuple, Optional, Sequence

from children import ENDING, PR_SET_PDEATHSIG, Interrupted, interruptible
from ends import WORDS
from progress import Progress
from texts import NothingMoreTaken, await_output, bytes_of, text_of, write_out
from traced import Cut, KeptTrace

PIECE = 1 << 20
# So many bytes at least a pipe takes at once where it takes any.
ATOM = 4096
# How long standard output may take for what is left when a signal ends the run, in seconds.
PATIENCE = 0.3
# When a terminal is first told that the program runs, and how often the time goes on, in milliseconds.
FIRST_SIGN = 2000
NEXT_SIGN = 1000


class Outcome(NamedTuple):
    """How the program ended: its status, or 128 and the signal's number; and the lines of its text that tell it."""

    status: int
    lines: List[str]


@contextlib.contextmanager
def _whole() -> Iterator[None]:
    """Lets no signal come between what its body does and the note of it."""
    before = signal.pthread_sigmask(signal.SIG_BLOCK, ENDING)
    try:
        yield
    finally:
        signal.pthread_sigmask(signal.SIG_SETMASK, before)


class EndLines:
    """Keeps of a text that comes in pieces the lines that tell how a run ended."""

    _FORM = re.compile(rb"\n((?:%s) [^\n]*)(?=\n)" % "|".join(WORDS).encode("ascii"))

    def __init__(self) -> None:
        self.lines: List[str] = []
        self._rest = b"\n"

    def take(self, piece: bytes) -> None:
        """Takes the next piece."""
        text = self._rest + piece
        self.lines += [text_of(line) for line in self._FORM.findall(text)]
        self._rest = text[text.rfind(b"\n") :]

    def all(self) -> List[str]:
        """Returns the lines, with the last one where it has no line feed."""
        self.take(b"\n")
        return self.lines


class Outlet:
    """Standard output, and what is still to be written there; what is cut off the text doesn't come there."""

    def __init__(self, cut: Optional[Cut] = None) -> None:
        self.left = memoryview(b"")
        self._cut = cut
        self._atom = PIECE if stat.S_ISREG(os.fstat(1).st_mode) else ATOM

    def shown(self, piece: bytes) -> bytes:
        """Returns what of the next piece of the text comes here; an empty piece is its end."""
        if self._cut is None:
            return piece
        return self._cut.take(piece) if piece else self._cut.rest()

    def why(self) -> List[str]:
        """Returns the lines that tell why the run is stuck, where they were cut off."""
        return self._cut.why() if self._cut else []

    def put(self, piece: bytes) -> None:
        """Writes a piece."""
        self.left = memoryview(piece)
        while self.left:
            await_output()
            self._write()

    def put_now(self, piece: bytes) -> bool:
        """Writes what is left and a piece, as far as it is taken at once, and tells whether that is all."""
        self.left = memoryview(bytes(self.left) + piece)
        while self.left and await_output(PATIENCE):
            self._write()
        return not self.left

    def _write(self) -> None:
        """Writes some of what is left."""
        with _whole():
            self.left = self.left[write_out(self.left[: self._atom]) :]


class Nowhere(Outlet):
    """Takes a text of which only what is cut off is wanted."""

    def put(self, piece: bytes) -> None:
        """Lets a piece go."""

    def put_now(self, piece: bytes) -> bool:
        """Lets a piece go."""
        return True


def run_again(program: str, words: Sequence[str], standard_input: Optional[int], kept: KeptTrace) -> Outcome:
    """Runs the program for the lines of its --vars, --trace and --why, which are kept, and shows nothing of it."""
    outlet = Nowhere(Cut(kept, False, False))
    return _run(program, words, standard_input, outlet, "the program runs again, to tell more")


def run(program: str, words: Sequence[str], standard_input: Optional[int], cut: Optional[Cut] = None) -> Outcome:
    """Runs the program with these words and returns how it ended.

    Its text goes to standard output byte for byte, but for what is cut off. Raises NothingMoreTaken where that takes no
    more, Interrupted where a signal ends the run, and OSError where the program can't be begun; the program has ended
    then, and its text so far is written.
    """
    return _run(program, words, standard_input, Outlet(cut), "the program runs")


def _run(program: str, words: Sequence[str], standard_input: Optional[int], outlet: Outlet, phase: str) -> Outcome:
    """Runs the program, whose text goes to the outlet."""
    lines = EndLines()
    with interruptible():
        child = _begin(program, words, standard_input)
        assert child.stdout is not None
        text = child.stdout.fileno()
        try:
            _pass_on(text, outlet, lines, phase)
            status = child.wait()
        except Interrupted:
            child.kill()
            with contextlib.suppress(NothingMoreTaken):
                _pass_rest(text, outlet)
            raise
        finally:
            child.kill()
            child.wait()
    return Outcome(status if status >= 0 else 128 - status, lines.all() + outlet.why())


def _begin(program: str, words: Sequence[str], standard_input: Optional[int]) -> "subprocess.Popen[bytes]":
    """Begins the program, which stays in the terminal's group of this process."""
    command = [os.fsencode(program), *(bytes_of(word) for word in words)]
    return subprocess.Popen(command, bufsize=0, stdin=standard_input, stdout=subprocess.PIPE, preexec_fn=bound())


def bound() -> Callable[[], None]:
    """Returns what binds a new process to this one: it is killed where this one ends before it."""
    parent = os.getpid()
    prctl = ctypes.CDLL(None).prctl

    def bind() -> None:
        prctl(PR_SET_PDEATHSIG, signal.SIGKILL, 0, 0, 0)
        if os.getppid() != parent:
            os._exit(1)

    return bind


def _pass_on(text: int, outlet: Outlet, lines: EndLines, phase: str) -> None:
    """Passes the whole text on. Until it comes a terminal is told how long the program runs."""
    progress = Progress()
    try:
        _await_text(text, progress, phase)
    finally:
        progress.wipe()
    while True:
        piece = os.read(text, PIECE)
        shown = outlet.shown(piece)
        lines.take(shown)
        outlet.put(shown)
        if not piece:
            return


def _await_text(text: int, progress: Progress, phase: str) -> None:
    """Waits until some of the text can be read, or its end."""
    poll = select.poll()
    poll.register(text, select.POLLIN)
    if not progress.is_terminal:
        poll.poll()
        return
    progress.change(phase)
    wait = FIRST_SIGN
    while not poll.poll(wait):
        wait = NEXT_SIGN
        if _is_in_front():
            with _whole():
                progress.show()


def _is_in_front() -> bool:
    """Tells whether standard error is the terminal of this process, and it has it now."""
    try:
        return os.tcgetpgrp(2) == os.getpgrp()
    except OSError:
        return False


def _pass_rest(text: int, outlet: Outlet) -> None:
    """Passes on what the program that has ended gave before, as far as standard output takes it at once."""
    shown = b""
    while outlet.put_now(shown):
        piece = os.read(text, PIECE)
        shown = outlet.shown(piece)
        if not piece:
            outlet.put_now(shown)
            return
