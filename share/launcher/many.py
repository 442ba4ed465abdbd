"""Many runs of the program, some at the same time.

They stand in one process group, which the system kills where this process ends before them: a run can't be bound to it
as a single one is (`bound` of running.py), since all that a process does between its fork and the program costs more
than most runs.
"""

import contextlib
import fcntl
import os
import select
import signal
from itertools import islice
from typing import Callable, Dict, Iterable, List, NamedTuple, Optional, Sequence

from captured import PIECE, Captured
from children import ENDING
from texts import bytes_of, text_of

# How often the time is told while the runs go on, in milliseconds.
TICK = 100
# What Python ignores and a program doesn't.
_RESTORED = (signal.SIGPIPE, signal.SIGXFSZ)


class Job(NamedTuple):
    """A run that is to be made: its number from 0, and the words of the program."""

    number: int
    words: List[str]


class Runs(NamedTuple):
    """How the runs are made: the program; what gives a descriptor of its standard input, or nothing; how many at the
    same time; who is told of each end; and who is called from time to time."""

    program: str
    standard_input: Callable[[], Optional[int]]
    at_once: int
    ended: Callable[[Job, Captured], None]
    tick: Callable[[], None]


class Going(NamedTuple):
    """A run that goes on: its job, its process, and its text so far."""

    job: Job
    process: int
    pieces: List[bytes]


class Group:
    """The process group of the runs, and a process that does nothing but keep it.

    All of them hold one end of a pipe and this process the other one alone. Where that one closes, which the end of
    this process does in any case, the system sends SIGKILL to the group.
    """

    def __init__(self) -> None:
        self.nothing = os.open(os.devnull, os.O_RDONLY)
        held, self._own = os.pipe()
        before = signal.pthread_sigmask(signal.SIG_BLOCK, ENDING)
        try:
            self.number = os.fork()
            if self.number == 0:
                self._keep(held)
            os.setpgid(self.number, self.number)
        finally:
            signal.pthread_sigmask(signal.SIG_SETMASK, before)
        fcntl.fcntl(held, fcntl.F_SETOWN, -self.number)
        fcntl.fcntl(held, fcntl.F_SETSIG, signal.SIGKILL)
        fcntl.fcntl(held, fcntl.F_SETFL, fcntl.fcntl(held, fcntl.F_GETFL) | fcntl.FASYNC)
        os.set_inheritable(held, True)
        self._held = held

    def _keep(self, held: int) -> None:
        """Keeps the group until this process's end of the pipe closes."""
        try:
            os.setpgid(0, 0)
            os.close(self._own)
            os.read(held, 1)
            os.killpg(0, signal.SIGKILL)
        finally:
            os._exit(1)

    def begin(self, program: bytes, words: Sequence[bytes], given: Optional[int], text: int) -> int:
        """Begins the program, whose text goes to a pipe, in the group, and returns its process."""
        source = self.nothing if given is None else given
        actions = [(os.POSIX_SPAWN_DUP2, source, 0), (os.POSIX_SPAWN_DUP2, text, 1)]
        how = {"file_actions": actions, "setpgroup": self.number, "setsigdef": _RESTORED}
        return os.posix_spawn(program, [program, *words], os.environ, **how)

    def end(self) -> None:
        """Ends all runs that go on."""
        os.killpg(self.number, signal.SIGKILL)
        with contextlib.suppress(ChildProcessError):
            while True:
                os.waitpid(-self.number, 0)
        for number in (self.nothing, self._own, self._held):
            os.close(number)


def processors() -> int:
    """Returns how many processors this process may use."""
    return len(os.sched_getaffinity(0)) if hasattr(os, "sched_getaffinity") else os.cpu_count() or 1


def run_many(runs: Runs, jobs: Iterable[Job]) -> None:
    """Makes the runs, and tells each one as it ends. Those that go on are ended where this is left by an exception.
    Raises OSError where one of them can't be made."""
    group = Group()
    going: Dict[int, Going] = {}
    try:
        left, poll = iter(jobs), select.poll()
        for job in islice(left, runs.at_once):
            _begin(runs, group, job, going, poll)
        while going:
            for number, _ in poll.poll(TICK):
                piece = os.read(number, PIECE)
                if piece:
                    going[number].pieces.append(piece)
                    continue
                poll.unregister(number)
                ended = going.pop(number)
                captured = _captured(ended, number)
                for job in islice(left, 1):
                    _begin(runs, group, job, going, poll)
                runs.ended(ended.job, captured)
            runs.tick()
    finally:
        group.end()
        for number in going:
            os.close(number)


def _begin(runs: Runs, group: Group, job: Job, going: Dict[int, Going], poll: "select.poll") -> None:
    """Begins a run, and has its text awaited."""
    given = runs.standard_input()
    source, text = os.pipe()
    try:
        process = group.begin(os.fsencode(runs.program), [bytes_of(it) for it in job.words], given, text)
        going[source] = Going(job, process, [])
        poll.register(source, select.POLLIN)
    finally:
        os.close(text)
        if given is not None:
            os.close(given)


def _captured(ended: Going, number: int) -> Captured:
    """Returns what a run that has closed its text wrote, and its status."""
    os.close(number)
    status = os.waitpid(ended.process, 0)[1]
    code = os.WEXITSTATUS(status) if os.WIFEXITED(status) else 128 + os.WTERMSIG(status)
    return Captured(code, text_of(b"".join(ended.pieces)))
