"""Every refusal in its turn: each prefix of a program, a failure at each step of an image, each call of the system that
the program makes, and each call of a source and a sink in memory. What must come is worked out from the programs and
the rules, never taken from an answer."""

import functools
import os
import re
import resource
import shutil
import signal
from typing import Iterator, List, Sequence, Tuple

from checks.comparing import HOME, Checks, Done, call, folder, read, with_status, write

_ORDERED = ["run", "-n", "4", "--order", "0", "a.f90"]
_ON_WORKERS = ["run", "-n", "4", "-w", "2", "a.f90"]
_MADE = ["run", "-n", "2", "--order", "0", "--fail", "2@{}", "--made", "1", "4"]
# A front of the neighbour's trace, which is judged, and replayed to the end of a run.
_TRACE = b"1 1 2 m1 write x:0 1 > ok\n"
_JUDGED = ["judge", "-n", "4", "t", "a.f90"]
_REPLAYED = ["replay", "-n", "4", "t", "a.f90"]
_CORE_RUN = b"core run\n"
# What the neighbour's program answers; what is answered where memory is wanting, and where a file can't be read.
_READ = b"1: 4\n"
_NOTHING = Done(b"", b"", 12)
_READ_FAULT = b"read fault\nstatus 10\n"
# What tools/refusing.c tells of a call that it refused.
_REFUSED = b"refused\n"


def check_turns(checks: Checks) -> None:
    """All of it; the calls of the system that need tools/refusing.c are refused where there is a compiler of C."""
    with folder() as work:
        _check_prefixes(checks, work)
        _check_failures(checks)
        neighbour = _source("A neighbour is read, in order and on workers")
        write(f"{work}/a.f90", neighbour)
        _check_shares(checks, work)
        if shutil.which("cc"):
            refusing = compiled(work)
            _check_memory(checks, work, refusing)
            _check_input(checks, work, refusing, len(neighbour))
            write(f"{work}/t", _TRACE)
            _check_kept(checks, work, refusing, len(_TRACE) + len(neighbour))
            _check_output(checks, work, refusing)
            _check_threads(checks, work, refusing)


def _source(title: str) -> bytes:
    """Returns the source of a group of tools/answers.cases."""
    group = read(f"{HOME}/tools/answers.cases").split(b"== %s\n" % title.encode(), 1)[1]
    return group.split(b"-- source\n", 1)[1].split(b"-- caf", 1)[0]


def _check_prefixes(checks: Checks, work: str) -> None:
    """A prefix of the ring's program is a program exactly where it ends in the last line, behind a whole word of it or
    the blank that follows; a name that isn't the program's is refused (41), and all else is no program (1 to 8)."""
    ring = _source("A halo exchange as users write it")
    last = b"end program ring\n"
    front = ring[: -len(last)]
    checks.holds("the ring's program has the last line that is wanted", ring == front + last)
    wanted = {it: b"ok\nstatus 0\n" for it in (b"end", b"end ", b"end program", b"end program ", last[:-1], last)}
    place = b"%d:%d" % (front.count(b"\n") + 1, last.index(b"ring") + 1)
    wanted.update({last[:end]: b"refused 41 at %s\nstatus 3\n" % place for end in (13, 14, 15)})
    for end in range(len(ring) + 1):
        write(f"{work}/a.f90", ring[:end])
        got = with_status(call([checks.program, "check", "a.f90"], folder=work))
        told = wanted.get(ring[len(front) : end]) if end > len(front) else None
        if told:
            checks.same(f"the ring's first {end} bytes", told, got)
        else:
            is_refused = re.fullmatch(rb"refused [1-8] at [0-9]+:[0-9]+\nstatus 3\n", got)
            checks.holds(f"the ring's first {end} bytes are refused with 1 to 8: {got!r}", bool(is_refused))


def _check_failures(checks: Checks) -> None:
    """Image 2 of the made program fails at each of its steps, of which it has 63: six in each of ten rounds, two of
    CO_SUM, and its stop. A failure makes three steps in the place of one. Image 1 meets it up to the step by which
    image 2 arrives at CO_SUM, and has the sum where image 2 fails behind that step."""
    total = b"1: 4448\nsummary images 2 events %d status 0\nstatus 0\n"
    at_once = b"error stop image 1 line 12 code 6001\nsummary images 2 events 7 status 4\nstatus 4\n"
    stopped = rb"error stop image 1 line [0-9]+ code 6001\nsummary images 2 events [0-9]+ status 4\nstatus 4\n"
    wanted = {1: at_once, 62: total % 128, 63: total % 129, 64: total % 127}
    for step in range(1, 65):
        got = with_status(call([checks.program, *(it.format(step) for it in _MADE)]))
        if step in wanted:
            checks.same(f"image 2 fails at its step {step}", wanted[step], got)
        else:
            checks.holds(f"image 2 fails at its step {step}: {got!r}", bool(re.fullmatch(stopped, got)))


def _share(room: int) -> None:
    """Lets the files of this process grow to so many bytes, and fail behind them without a signal."""
    signal.signal(signal.SIGXFSZ, signal.SIG_IGN)
    resource.setrlimit(resource.RLIMIT_FSIZE, (room, room))


def _check_shares(checks: Checks, work: str) -> None:
    """A text that is taken in part alone: as much of it as there is room for stands there, with status 11. A pipe that
    nobody reads takes nothing. A folder is begun as a file, and fails at its first read."""
    for room in range(len(_READ) + 1):
        with open(f"{work}/text", "wb") as text:
            how = {"stdout": text, "preexec_fn": functools.partial(_share, room)}
            got = call([checks.program, *_ORDERED], folder=work, **how)
        told = read(f"{work}/text") + b"status %d\n" % got.status
        status = b"status 0\n" if room == len(_READ) else b"status 11\n"
        checks.same(f"a text of 5 bytes where {room} have room", _READ[:room] + status, told)
    unread, written = os.pipe()
    os.close(unread)
    got = call([checks.program, *_ORDERED], folder=work, stdout=written)
    os.close(written)
    checks.same("a pipe that nobody reads", b"status 11\n", with_status(got))
    checks.same("a folder as a file", _READ_FAULT, with_status(call([checks.program, "check", "."], folder=work)))


def compiled(work: str) -> str:
    """Returns the path of tools/refusing.c as a library, which is made in that folder."""
    made = f"{work}/refusing.so"
    done = call(["cc", "-O1", "-shared", "-fPIC", "-o", made, f"{HOME}/tools/refusing.c", "-ldl"])
    if done.status:
        raise OSError(done.said.decode(errors="backslashreplace"))
    return made


def _with_refused(program: str, words: List[str], work: str, refusing: str, what: str, turn: int) -> Tuple[Done, bool]:
    """Returns what a call does of which that turn is refused, and whether it came to that turn."""
    env = {**os.environ, "LD_PRELOAD": refusing, what: str(turn)}
    got = call([program, *words], folder=work, env=env)
    return got._replace(said=got.said.replace(_REFUSED, b"", 1)), got.said.startswith(_REFUSED)


def _turns(program: str, words: List[str], work: str, refusing: str, what: str) -> Iterator[Tuple[int, Done]]:
    """Gives each turn with what the call does where it is refused, until the call makes no such turn."""
    for turn in range(1, 10000):
        got, was_refused = _with_refused(program, words, work, refusing, what, turn)
        yield turn, got
        if not was_refused:
            return


def check_in_memory(checks: Checks, work: str, refusing: str) -> None:
    """The program is tools/in_memory.rt.txt: its source and its sink are in memory. Each allocation is refused; each
    call of the source and each write fails, a byte each; and the sink has room for no more than the text."""
    _check_memory(checks, work, refusing, _pace())
    calls = len(_source("A neighbour is read, in order and on workers")) + 2
    for turn in range(1, calls + 2):
        wanted = _READ_FAULT if turn <= calls else _front(len(_READ))
        _check_pace(checks, f"call {turn} of the source fails", wanted, _pace(piece=1, broken=turn))
    for turn in range(1, len(_READ) + 2):
        _check_pace(checks, f"write {turn} fails", _front(turn - 1), _pace(piece=1, failing=turn))
    for room in range(len(_READ) + 1):
        _check_pace(checks, f"a sink with room for {room}", _front(room), _pace(room=room))


def _pace(piece: int = 4096, broken: int = 0, failing: int = 0, room: int = 4096) -> List[str]:
    """Returns the words that stand ahead of a call in memory."""
    return [str(it) for it in (piece, broken, failing, room)]


def _front(size: int) -> bytes:
    """Returns what is written where so many bytes of the text are taken, with the line of the status."""
    return _READ[:size] + (b"status 0\n" if size == len(_READ) else b"status 11\n")


def _check_pace(checks: Checks, what: str, wanted: bytes, pace: List[str]) -> None:
    """Compares a call over a source and a sink in memory that behave so."""
    checks.same(f"in memory: {what}", wanted, with_status(call([checks.program, *pace, *_ORDERED])))


def _check_memory(checks: Checks, work: str, refusing: str, ahead: Sequence[str] = ()) -> None:
    """Each allocation is refused once, in an ordered run and on two workers: the answer is the run's, or nothing is
    written and the status is 12. Words may stand ahead of the call."""
    for words in (_ORDERED, _ON_WORKERS):
        _check_allocations(checks, [*ahead, *words], _READ, work, refusing)


def _check_allocations(checks: Checks, words: List[str], text: bytes, work: str, refusing: str) -> None:
    """Each allocation of a call that writes this text is refused once."""
    turns = 0
    for turns, got in _turns(checks.program, words, work, refusing, "REFUSE_MEMORY"):
        is_right = got in (Done(text, b"", 0), _NOTHING)
        checks.holds(f"{' '.join(words)}: without allocation {turns}: {got}", is_right)
    checks.holds(f"{' '.join(words)}: {turns} allocations were refused", turns > 100)


def _check_kept(checks: Checks, work: str, refusing: str, size: int) -> None:
    """Of a kept trace that is judged or replayed each allocation is refused, and each call that reads it or its source:
    both are opened, read byte by byte and once for their ends."""
    for words, text in ((_JUDGED, _CORE_RUN), (_REPLAYED, _READ)):
        _check_allocations(checks, words, text, work, refusing)
        calls = size + 4
        for turn in range(1, calls + 2):
            got, was_refused = _with_refused(checks.program, words, work, refusing, "REFUSE_INPUT", turn)
            wanted = _READ_FAULT if turn <= calls else text + b"status 0\n"
            checks.same(f"{words[0]}: the files' call {turn} fails", wanted, with_status(got))
            checks.holds(f"{words[0]}: the files' call {turn} is made: {was_refused}", was_refused == (turn <= calls))


def _check_input(checks: Checks, work: str, refusing: str, size: int) -> None:
    """A file that gives one byte a read is opened, read once for each byte and once for its end; each of these calls
    fails once."""
    for turn in range(1, size + 4):
        got, was_refused = _with_refused(checks.program, _ORDERED, work, refusing, "REFUSE_INPUT", turn)
        wanted = _READ_FAULT if turn <= size + 2 else _READ + b"status 0\n"
        checks.same(f"the source's call {turn} fails", wanted, with_status(got))
        checks.holds(f"the source's call {turn} is made: {was_refused}", was_refused == (turn <= size + 2))


def _check_output(checks: Checks, work: str, refusing: str) -> None:
    """Standard output takes one byte at a time, and each write fails once."""
    for turn in range(1, len(_READ) + 2):
        got, _ = _with_refused(checks.program, _ORDERED, work, refusing, "REFUSE_OUTPUT", turn)
        status = b"status 11\n" if turn <= len(_READ) else b"status 0\n"
        checks.same(f"write {turn} fails", _READ[: turn - 1] + status, with_status(got))


def _check_threads(checks: Checks, work: str, refusing: str) -> None:
    """A worker that gets no thread of its own runs where it stands, and no answer speaks of it."""
    for turn, got in _turns(checks.program, _ON_WORKERS, work, refusing, "REFUSE_THREAD"):
        checks.same(f"thread {turn} isn't made", _READ + b"status 0\n", with_status(got))
