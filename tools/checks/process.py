"""How ./caf behaves as a process: signals, a terminal, and what is left of it."""

import array
import contextlib
import fcntl
import os
import pty
import re
import select
import signal
import subprocess
import termios
import time
from typing import Any, Dict, Iterator, List, Tuple
from unittest import mock

from checks.comparing import LAUNCHER, Checks, Done, call, folder, read, started, write
from checks.launcher import NEIGHBOUR, stand_in

# A program whose images count one after the other, each for a second or more; no line of it is printed before the run
# ends.
LONG = b"integer :: i, s\nprint *, 1\ns = 0\ndo i = 1, 90000000\ns = mod(s + i, 1000)\nend do\nprint *, s\nend\n"
LONG_WORDS = ["run", "-n", "64", "--order", "0", "--steps", "100000000"]
# Stand-ins for the program: one writes a line and goes on; one writes more than two pipes take and goes on; one writes
# after seconds.
BEGINS = "import os, time\nos.write(1, b'1: first\\n')\ntime.sleep(60)\n"
MUCH = 150000
WRITES_MUCH = f"import os, time\nos.write(1, b'x' * {MUCH})\ntime.sleep(60)\n"
WAITS = "import os, time\ntime.sleep(4.5)\nos.write(1, b'1: 4\\n')\n"
# So many seconds a terminal is awaited.
SILENCE = 30.0
# The time on a terminal.
TICK = re.compile(rb"\r\x1b\[Kcaf: ([0-9]+) s: the program runs")
WIPE = b"\r\x1b[K"


def check_process(checks: Checks) -> None:
    """All of it; nothing is left in the folder of temporary files."""
    with _signals_that_end(), folder() as work, folder() as temporary, mock.patch.dict(os.environ, TMPDIR=temporary):
        path = write(f"{work}/long.f90", LONG)
        _check_signals(checks, path)
        _check_ignored_signal(checks, path)
        _check_killed(checks, path)
        _check_text_so_far(checks, path)
        _check_text_that_waits(checks, path)
        _check_terminal(checks, path)
        _check_interrupt_on_a_terminal(checks, path)
        call([LAUNCHER, "check", "-"], given=b"end\n")
        checks.same("what is left in TMPDIR", "[]", str(os.listdir(temporary)))


@contextlib.contextmanager
def _signals_that_end() -> Iterator[None]:
    """Lets no call ignore a signal because the check does, as under nohup or behind `&`."""
    before = {it: signal.getsignal(it) for it in (signal.SIGHUP, signal.SIGINT, signal.SIGTERM)}
    try:
        for number, is_now in before.items():
            if is_now is signal.SIG_IGN:
                signal.signal(number, signal.SIG_DFL)
        yield
    finally:
        for number, was in before.items():
            signal.signal(number, was)


def _programs(path: str) -> List[int]:
    """Returns the numbers of the processes that run a program with this source, the launcher left out."""
    found = []
    for number in (int(it) for it in os.listdir("/proc") if it.isdigit()):
        try:
            words = read(f"/proc/{number}/cmdline").split(b"\0")
            if path.encode() in words and words[1] == b"run":
                found.append(number)
        except OSError:
            continue
    return found


def _run_of(path: str, **how: Any) -> "subprocess.Popen[bytes]":
    """Starts a long run, and waits until its program runs."""
    launcher = started([LAUNCHER, *LONG_WORDS, path], stdout=subprocess.PIPE, stderr=subprocess.PIPE, **how)
    for _ in range(400):
        if _programs(path):
            break
        time.sleep(0.05)
    return launcher


def _ended(checks: Checks, what: str, launcher: "subprocess.Popen[bytes]", path: str, status: int) -> Done:
    """Waits for the end of a run, which must come at once, with that status and no process left."""
    begun = time.monotonic()
    text, said = _last_of(launcher)
    spent = time.monotonic() - begun
    checks.holds(f"{what}: the status is {launcher.returncode}", launcher.returncode == status)
    checks.holds(f"{what}: it ends after {spent:.1f} s", spent < 3)
    for _ in range(40):
        if not _programs(path):
            break
        time.sleep(0.05)
    left = _programs(path)
    checks.holds(f"{what}: {left} are left", not left)
    for number in left:
        os.kill(number, signal.SIGKILL)
    return Done(text, said, launcher.returncode)


def _last_of(launcher: "subprocess.Popen[bytes]") -> Tuple[bytes, bytes]:
    """Returns what is still written on both streams; a launcher that doesn't end is killed."""
    try:
        return launcher.communicate(timeout=20)
    except subprocess.TimeoutExpired:
        os.killpg(launcher.pid, signal.SIGKILL)
        return launcher.communicate()


def _check_signals(checks: Checks, path: str) -> None:
    """A signal that ends the launcher ends the program."""
    for number in (signal.SIGTERM, signal.SIGINT, signal.SIGHUP):
        launcher = _run_of(path)
        checks.holds("the program of a long run runs", bool(_programs(path)))
        os.kill(launcher.pid, number)
        got = _ended(checks, f"{number.name} to the launcher", launcher, path, -number)
        checks.same(f"{number.name} to the launcher: standard error", b"", got.said)
    launcher = _run_of(path)
    os.killpg(launcher.pid, signal.SIGINT)
    _ended(checks, "Ctrl-C", launcher, path, -signal.SIGINT)
    told = call(["sh", "-c", f"{LAUNCHER} {' '.join(LONG_WORDS)} {path} & sleep 1; kill -TERM $!; wait $!; echo $?"])
    checks.same("the status of SIGTERM in a shell", b"143\n", told.text)


def _check_ignored_signal(checks: Checks, path: str) -> None:
    """A signal that is ignored, as by nohup, stays so."""
    launcher = _run_of(path, preexec_fn=lambda: signal.signal(signal.SIGHUP, signal.SIG_IGN))
    os.kill(launcher.pid, signal.SIGHUP)
    time.sleep(0.3)
    checks.holds("a run goes on that ignores SIGHUP", launcher.poll() is None and bool(_programs(path)))
    launcher.terminate()
    _ended(checks, "SIGTERM behind an ignored SIGHUP", launcher, path, -signal.SIGTERM)


def _check_killed(checks: Checks, path: str) -> None:
    """The program ends with a launcher that is killed; a program that is killed is told."""
    launcher = _run_of(path)
    launcher.kill()
    _ended(checks, "SIGKILL to the launcher", launcher, path, -signal.SIGKILL)
    launcher = _run_of(path)
    os.kill(_programs(path)[0], signal.SIGKILL)
    got = _ended(checks, "SIGKILL to the program", launcher, path, 137)
    checks.same("a killed program", b"caf: the program was ended from outside, by signal 9\n", got.said)


def _check_text_so_far(checks: Checks, path: str) -> None:
    """What the program gives is passed on at once."""
    with folder() as work:
        env = {**os.environ, "CAF_PROGRAM": stand_in(work, BEGINS)}
        launcher = started([LAUNCHER, "run", path], stdout=subprocess.PIPE, env=env)
        checks.same("what is given is passed on at once", b"1: first\n", os.read(launcher.stdout.fileno(), 100))
        launcher.terminate()
        got = _last_of(launcher)[0]
        checks.holds("the launcher of a stand-in ends", launcher.returncode == -signal.SIGTERM and got == b"")


def _check_text_that_waits(checks: Checks, path: str) -> None:
    """What the program gave before a signal isn't lost where standard output was full by then."""
    with folder() as work:
        env = {**os.environ, "CAF_PROGRAM": stand_in(work, WRITES_MUCH)}
        launcher = started([LAUNCHER, "run", path], stdout=subprocess.PIPE, env=env)
        _await_a_full_pipe(launcher.stdout.fileno())
        launcher.terminate()
        got = _last_of(launcher)[0]
        checks.holds(f"{len(got)} bytes came of {MUCH} before SIGTERM", len(got) == MUCH)
        checks.holds("the launcher ends by SIGTERM", launcher.returncode == -signal.SIGTERM)


def _await_a_full_pipe(number: int) -> None:
    """Waits until a pipe holds what it takes, and a moment more, in which the program gives the rest."""
    held = array.array("i", [0])
    for _ in range(400):
        fcntl.ioctl(number, termios.FIONREAD, held)
        if held[0] >= 65536:
            break
        time.sleep(0.05)
    time.sleep(0.5)


def _on_a_terminal(words: List[str], keys: bytes, env: Dict[str, str]) -> Done:
    """Calls the launcher on a terminal, where these keys are pressed once the time is told."""
    process, terminal = pty.fork()
    if process == 0:
        os.execve(LAUNCHER, [LAUNCHER, *words], {**env, "TERM": "xterm"})
    text = b""
    while select.select([terminal], [], [], SILENCE)[0]:
        try:
            piece = os.read(terminal, 1000)
        except OSError:
            break
        if not piece:
            break
        text += piece
        if keys and TICK.search(text):
            os.write(terminal, keys)
            keys = b""
    os.close(terminal)
    status = os.waitpid(process, 0)[1]
    return Done(text, b"", os.WEXITSTATUS(status) if os.WIFEXITED(status) else -os.WTERMSIG(status))


def _check_terminal(checks: Checks, path: str) -> None:
    """A terminal is told each second how long the program runs, from the second one on, and only a terminal."""
    with folder() as work:
        env = {**os.environ, "CAF_PROGRAM": stand_in(work, WAITS)}
        got = _on_a_terminal(["run", path], b"", env)
        ticks = [int(it) for it in TICK.findall(got.text)]
        # (a loaded machine may pass a second over, or give the stand-in longer)
        rise = all(one < other for one, other in zip(ticks, ticks[1:]))
        checks.holds(f"a terminal is told the seconds {ticks}", ticks[:1] == [2] and len(ticks) > 1 and rise)
        checks.same("the line of the time is wiped", WIPE + b"1: 4\r\n", TICK.sub(b"", got.text))
        checks.same("no terminal is told nothing", b"", call([LAUNCHER, "run", path], env=env).said)
    got = _on_a_terminal(NEIGHBOUR, b"", dict(os.environ))
    checks.same("a short run on a terminal", b"1: 4\r\n", got.text)


def _check_interrupt_on_a_terminal(checks: Checks, path: str) -> None:
    """Ctrl-C on a terminal ends both."""
    got = _on_a_terminal([*LONG_WORDS, path], b"\x03", dict(os.environ))
    checks.holds(f"Ctrl-C on a terminal: {got.status}", got.status == -signal.SIGINT and not _programs(path))
    checks.same("Ctrl-C on a terminal wipes the line", b"^C" + WIPE, TICK.sub(b"", got.text))
