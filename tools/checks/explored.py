"""What ./caf explore makes of the examples and of the programs in shown/, against the ends of the program itself; what
it costs; and how it is stopped."""

import os
import pty
import re
import resource
import select
import signal
import subprocess
from typing import Dict, List, Pattern

from checks.comparing import HOME, LAUNCHER, Checks, Done, call, started
from tests.test_picture import steps_of
from texts import text_of

CALLS = """\
-n 2 --order 0 --runs 12 examples/deadlock.f90
-n 4 --order 3 --runs 10 examples/halo-race.f90
-n 3 --order 0 --fails examples/neighbour.f90
-n 2 --order 0 --fails examples/deadlock.f90
-n 4 --order 0 --runs 8 tools/checks/shown/crosswise.f90
-n 4 --order 0 --runs 6 tools/checks/shown/lock-queue.f90
-n 3 --order 0 --fails tools/checks/shown/without-image-2.f90
"""
# So many runs of a small program take the time of so many runs of the program alone at most, and so many seconds more.
MANY, MOST_TIMES, MOST_MORE = 1000, 2.0, 1.0
ALONE = 100
# So many seconds a terminal is awaited.
SILENCE = 30.0
_ROW = re.compile(r" +([0-9]+)  ([0-9]+) [A-Z]")
_TICK = re.compile(rb"\r\x1b\[Kcaf: [0-9]+ s: [0-9]+ of 1000000 runs, 2 ends")
_SO_FAR = re.compile(r"stopped after ([0-9]+) of these 1000000 runs\n  orders  end\n +([0-9]+)  (?:0|6) [^|]*")


def check_explored(checks: Checks) -> None:
    """The table counts what the program does; it costs little; and Ctrl-C shows what was found so far."""
    for line in CALLS.splitlines():
        _check_counts(checks, line)
    _check_cost(checks)
    _check_stopped(checks)


def _trials(checks: Checks, line: str) -> List[List[str]]:
    """Returns the words of each run of a call."""
    if "--fails" not in line:
        images, first, count, file = (line.split()[it] for it in (1, 3, 5, 6))
        orders = range(int(first), int(first) + int(count))
        return [["-n", images, "--order", str(it), file] for it in orders]
    words = [it for it in line.split() if it != "--fails"]
    counts: Dict[str, int] = {}
    for step in steps_of(text_of(call([checks.program, "run", "--trace", *words]).text)):
        image = step.split(" ")[1]
        counts[image] = counts.get(image, 0) + 1
    fails = [f"{image}@{number}" for image, count in counts.items() for number in range(1, count + 1)]
    return [["--fail", it, *words] for it in fails]


def _check_counts(checks: Checks, line: str) -> None:
    """The counts of each status are those of the runs; and the words of each row end with its status."""
    wanted: Dict[int, int] = {}
    for words in _trials(checks, line):
        status = call([checks.program, "run", *words]).status
        wanted[status] = wanted.get(status, 0) + 1
    got: Dict[int, int] = {}
    status = 0
    for row in text_of(call([LAUNCHER, "explore", *line.split()]).text).split("\n"):
        found = _ROW.match(row)
        if found:
            status = int(found[2])
            got[status] = got.get(status, 0) + int(found[1])
        again = re.fullmatch(f" +{re.escape(LAUNCHER)} (run .*)", row)
        if again:
            checks.same(f"{row.strip()} again", f"{status}", f"{call([checks.program, *again[1].split()]).status}")
    checks.same(f"./caf explore {line}", f"{sorted(wanted.items())}", f"{sorted(got.items())}")


def _check_cost(checks: Checks) -> None:
    """Many runs take little more than the program itself."""
    before = resource.getrusage(resource.RUSAGE_CHILDREN)
    for order in range(ALONE):
        call([checks.program, "run", "-n", "2", "--order", str(order), "examples/deadlock.f90"])
    after = resource.getrusage(resource.RUSAGE_CHILDREN)
    alone = (after.ru_utime + after.ru_stime - before.ru_utime - before.ru_stime) / ALONE
    line = f"explore -n 2 --order 0 --runs {MANY} examples/deadlock.f90"
    launcher = started([LAUNCHER, *line.split()], stdout=subprocess.PIPE)
    assert launcher.stdout is not None
    text = launcher.stdout.read()
    _, launcher.returncode, spent = os.wait4(launcher.pid, 0)
    launcher.stdout.close()
    checks.holds(f"./caf {line}", text.count(b" run -n 2 --order ") == 2)
    seconds = spent.ru_utime + spent.ru_stime
    told = f"{seconds:.2f} s of the processors, and a run alone {alone:.4f} s"
    checks.holds(f"./caf {line} takes {told}", seconds < MANY * alone * MOST_TIMES + MOST_MORE)


def _check_stopped(checks: Checks) -> None:
    """A terminal is told how far the runs are, and Ctrl-C there shows what was found so far."""
    words = ["explore", "-n", "2", "--order", "0", "--runs", "1000000", "examples/deadlock.f90"]
    got = _on_a_terminal(words, _TICK, b"\x03")
    text = text_of(got.text).replace("\r\n", "\n")
    checks.holds(f"explore on a terminal: {text}", _TICK.search(got.text) is not None)
    table = text.partition("1000000 orders, SEED 0 to 999999\n")[2]
    found = _SO_FAR.match(table)
    checks.holds(f"Ctrl-C in explore:\n{table}", found is not None and 0 < int(found[2]) < int(found[1]) < 1000000)
    checks.holds(f"Ctrl-C ends explore: {got.status}", got.status == -signal.SIGINT)


def _on_a_terminal(words: List[str], awaited: Pattern[bytes], keys: bytes) -> Done:
    """Calls the launcher on a terminal, where these keys are pressed once it has told what is awaited."""
    process, terminal = pty.fork()
    if process == 0:
        os.chdir(HOME)
        signal.signal(signal.SIGINT, signal.SIG_DFL)
        os.execve(LAUNCHER, [LAUNCHER, *words], {**os.environ, "TERM": "xterm"})
    text = b""
    while select.select([terminal], [], [], SILENCE)[0]:
        try:
            text += os.read(terminal, 10000)
        except OSError:
            break
        if keys and awaited.search(text):
            os.write(terminal, keys)
            keys = b""
    os.close(terminal)
    status = os.waitpid(process, 0)[1]
    return Done(text, b"", os.WEXITSTATUS(status) if os.WIFEXITED(status) else -os.WTERMSIG(status))
