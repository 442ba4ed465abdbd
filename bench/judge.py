#!/usr/bin/env python3
"""What it takes to judge a kept trace of 67,108,864 bytes, the longest that is taken: bench/judge.py [TRIES]

The traces are those of runs of four images that assign, or that meet in SYNC ALL, in as many steps as there is room
for, filled up with lines that are passed over; steps as short as they can be; and line feeds alone. Reading is the
time of a call whose last line is no step's, so that no step is judged (status 15); it should take 3 seconds and 1 GB
at most. Judging is the time that a call with a core run takes beyond that, a million steps a second at least. The
best of TRIES (3) counts, of processor time, since such a call has one thread. The program is crates/caf/out/caf, or
the one that CAF_PROGRAM names; the status is 0 where all is in time.
"""

import os
import re
import subprocess
import sys
import tempfile
from typing import List, NamedTuple

HOME = os.path.dirname(os.path.dirname(os.path.realpath(__file__)))
PROGRAM = os.environ.get("CAF_PROGRAM") or f"{HOME}/crates/caf/out/caf"
MOST = 67108864
READ_SECONDS, READ_BYTES, STEPS_A_SECOND = 3.0, 1 << 30, 1000000.0

ASSIGN = "integer :: x[*], i\nx = 0\ndo i = 1, {}\nx = x + 1\nend do\nend\n"
MEET = "integer :: i\ndo i = 1, {}\nsync all\nend do\nend\n"
# Runs that fill a file: the source, and how many turns.
RUNS = (("assigning", ASSIGN, 275000), ("meeting", MEET, 225000))
SHORT = b"1 1 1 own memory > ok\n"
BAD = b"1 x\n"
_STEP = re.compile(rb"^[0-9]+ ", re.MULTILINE)


class Call(NamedTuple):
    """The processor time and the memory that a call took, how it ended, and what it wrote."""

    seconds: float
    bytes: int
    status: int
    text: bytes


def call(*words: str) -> Call:
    """Calls the program."""
    process = subprocess.Popen([PROGRAM, *words], stdin=subprocess.DEVNULL, stdout=subprocess.PIPE)
    assert process.stdout is not None
    text = process.stdout.read()
    _, status, used = os.wait4(process.pid, 0)
    process.returncode = os.WEXITSTATUS(status)
    return Call(used.ru_utime + used.ru_stime, used.ru_maxrss << 10, process.returncode, text)


def best(tries: int, *words: str) -> Call:
    """Returns the quickest of so many calls."""
    return min((call(*words) for _ in range(tries)), key=lambda it: it.seconds)


def filled(text: bytes, last: bytes) -> bytes:
    """Returns the lines of a text that fit into a file behind which a last line stands, filled up between."""
    end = text.rfind(b"\n", 0, MOST - len(last)) + 1
    return text[:end] + b"\n" * (MOST - len(last) - end) + last


def write(path: str, data: bytes) -> str:
    """Writes a file and returns its path."""
    with open(path, "wb") as file:
        file.write(data)
    return path


def tell(what: str, got: str, is_met: bool) -> bool:
    """Prints a figure, and whether it is as it should be."""
    print(f"{what:34} {got:44} {'OK' if is_met else 'NOT'}", flush=True)
    return is_met


def reading(name: str, text: bytes, source: str, folder: str, tries: int) -> Call:
    """Judges a file whose last line is bad."""
    data = filled(text, BAD)
    done = best(tries, "judge", write(f"{folder}/t", data), source)
    wanted = b"bad trace at line %d\n" % data.count(b"\n")
    if (done.status, done.text) != (15, wanted):
        sys.exit(f"{name}: status {done.status}, {done.text!r} in place of {wanted!r}")
    return done


def tell_reading(name: str, text: bytes, done: Call) -> bool:
    """Tells what reading took."""
    got = f"{done.seconds:.2f} s, {done.bytes / 1e6:.0f} MB, {len(_STEP.findall(text)):,} steps"
    return tell(f"reading, {name}", got, done.seconds <= READ_SECONDS and done.bytes <= READ_BYTES)


def tell_run(name: str, form: str, turns: int, folder: str, tries: int) -> List[bool]:
    """Tells what the trace of a run takes, to be read and to be judged."""
    source = write(f"{folder}/a.f90", form.format(turns).encode())
    run = call("run", "--order", "0", "--steps", "100000000", "--trace", source)
    if run.status != 0:
        sys.exit(f"{name}: status {run.status}")
    text = filled(run.text, b"")
    steps = len(_STEP.findall(text))
    read = reading(name, text, source, folder, tries)
    done = best(tries, "judge", "--steps", "100000000", write(f"{folder}/t", text), source)
    if (done.status, done.text) != (0, b"core run\n"):
        sys.exit(f"{name}: status {done.status}, {done.text!r}")
    pace = steps / max(done.seconds - read.seconds, 1e-9)
    got = f"{pace / 1e6:.2f} million steps a second, {done.bytes / 1e6:.0f} MB"
    return [
        tell_reading(name, text, read),
        tell(f"judging, {name}", got, pace >= STEPS_A_SECOND),
    ]


def main(words: List[str]) -> int:
    """Measures all of it and returns the status."""
    tries = int(words[0]) if words else 3
    with tempfile.TemporaryDirectory() as folder:
        told = [it for row in RUNS for it in tell_run(*row, folder, tries)]
        source = write(f"{folder}/a.f90", b"end\n")
        for name, text in (("short steps", SHORT * (MOST // len(SHORT))), ("line feeds", b"\n" * MOST)):
            told.append(tell_reading(name, text, reading(name, text, source, folder, tries)))
    print(f"{sum(told)} of {len(told)} OK")
    return int(not all(told))


if __name__ == "__main__":
    sys.exit(main(sys.argv[1:]))
