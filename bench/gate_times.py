#!/usr/bin/env python3
"""Tells what each crate takes the gate, in processor seconds: bench/gate_times.py OUT [FOLDER]

Looks at the list of processes each second until it is ended (Ctrl-C or TERM), and writes OUT each half minute and at
the end: a line for each crate, 'SECONDS CRATE KIND', the dearest first, and a last one with the sum. KIND is proof,
tests or edit. FOLDER is that of the run: of the processes only those count that work below it (`rt ci` works in the
checkout itself, `rt ci NAME..` in a copy below /tmp, edits in folders of their own below /tmp); without it all count.
What a process takes in its last second isn't seen, and beside other work a crate takes up to twice as long as alone.
"""

import os
import signal
import sys
import time
from typing import Dict, List, NamedTuple, Optional, Tuple

TICKS = os.sysconf("SC_CLK_TCK")
WRITES_EACH = 30.0


class Work(NamedTuple):
    """What a process works on."""

    crate: str
    kind: str


def work_of(words: List[str], folder: str) -> Optional[Work]:
    """What the prover's process with these words does in its folder; nothing for another process."""
    if os.path.basename(words[0]) != "rattle" or "--crate-name" not in words[:-1]:
        return None
    crate = words[words.index("--crate-name") + 1]
    if "/rt-edit-" in folder:
        return Work(crate, "edit")
    return Work(crate, "tests" if "--test" in words else "proof")


def seen_in(process: str, below: str) -> Optional[Tuple[str, Work, float]]:
    """A process, told by its number and its start, with its work and the processor seconds that it has taken."""
    try:
        with open(f"/proc/{process}/cmdline", encoding="utf-8", errors="replace") as file:
            words = file.read().split("\0")
        folder = os.readlink(f"/proc/{process}/cwd")
        with open(f"/proc/{process}/stat", encoding="utf-8", errors="replace") as file:
            cells = file.read().rpartition(")")[2].split()
    except OSError:
        return None
    work = work_of(words, folder)
    if work is None or not (folder.startswith(below) or work.kind == "edit"):
        return None
    return f"{process} {cells[19]}", work, (int(cells[11]) + int(cells[12])) / TICKS


def write(out: str, taken: Dict[str, Tuple[Work, float]]) -> None:
    """Writes the lines of what was seen."""
    sums: Dict[Work, float] = {}
    for work, seconds in taken.values():
        sums[work] = sums.get(work, 0.0) + seconds
    with open(f"{out}.new", "w", encoding="utf-8") as file:
        for work, seconds in sorted(sums.items(), key=lambda it: -it[1]):
            file.write(f"{seconds:8.1f} {work.crate} {work.kind}\n")
        file.write(f"{sum(sums.values()):8.1f} in all\n")
    os.replace(f"{out}.new", out)


def main(out: str, below: str) -> None:
    """Looks until it is ended."""
    taken: Dict[str, Tuple[Work, float]] = {}
    ends: List[int] = []
    for number in (signal.SIGINT, signal.SIGTERM):
        signal.signal(number, lambda got, _: ends.append(got))
    written = time.monotonic()
    while not ends:
        for process in filter(str.isdigit, os.listdir("/proc")):
            found = seen_in(process, below)
            if found:
                taken[found[0]] = found[1:]
        if time.monotonic() - written > WRITES_EACH:
            write(out, taken)
            written = time.monotonic()
        time.sleep(1)
    write(out, taken)


if __name__ == "__main__":
    if len(sys.argv) not in (2, 3):
        sys.exit("usage: bench/gate_times.py OUT [FOLDER]")
    main(sys.argv[1], os.path.realpath(sys.argv[2]) if len(sys.argv) == 3 else "/")
