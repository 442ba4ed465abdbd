"""Proves the sources of the checkout by `rt ci`, which leaves the program in crates/caf/out/caf.

It is the plain `rt ci` of the gate, over this checkout: what it proves it keeps for both, so nothing is proved twice.
Where it passed, and no source was changed meanwhile, proof.py's note is written beside the program.
"""

from __future__ import annotations

import collections
import contextlib
import os
import re
import select
import shutil
import signal
import subprocess
from typing import Any

import children
import proof
import sources
from progress import Progress
from trouble import NoProgram, say

# So many lines of what rt says of a failure are told.
TAIL = 40
PROVED = re.compile(r"rt: (\w+) (proved$|is kept: )")
FAILED = re.compile(r"rt: (\w+)(: its tests are)? NOT PROVED")
# What rt says that is told at once.
NOTES = re.compile(r"rt: (note: |waiting for another |the disk is full|\w+: another run on this machine )")
LAST = re.compile(r"[0-9]+ passed, [0-9]+ failed$")


class Told:
    """What `rt ci` has said so far, line by line, and what of it is told on."""

    def __init__(self, total: int, progress: Progress) -> None:
        self.total, self.progress = total, progress
        self.proved: set[str] = set()
        self.block: collections.deque[str] = collections.deque(maxlen=TAIL)
        self.has_failed = False

    def line(self, line: str) -> None:
        """Takes the next line."""
        proved, failed = PROVED.match(line), FAILED.match(line)
        if line.startswith("== "):
            self.block.clear()
        elif failed:
            self.has_failed = True
            of_tests = "the tests of the crate" if failed[2] else "the crate"
            self.progress.say("\n".join([f"{of_tests} {failed[1]} could not be proved:", *self.block, line]))
        elif NOTES.match(line):
            self.progress.say(line)
        else:
            self.block.append(line)
        if proved:
            self.proved.add(proved[1])
        self.progress.change(self.state())

    def state(self) -> str:
        """Returns how far it is."""
        count = f"{len(self.proved)} of {self.total} crates proved"
        return count if len(self.proved) < self.total else f"{count}; now their tests, wrong bodies and the program"

    def end(self, status: int) -> None:
        """Tells why it failed, where no crate was named."""
        if not self.has_failed:
            self.progress.say("\n".join([f"rt ci failed, with status {status}:", *self.block]))


def lines_of(output: Any, progress: Progress, begun: subprocess.Popen[Any]) -> Any:
    """Gives the lines of a process as they come, and ticks meanwhile; ends with it, even where something that it began
    keeps the pipe open."""
    number, rest = output.fileno(), b""
    while True:
        progress.tick()
        has_ended = begun.poll() is not None
        if select.select([number], [], [], 0 if has_ended else 0.1)[0]:
            more = os.read(number, 1 << 16)
            *whole, rest = (rest + more).split(b"\n")
            yield from (it.decode(errors="replace") for it in whole)
            if not more:
                break
        elif has_ended:
            break
    if rest:
        yield rest.decode(errors="replace")


def run_told(home: str) -> int:
    """Runs `rt ci` over the checkout, tells in the launcher's manner how far it is, and returns its status."""
    progress = Progress()
    told = Told(len(sources.crates_listed(home)), progress)
    progress.say(
        f"proving {told.total} crates by rt ci: two to three hours from nothing on four processors, and\n"
        "    up to 30 GB of disk; what is proved is kept, and interrupted, the next call goes on"
    )
    progress.enter(told.state())
    begun = children.begin(["rt", "ci"], signal.SIGTERM, cwd=home, stdout=subprocess.PIPE, stderr=subprocess.STDOUT)
    try:
        for line in lines_of(begun.stdout, progress, begun):
            told.line(line)
        status = begun.wait()
        if status:
            told.end(status)
        return status
    finally:
        progress.wipe()
        children.end(begun, signal.SIGTERM)


def run_plain(home: str) -> int:
    """Runs `rt ci` over the checkout, shows all that it says, and returns its status."""
    begun = children.begin(["rt", "ci"], signal.SIGTERM, cwd=home)
    try:
        return begun.wait()
    finally:
        children.end(begun, signal.SIGTERM)


def name_of_kit() -> str:
    """Returns the line by which the kit names itself."""
    said = subprocess.run(["rt", "version"], stdin=subprocess.DEVNULL, stdout=subprocess.PIPE, check=False)
    return said.stdout.decode(errors="replace").strip()


def run_and_note(home: str, is_plain: bool) -> int:
    """Runs `rt ci`, and notes the proof where it passed. Returns the status to end with."""
    before = sources.look(home)
    told = sources.sum_of_sources(home, before)
    status = (run_plain if is_plain else run_told)(home)
    if status:
        return 1 if status < 0 else status
    if not os.path.isfile(f"{home}/{proof.PROGRAM}"):
        say(f"rt ci passed and left no program in {proof.PROGRAM}")
        return 1
    if sources.look(home) != before:
        say("a source was changed while it was proved, so the program is of no one text: call again")
        return 1
    proof.note_proof(home, told, name_of_kit())
    return 0


def is_proved(home: str) -> bool:
    """Returns whether the program in out/ is the proved one of the sources as they stand."""
    with contextlib.suppress(NoProgram):
        return proof.proved_program(home, sources.sum_of_sources(home)) is not None
    return False


def prove(home: str, is_plain: bool = False) -> int:
    """Proves the sources of the checkout and leaves the program in crates/caf/out/caf; returns the status to end with.

    Where that program is of these sources already, nothing is done. With `is_plain` rt ci is run all the same, and all
    that it says is shown: that is the gate.
    """
    if not sources.has_sources(home):
        say("there are no sources here to prove")
        return 1
    if not is_plain and is_proved(home):
        say(f"these sources are proved already, and {proof.PROGRAM} is of them")
        return 0
    if not shutil.which("rt"):
        say("nothing can be proved: the kit's command rt isn't on the path (README.md)")
        return 1
    try:
        with children.interruptible():
            status = run_and_note(home, is_plain)
    except NoProgram as why:
        say(str(why))
        return 1
    except children.Interrupted as interrupted:
        say("the proof was interrupted; the next call goes on from here")
        return 128 + interrupted.number
    if not status and not is_plain:
        say(f"proved; {proof.PROGRAM} is the program of these sources")
    return status
