#!/usr/bin/env python3
"""What workers cost and gain, each figure as a ratio in one run: bench/workers.sh [-t TURNS] [FIGURE..]

The program is crates/caf/out/caf, or that of CAF_PROGRAM; it is called by itself, without the launcher. A figure is the
time of one way to run a program divided by that of another one: whole calls, by turns, TURNS times each (5), and the
best time of each counts; beside it stand the ratio of the medians and that of the least processor times, of all threads
together. Each has its target and OK or NOT; the last line counts the OKs, and the status is 0 where all are. Without a
FIGURE all of them are measured. `-l` lists them.
"""

import argparse
import os
import re
import signal
import statistics
import subprocess
import sys
import tempfile
import time
from typing import Callable, Dict, List, NamedTuple, Optional, Sequence, Tuple

HERE = os.path.dirname(os.path.realpath(__file__))
PROGRAM = os.environ.get("CAF_PROGRAM") or f"{os.path.dirname(HERE)}/crates/caf/out/caf"
ORDER = ("--order", "0")
# A call that takes longer hangs.
PATIENCE = 60.0
_TRACE_LINE = re.compile(r"^[0-9]+ ([0-9]+) [0-9]+ (?:own|board|m[0-9]+) .* > ", re.MULTILINE)


def on(workers: int) -> Tuple[str, str]:
    """The words of a run on so many workers."""
    return "-w", str(workers)


class Call(NamedTuple):
    """How a call ended: its status, None where it was ended since it hung, its seconds, those of all its threads on
    processors, and its text."""

    status: Optional[int]
    seconds: float
    spent: float
    text: str


class Case(NamedTuple):
    """A program of bench/ or bench/programs, on so many images, and what comes behind `turns = ` or `rounds = ` in it,
    where it has one of them."""

    program: str
    images: int
    turns: int


class Ratio(NamedTuple):
    """The time of one way by that of another one, and what it should be at most or, of a gain, at least."""

    case: Case
    way: Sequence[str]
    by: Sequence[str]
    target: float
    is_gain: bool = False


class Bench:
    """The calls, with the sources in a folder of their own, and how many of the figures are met."""

    def __init__(self, folder: str, repeats: int) -> None:
        self.folder, self.repeats = folder, repeats
        self.met = self.told = 0
        self._speed = 0.0

    def source(self, case: Case) -> str:
        """Writes the source of a case, and returns its name."""
        name = f"{case.program}-{case.turns}.f90"
        if not os.path.exists(f"{self.folder}/{name}"):
            found = [f"{HERE}/{it}{case.program}.f90" for it in ("programs/", "")]
            with open(next(it for it in found if os.path.exists(it)), encoding="utf-8") as file:
                text = re.sub(r"\b(turns|rounds) = [0-9]+", rf"\1 = {case.turns}", file.read(), count=1)
            with open(f"{self.folder}/{name}", "w", encoding="utf-8") as file:
                file.write(text)
        return name

    def call(self, case: Case, words: Sequence[str]) -> Call:
        """Runs a case with these words."""
        command = [PROGRAM, "run", "-n", str(case.images), "--steps", "100000000", *words, self.source(case)]
        with tempfile.TemporaryFile(dir=self.folder) as out:
            begun = time.perf_counter()
            child = subprocess.Popen(command, cwd=self.folder, stdin=subprocess.DEVNULL, stdout=out)
            signal.signal(signal.SIGALRM, lambda *_: child.kill())
            signal.setitimer(signal.ITIMER_REAL, PATIENCE)
            _, state, used = os.wait4(child.pid, 0)
            seconds = time.perf_counter() - begun
            signal.setitimer(signal.ITIMER_REAL, 0)
            child.returncode = os.waitstatus_to_exitcode(state)
            status = None if seconds >= PATIENCE else child.returncode
            out.seek(0)
            return Call(status, seconds, used.ru_utime + used.ru_stime, out.read().decode("utf-8", "replace"))

    def calls(self, case: Case, ways: Sequence[Sequence[str]]) -> Optional[List[List[Call]]]:
        """The calls of each way, by turns; None where one fails."""
        found: List[List[Call]] = [[] for _ in ways]
        for turn in range(self.repeats):
            for k in range(len(ways))[:: 1 if turn % 2 == 0 else -1]:
                made = self.call(case, ways[k])
                if made.status != 0:
                    print(f"    {' '.join(ways[k])}: {why(made)}")
                    return None
                found[k].append(made)
        return found

    def turns_of(self, seconds: float) -> int:
        """So many turns of the loops that compute take an image so long, in an order."""
        if not self._speed:
            few, many = Case("compute", 1, 100), Case("compute", 1, 1100)
            spent = [min(self.call(it, ORDER).seconds for _ in range(3)) for it in (few, many)]
            self._speed = 1000 / max(spent[1] - spent[0], 1e-6)
        return max(1, round(self._speed * seconds))

    def tell(self, head: str, said: str, is_met: bool) -> None:
        """Prints the line of a figure, and counts it."""
        self.told += 1
        self.met += is_met
        print(f"{head:34} {said} {'OK' if is_met else 'NOT'}", flush=True)

    def ratios(self, found: Sequence[Ratio]) -> None:
        """Measures ratios that are of one case."""
        case = found[0].case
        ways = list(dict.fromkeys(tuple(way) for it in found for way in (it.way, it.by)))
        calls = self.calls(case, ways)
        for it in found:
            head = f"{case.program} {case.images}, {' '.join(it.way)} by {' '.join(it.by)}:"
            if calls is None:
                self.tell(head, "no figure", False)
                continue
            both = [calls[ways.index(tuple(words))] for words in (it.way, it.by)]
            one, other = ([made.seconds for made in way] for way in both)
            spent = [min(made.spent for made in way) for way in both]
            best, usual = (f(one) / f(other) for f in (min, statistics.median))
            if it.is_gain:
                best, usual = 1 / best, 1 / usual
            goal = f"{'at least' if it.is_gain else 'at most'} {it.target}"
            said = f"{min(one):.3f} s, {min(other):.3f} s: {best:.2f} ({usual:.2f} by medians), {goal}"
            said += f"; {spent[0] / max(spent[1], 1e-6):.2f} of processor time;"
            self.tell(head, said, best >= it.target if it.is_gain else best <= it.target)


def why(made: Call) -> str:
    """Why a call has no figure."""
    end = made.text.strip().splitlines()[-1:] or [""]
    return "hangs" if made.status is None else f"status {made.status}: {end[0][:80]}"


def meet4(bench: Bench) -> None:
    """4 images that only meet, 20,000 rounds: four workers at most 1.0 x one worker"""
    bench.ratios([Ratio(Case("meet", 4, 20000), on(4), on(1), 1.0)])


def meet(bench: Bench) -> None:
    """16, 64 and 256 images that only meet: four workers at most 2 x an order"""
    for images, turns in ((16, 4000), (64, 1000), (256, 250)):
        bench.ratios([Ratio(Case("meet", images, turns), on(4), ORDER, 2.0)])


def compute(bench: Bench) -> None:
    """4 images that compute: four workers at least 3.2 x as fast as one"""
    bench.ratios([Ratio(Case("compute", 4, bench.turns_of(0.4)), on(4), on(1), 3.2, True)])


def lock(bench: Bench) -> None:
    """8 images that fight for one lock: four and eight workers at most 1.2 x one worker"""
    case = Case("lock", 8, 2500)
    bench.ratios([Ratio(case, on(4), on(1), 1.2), Ratio(case, on(8), on(1), 1.2)])


def programs(bench: Bench) -> None:
    """stencil, product, counter, a halo ring, an event pipeline, atomics, collectives: at most 1.3 x an order"""
    cases = [Case("stencil", 8, 400), Case("product", 8, 0), Case("counter", 8, 1000), Case("halo", 8, 1500)]
    cases += [Case("events", 8, 2000), Case("atomics", 8, 3000), Case("collectives", 8, 1000)]
    for case in cases:
        bench.ratios([Ratio(case, on(4), ORDER, 1.3)])


def stretches(bench: Bench) -> None:
    """4 images that compute 10 ms between barriers: four workers at least 3 x as fast as an order"""
    bench.ratios([Ratio(Case("stretches", 4, bench.turns_of(0.01)), on(4), ORDER, 3.0, True)])


def flag(bench: Bench) -> None:
    """8 images, 7 of which wait for a flag in a loop: status 0, and at most 2,000 steps a second of waiting"""
    case = Case("flag", 8, bench.turns_of(1.0))
    for workers in (1, 2, 4):
        made = bench.call(case, [*on(workers), "--trace"])
        head = f"flag 8, -w {workers}:"
        if made.status != 0:
            bench.tell(head, why(made), False)
            continue
        steps = sum(image != "1" for image in _TRACE_LINE.findall(made.text))
        rate = steps / made.seconds
        said = f"{made.seconds:.3f} s ({made.spent:.3f} s of processors), {steps} steps of those that wait: "
        said += f"{rate:.0f} a second, at most 2000"
        bench.tell(head, said, rate <= 2000)


FIGURES: Dict[str, Callable[[Bench], None]] = {
    it.__name__: it for it in (meet4, meet, compute, lock, programs, stretches, flag)
}


def main() -> int:
    """Measures the figures that the words name."""
    parser = argparse.ArgumentParser(prog="bench/workers.sh", description="What workers cost and gain, as ratios.")
    parser.add_argument("-t", metavar="TURNS", type=int, default=5, help="so many turns (5)")
    parser.add_argument("-l", action="store_true", help="list the figures")
    parser.add_argument("figures", metavar="FIGURE", nargs="*", help="all where none is named")
    said = parser.parse_args()
    unknown = [it for it in said.figures if it not in FIGURES]
    if unknown or said.t < 1:
        parser.error(f"no figure: {' '.join(unknown)}" if unknown else "there is a turn at least")
    chosen = said.figures or list(FIGURES)
    if said.l:
        for name in chosen:
            print(f"{name}: {FIGURES[name].__doc__}")
        return 0
    with tempfile.TemporaryDirectory() as folder:
        bench = Bench(folder, said.t)
        for name in chosen:
            print(f"{name}: {FIGURES[name].__doc__}", flush=True)
            FIGURES[name](bench)
    print(f"{bench.met} of {bench.told} figures are met")
    return 0 if bench.met == bench.told else 1


if __name__ == "__main__":
    sys.exit(main())
