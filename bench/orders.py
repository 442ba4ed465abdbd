#!/usr/bin/env python3
"""Whether what workers write is what some order writes: bench/orders.sh [RUNS] [EXAMPLE..]

Each call of the examples that runs a program (examples/NAME.out; those of EXAMPLE alone, where one is named) is made
RUNS times (200) on one, two, three and four workers. Each text, with its status, must be one that a run in an order
has: the orders of SEEDs from 0 on are made until all texts are found, 4,000 at most. Of a run with a race this says
only that some order has one: at which step it stands, and what is printed before, has no end of texts. A call that
takes more than 20 seconds hangs. The last line is 'N calls, M texts of no order, K that hang', and the status is 0
where both are 0. The program is crates/caf/out/caf, or that of CAF_PROGRAM.
"""

import glob
import os
import re
import subprocess
import sys
from typing import Dict, List, Optional, Sequence

HOME = os.path.dirname(os.path.dirname(os.path.realpath(__file__)))
PROGRAM = os.environ.get("CAF_PROGRAM") or f"{HOME}/crates/caf/out/caf"
PATIENCE = 20.0
SEEDS = 4000
MOST_WORKERS = 4
RACED = 5
# A call of an example that runs it; a trace tells the order of all steps, which has no end of texts.
_CALL = re.compile(r"# \./caf run (.* )?(examples/[a-z-]+\.f90): status [0-9]+")


def text_of(words: Sequence[str]) -> Optional[str]:
    """What a call writes, with its status, of a run with a race the status alone; None where it hangs."""
    try:
        ran = subprocess.run(
            [PROGRAM, "run", *words],
            cwd=HOME,
            stdin=subprocess.DEVNULL,
            stdout=subprocess.PIPE,
            timeout=PATIENCE,
            check=False,
        )
    except subprocess.TimeoutExpired:
        return None
    text = "" if ran.returncode == RACED else ran.stdout.decode("utf-8", "replace")
    return f"{text}status {ran.returncode}"


def calls_of(names: Sequence[str]) -> List[List[str]]:
    """The words of the calls, each once, without an order and without workers."""
    found: Dict[str, List[str]] = {}
    for path in sorted(glob.glob(f"{HOME}/examples/*.out")):
        if names and os.path.basename(path)[:-4] not in names:
            continue
        with open(path, encoding="utf-8") as file:
            for line in file:
                call = _CALL.fullmatch(line.rstrip("\n"))
                if call and "--trace" not in line and "--made" not in line:
                    options = re.sub(r"(--order|-w) [0-9]+ ?", "", call.group(1) or "").split()
                    found.setdefault(" ".join(options + [call.group(2)]), [*options, call.group(2)])
    return list(found.values())


class Call:
    """What runs of a call on workers wrote."""

    def __init__(self, words: Sequence[str]) -> None:
        self.words = words
        self.seen: Dict[str, int] = {}
        self.hung = 0

    def run(self, runs: int) -> None:
        """Runs it so many times on each number of workers; no more on one on which it hangs."""
        for workers in range(1, MOST_WORKERS + 1):
            for _ in range(runs):
                text = text_of(["-w", str(workers), *self.words])
                if text is None:
                    self.hung += 1
                    print(f"-w {workers} {' '.join(self.words)}: hangs", flush=True)
                    break
                self.seen.setdefault(text, workers)

    def of_no_order(self) -> List[str]:
        """The texts that no order wrote, and tells how many orders were made."""
        left = dict(self.seen)
        seed = 0
        while left and seed < SEEDS:
            left.pop(text_of(["--order", str(seed), *self.words]) or "", None)
            seed += 1
        said = f"{len(self.seen)} texts, found in {seed} orders"
        print(f"{' '.join(self.words)}: {said}, {len(left)} in none", flush=True)
        for text in left:
            print(f"-w {left[text]} {' '.join(self.words)} wrote, as no order does:\n{text}")
        return list(left)


def main() -> int:
    """Makes the calls, and tells what they wrote."""
    given = sys.argv[1:]
    runs = int(given.pop(0)) if given and given[0].isdigit() else 200
    calls = [Call(words) for words in calls_of(given)]
    lost = 0
    for call in calls:
        call.run(runs)
        lost += len(call.of_no_order())
    hung = sum(call.hung for call in calls)
    print(f"{len(calls)} calls, {lost} texts of no order, {hung} that hang")
    return 0 if calls and lost == 0 and hung == 0 else 1


if __name__ == "__main__":
    sys.exit(main())
