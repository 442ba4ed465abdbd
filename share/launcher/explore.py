"""Many runs of one program, in many orders or with one failure each, and how they ended: what `caf explore` prints.

Without `--order` and `-w` four of five runs are ordered, by the seeds from 0 on, and the others are on 1 to 4 workers.
It claims nothing of an order that it hasn't tried.
"""

import shlex
from typing import Callable, Dict, Iterable, List, NamedTuple, Sequence, Set, Tuple

from captured import Captured, run_captured
from children import Interrupted, interruptible
from ending import DONE, NO_PROGRAM, end_by
from many import Job, Runs, processors, run_many
from progress import Progress
from table import Table, told
from tables import read_tables, tables_path
from texts import answer
from trace import read_run
from view_words import ViewWords
from views import NO_RUN, Call, find, tell_closing, tell_no_run
from ways import Way, ranges, way_of
from words import GREATEST_SEED

RUNS = 1000
MOST_WORKERS = 4
# One of so many runs is on workers.
ON_WORKERS = 5
# Which texts are kept for others that are the same, and how many.
SHORT = 4096
MOST_KEPT = 1000


class Trial(NamedTuple):
    """A run that is tried: the words of its own beside those of the call; whether it is the same run each time."""

    words: List[str]
    is_ordered: bool


class Plan(NamedTuple):
    """All runs that are tried: in words; how many, and what gives each one by its number from 0; a closing line; and
    the image and the step of each one's failure, where they have failures."""

    told: str
    count: int
    trial: Callable[[int], Trial]
    closing: str
    failures: Sequence[Tuple[int, int]] = ()


class Found:
    """The runs of one way to end: how many, the first one in the order of the plan, preferring one that can be had
    again, and how many different texts."""

    def __init__(self) -> None:
        self.ordered = 0
        self.on_workers = 0
        self.firsts: Dict[bool, int] = {}
        self.failures: List[Tuple[int, int]] = []
        self.texts: Set[int] = set()

    def add(self, number: int, trial: Trial, printed: int) -> None:
        """Adds a run, with a number of what its images printed."""
        self.ordered += trial.is_ordered
        self.on_workers += not trial.is_ordered
        self.firsts[trial.is_ordered] = min(number, self.firsts.get(trial.is_ordered, number))
        self.texts.add(printed)

    def first(self) -> int:
        """Returns the number of the run that shows it."""
        return self.firsts.get(True, self.firsts.get(False, 0))


class Explored:
    """What was found so far: the ways to end, and the first run that ended with a status other than 0."""

    def __init__(self, plan: Plan) -> None:
        self.plan = plan
        self.done = 0
        self.found: Dict[Way, Found] = {}
        self.worst = (plan.count, DONE)
        self.progress = Progress()
        self._read: Dict[Captured, Tuple[Way, int]] = {}

    def take(self, job: Job, captured: Captured) -> None:
        """Takes the end of a run."""
        self.done += 1
        way, printed = self._read.get(captured) or self._read_anew(captured)
        found = self.found.setdefault(way, Found())
        found.add(job.number, self.plan.trial(job.number), printed)
        if self.plan.failures:
            found.failures.append(self.plan.failures[job.number])
        if captured.status != DONE:
            self.worst = min(self.worst, (job.number, captured.status))

    def _read_anew(self, captured: Captured) -> Tuple[Way, int]:
        """Reads how a run ended, and keeps it for others that end alike, of a short text."""
        run = read_run(captured.text)
        read = way_of(captured.status, run), hash(tuple(run.printed))
        if len(captured.text) <= SHORT and len(self._read) < MOST_KEPT:
            self._read[captured] = read
        return read

    def tick(self) -> None:
        """Tells a terminal how far the runs are."""
        if self.progress.is_terminal:
            ends = len(self.found)
            self.progress.change(f"{self.done} of {self.plan.count} runs, {ends} end{'s' * (ends != 1)}")
            self.progress.tick()


def explore(call: Call) -> int:
    """Makes the runs, prints how they ended, and returns 0 where each has ended with status 0, else the status of the
    first one that hasn't."""
    program = find(call)
    if program is None:
        return NO_PROGRAM
    base = _base(call.words)
    words = _without_orders(call.asked.words_for_program())
    fails = "--fails" in call.words.own
    first_words = [*(["--trace"] if fails else []), *base]
    first = run_captured(program.path, _with(words, first_words), call.asked.standard_input())
    if first.status in NO_RUN or first.status > 128:
        return tell_no_run(call, first)
    plan = _plan(call.words, base, first)
    explored = Explored(plan)
    runs = Runs(program.path, call.asked.standard_input, processors(), explored.take, explored.tick)
    jobs = (Job(number, _with(words, plan.trial(number).words)) for number in range(plan.count))
    if not fails:
        explored.take(next(jobs), first)
    signal_number = _run(runs, jobs)
    explored.progress.wipe()
    answer(told(_table(call, explored)))
    if signal_number:
        end_by(signal_number)
    tell_closing(call, program, explored.worst[1])
    return explored.worst[1]


def _run(runs: Runs, jobs: Iterable[Job]) -> int:
    """Makes the runs, and returns the number of the signal that ended them before, or 0."""
    try:
        with interruptible():
            run_many(runs, jobs)
    except Interrupted as it:
        return it.number
    return 0


def _base(words: ViewWords) -> List[str]:
    """Returns the words of the first run: its order, or its workers."""
    for option in ("--order", "-w"):
        if words.has_run_option(option):
            return [option, words.run[words.run.index(option) + 1]]
    return ["--order", "0"]


def _without_orders(words: List[str]) -> List[str]:
    """Returns the words of a run without its order and its workers."""
    for option in ("--order", "-w"):
        if option in words[:-1]:
            place = words.index(option)
            return words[:place] + words[place + 2 :]
    return words


def _with(words: List[str], more: List[str]) -> List[str]:
    """Returns the words of a run with more of them behind its options."""
    place = words.index("--made") if "--made" in words[:-1] else len(words) - 1
    return [*words[:place], *more, *words[place:]]


def _plan(words: ViewWords, base: List[str], first: Captured) -> Plan:
    """Returns the runs that are tried."""
    most = int(words.own.get("--runs", str(RUNS)))
    if "--fails" in words.own:
        return _failures(base, first, most if "--runs" in words.own else 0)
    if base[0] == "-w":
        closing = "On workers no number shows a run again, and other runs may end otherwise: nothing is said of them."
        return Plan(f"{most} runs on {base[1]} workers", most, lambda _: Trial(base, False), closing)
    start = int(base[1])
    on_workers = 0 if words.has_run_option("--order") else most // ON_WORKERS
    seeds = range(start, min(start + most - on_workers, GREATEST_SEED + 1))

    def trial(number: int) -> Trial:
        if number < len(seeds):
            return Trial(["--order", str(seeds[number])], True)
        return Trial(["-w", str(1 + (number - len(seeds)) % MOST_WORKERS)], False)

    said = f"{len(seeds)} orders, SEED {seeds[0]} to {seeds[-1]}" if len(seeds) > 1 else f"1 order, SEED {start}"
    if on_workers:
        said += f", and {on_workers} run{'s' * (on_workers > 1)} on 1 to {MOST_WORKERS} workers"
    closing = "Other orders may end otherwise: nothing is said of them."
    return Plan(said, len(seeds) + on_workers, trial, closing)


def _failures(base: List[str], first: Captured, most: int) -> Plan:
    """Returns a run for each step of each image, or some that lie evenly among these where there may be so many at
    most."""
    steps = [(it.image, it.number) for it in read_run(first.text).steps]
    chosen = sorted(steps)
    if most and most < len(chosen):
        chosen = [chosen[at * len(chosen) // most] for at in range(most)]
    is_ordered = base[0] == "--order"

    def trial(number: int) -> Trial:
        image, step = chosen[number]
        return Trial([*base, "--fail", f"{image}@{step}"], is_ordered)

    order = f"in order {base[1]}" if is_ordered else f"on {base[1]} workers"
    said = f"{len(chosen)} of the {len(steps)} single failures {order}"
    if len(chosen) == len(steps):
        said = f"each of the {len(steps)} single failures {order}"
    closing = "Other orders, and two failures at once, may end otherwise: nothing is said of them."
    return Plan(said, len(chosen), trial, closing, chosen)


def _in_words(failures: Sequence[Tuple[int, int]]) -> str:
    """Returns failures as `1@2-5 2@3`: of image 1 in its steps 2 to 5, of image 2 in step 3."""
    steps: Dict[int, List[int]] = {}
    for image, step in sorted(failures):
        steps.setdefault(image, []).append(step)
    return " ".join(f"{image}@{','.join(ranges(own, '-'))}" for image, own in steps.items())


def _table(call: Call, explored: Explored) -> Table:
    """Returns what is printed: the ways to end, the most frequent one first; of runs with failures those that haven't
    finished stand before the others."""
    plan = explored.plan
    ways = sorted(explored.found.items(), key=lambda it: (-it[1].ordered - it[1].on_workers, it[1].first()))
    if plan.failures:
        ways.sort(key=lambda it: it[0].status == DONE)
    words = _without_orders(call.words.run)
    again = []
    for _, found in ways:
        run = [call.caller.called, *_with(words, plan.trial(found.first()).words)]
        again.append(" ".join(shlex.quote(it) for it in run))
    counts = [(it.ordered, it.on_workers, len(it.texts)) for _, it in ways]
    failures = [_in_words(it.failures) for _, it in ways]
    counted = "failures" if plan.failures else "orders"
    names = read_tables(tables_path(call.caller.home))
    told_ways = [it for it, _ in ways]
    made, wanted = explored.done, plan.count
    return Table(plan.told, made, wanted, plan.closing, counted, told_ways, counts, failures, again, names)
