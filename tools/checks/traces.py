"""Kept traces: the text of each example's run, in order and on workers, is judged a core run, and made again as it
was."""

import glob
import random
import re
from typing import Iterator, List, NamedTuple, Tuple

from checks.comparing import HOME, Checks, Done, call, folder, with_status, write
from checks.examples import calls_of
from checks.views import SHOWN

# How often a call is made on workers: its runs differ; and how many changes are made to the trace of each ordered one.
ON_WORKERS = 3
CHANGES = 8
# The statuses of a call that made a run.
_OF_A_RUN = (0, 4, 5, 6, 7, 8, 9)
_STEP = re.compile(rb"^[0-9]+ ([0-9]+) .*\n", re.MULTILINE)
_RACE = re.compile(rb"^race on .*\n", re.MULTILINE)
_CORE_RUN = b"core run\n"
# Words of a run that a trace has no use for, with the number of values behind each.
_OF_THE_RUN = {"--order": 1, "-w": 1, "--trace": 0, "--vars": 0, "--why": 0, "--every": 0}


class Kept(NamedTuple):
    """A run that is kept: its words but for its order and what it shows, the last of them FILE; and the words of its
    order."""

    words: List[str]
    order: List[str]


def check_traces(checks: Checks) -> None:
    """The runs of the examples and of the programs in shown/, and one front of each."""
    draw = random.Random(1539)
    with folder() as work:
        for kept in _kept(checks, work):
            _check_run(checks, work, kept, kept.order)
            _check_changes(checks, work, kept, draw)
            for _ in range(ON_WORKERS):
                _check_run(checks, work, kept, ["-w", "4"])


def _kept(checks: Checks, work: str) -> Iterator[Kept]:
    """Gives the calls of the examples that make a run, each once, and those of the programs that are shown."""
    calls = [it.words for path in sorted(glob.glob(f"{HOME}/examples/*.out")) for it in calls_of(path)]
    calls += [["run", *line.split()] for line in SHOWN.splitlines()]
    found: List[Kept] = []
    for words in calls:
        kept = _without_order(words)
        if words[0] == "run" and "--made" not in words and kept not in found:
            found.append(kept)
    for seed in (0, 3):
        source = write(f"{work}/made.f90", call([checks.program, "make", "1", "16"]).text)
        found.append(Kept(["-n", "4", source], ["--order", str(seed)]))
    return iter(found)


def _without_order(words: List[str]) -> Kept:
    """Parts the words of a run."""
    kept, order, left = [], [], words[1:]
    while left:
        word = left.pop(0)
        count = _OF_THE_RUN.get(word, 0)
        values, left = left[:count], left[count:]
        if word in ("--order", "-w"):
            order = [word, *values]
        elif word not in _OF_THE_RUN:
            kept.append(word)
    return Kept(kept, order)


def _check_run(checks: Checks, work: str, kept: Kept, order: List[str]) -> None:
    """The text of a run is judged, with its race, and replayed byte for byte; a front of it begins a run."""
    shown = " ".join([*order, *kept.words])
    run = call([checks.program, "run", "--trace", "--vars", *order, *kept.words])
    if run.status not in _OF_A_RUN:
        return
    trace = write(f"{work}/t", run.text)
    checks.same(f"the trace of run {shown}", _judged(run), with_status(_traced(checks, "judge", kept, trace)))
    again = _traced(checks, "replay", kept, trace, "--trace", "--vars")
    checks.same(f"a replay of run {shown}", with_status(run), with_status(again))
    _check_front(checks, work, kept, shown, run.text)


def _judged(run: Done) -> bytes:
    """Returns what `judge` has to say of a run, with the line of its status."""
    race = _RACE.search(run.text)
    return _CORE_RUN + (race.group() if race else b"") + (b"status 5\n" if race else b"status 0\n")


def _traced(checks: Checks, command: str, kept: Kept, trace: str, *options: str) -> Done:
    """Calls `judge` or `replay` with a trace."""
    return call([checks.program, command, *options, *kept.words[:-1], trace, kept.words[-1]])


def _check_front(checks: Checks, work: str, kept: Kept, shown: str, text: bytes) -> None:
    """Half of the steps of a run are judged a core run. Its replay has of each image the steps of the front first, and
    is judged a core run itself."""
    steps = list(_STEP.finditer(text))
    if not steps:
        return
    front = text[: steps[len(steps) // 2].start()]
    path = write(f"{work}/front", front)
    judged = _traced(checks, "judge", kept, path)
    checks.holds(f"half of run {shown}: {judged}", judged.text.startswith(_CORE_RUN) and judged.status in (0, 5))
    replay = _traced(checks, "replay", kept, path, "--trace")
    checks.holds(f"a replay of half of run {shown} goes on with it", _begins_with(replay.text, front))
    trace = write(f"{work}/replayed", replay.text)
    got = with_status(_traced(checks, "judge", kept, trace))
    checks.same(f"the trace of a replay of half of run {shown}", _judged(replay), got)


def _check_changes(checks: Checks, work: str, kept: Kept, draw: random.Random) -> None:
    """A byte of a step is changed behind its image. Its image has one next step alone, and this is another one: so the
    trace stops there being that of a run, or the line is none of a trace. Where it named teams a later line may be."""
    run = call([checks.program, "run", "--trace", *kept.order, *kept.words])
    steps = list(_STEP.finditer(run.text))
    for _ in range(CHANGES if steps and run.status in _OF_A_RUN else 0):
        number = draw.randrange(len(steps))
        step = steps[number]
        places = range(step.end(1) + 1, step.end() - 1)
        place = draw.choice([it for it in places if run.text[it] in b"0123456789"] if draw.randrange(4) else places)
        byte = draw.choice([it for it in b"0123456789" if it != run.text[place]])
        text = b"%s%c%s" % (run.text[:place], byte, run.text[place + 1 :])
        got = _traced(checks, "judge", kept, write(f"{work}/changed", text))
        line = text[:place].count(b"\n") + 1
        bad = re.fullmatch(rb"bad trace at line ([0-9]+)\n", got.text)
        is_bad = bad is not None and got.status == 15 and int(bad[1]) >= line
        is_none = got.text == b"not a run at step %d\n" % (number + 1) and got.status == 14
        shown = text[step.start() : step.end() - 1].decode("latin-1")
        checks.holds(f"changed in run {' '.join([*kept.order, *kept.words])}: {shown}: {got}", is_bad or is_none)


def _begins_with(text: bytes, front: bytes) -> bool:
    """Tells whether each image has the steps of a front before all others."""
    given, made = _of_images(front), _of_images(text)
    return all([line for it, line in made if it == image][: len(lines)] == lines for image, lines in _lists(given))


def _of_images(text: bytes) -> List[Tuple[bytes, bytes]]:
    """Returns the steps of a text, each with its image."""
    return [(it.group(1), it.group()) for it in _STEP.finditer(text)]


def _lists(steps: List[Tuple[bytes, bytes]]) -> Iterator[Tuple[bytes, List[bytes]]]:
    """Gives each image that has steps with these."""
    for image in sorted({it for it, _ in steps}):
        yield image, [line for it, line in steps if it == image]
