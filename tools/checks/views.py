"""What ./caf show and ./caf picture make of the examples and of the programs in shown/, against the trace of the
program itself."""

import re
from typing import Dict, List

from checks.comparing import LAUNCHER, Checks, call
from checks.explored import check_explored
from tests.test_picture import lines_told, read_page, steps_of
from texts import text_of

# Runs that are shown: with a race, stuck, with events, with a failed image, with teams, of 8 and of 16 images.
SHOWN = """\
-n 4 --order 0 examples/halo-race.f90
-n 2 --order 0 examples/deadlock.f90
-n 3 --order 5 examples/pipeline.f90
-n 4 --order 0 --fail 3@2 examples/survivors.f90
-n 4 --order 3 examples/teams.f90
-n 4 --order 0 examples/flag.f90
-n 4 --order 2 examples/jobs.f90
-n 4 --order 0 examples/no-such-image.f90
-n 8 --order 0 examples/exchange.f90
-n 16 --order 1 examples/tree-sum.f90
-n 2 --order 0 --made 1 4
-n 12 --order 3 tools/checks/shown/halo-grid.f90
-n 9 --order 2 tools/checks/shown/prefix.f90
-n 16 --order 5 tools/checks/shown/ring.f90
-n 6 --order 4 tools/checks/shown/events.f90
-n 4 --order 2 tools/checks/shown/lock-queue.f90
-n 8 --order 3 tools/checks/shown/subteams.f90
-n 5 --order 1 tools/checks/shown/critical.f90
-n 3 --order 2 tools/checks/shown/atomic-flag.f90
-n 7 --order 6 tools/checks/shown/collectives.f90
-n 4 --order 0 tools/checks/shown/without-image-2.f90
-n 16 --order 3 tools/checks/shown/one-cell.f90
"""
# Runs that are stuck, and what is told of it by show and by picture, each in words that follow each other.
STUCK: Dict[str, List[str]] = {
    "-n 2 --order 0 examples/deadlock.f90": [
        "waits: lock right:0[1], held by image 2 since line 11",
        "waits: lock left:0[1], held by image 1 since line 8",
    ],
    "-n 3 --order 0 tools/checks/shown/crosswise.f90": [
        "waits: lock fork:0[2], held by image 2 since line 8",
        "waits: lock fork:0[3], held by image 3 since line 8",
        "waits: lock fork:0[1], held by image 1 since line 8",
    ],
    "-n 4 --order 3 tools/checks/shown/images-unmatched.f90": [
        "waits: SYNC IMAGES, images 2 to 4 haven't come",
        *["waits: SYNC r1, image 1 hasn't come"] * 3,
    ],
    "-n 4 --order 0 tools/checks/shown/few-posts.f90": [
        "waits: event ready, 3 of 16 posts",
        *["waits: SYNC r1, image 1 hasn't come"] * 3,
    ],
}
MOST_COLUMNS = 80


def check_views(checks: Checks) -> None:
    """Each step stands in its image's column and once in the page, and both say for whom an image waits; and what
    explore does."""
    for line in [*SHOWN.splitlines(), *STUCK]:
        words = line.split()
        trace = text_of(call([checks.program, "run", "--trace", *words]).text)
        _check_columns(checks, words, steps_of(trace))
        got = call([LAUNCHER, "picture", *words])
        read = read_page(text_of(got.text))
        checks.same(f"./caf picture {line}: its steps", "\n".join(steps_of(trace)), "\n".join(lines_told(read)))
        checks.same(f"./caf picture {line}: open elements, and the status", "[] 0", f"{read.open} {got.status}")
    for line, wanted in STUCK.items():
        _check_stuck(checks, line, wanted)
    check_explored(checks)


def _check_columns(checks: Checks, words: List[str], steps: List[str]) -> None:
    """In each column stand the numbers of its image's steps with their lines, in their order."""
    got = call([LAUNCHER, "show", *words])
    lines = [re.split("[|!]", it) for it in text_of(got.text).split("\n")[2:] if re.match(" *[0-9]+[|!]", it)]
    images = int(words[words.index("-n") + 1])
    wanted: Dict[int, List[str]] = {it: [] for it in range(1, images + 1)}
    for step in steps:
        own = wanted[int(step.split(" ")[1])]
        own.append(f"{len(own) + 1} {step.split(' ')[2]}")
    for image, own in wanted.items():
        cells = (re.match(" *([0-9]+) +([0-9]+) ", it[image]) for it in lines if len(it) > image)
        checks.same(f"./caf show {words}: image {image}", f"{own}", f"{[f'{it[1]} {it[2]}' for it in cells if it]}")
    if images <= 4:
        widest = max(len(it) for it in text_of(got.text).split("\n") if re.match(" *[0-9]*[|!]", it))
        checks.holds(f"./caf show {words} has {widest} columns", widest <= MOST_COLUMNS)


def _check_stuck(checks: Checks, line: str, wanted: List[str]) -> None:
    """The last row of the columns says for whom each image waits, and so does the page."""
    text = text_of(call([LAUNCHER, "show", *line.split()]).text)
    last = [it for it in re.split("\n(?= *![^\n]*waits: )", text, 1)[-1].split("\n") if "!" in it]
    cells = [" ".join(" ".join(it.split("!")[at].split()) for it in last) for at in range(1, len(wanted) + 1)]
    told = [re.sub(" (\\[[0-9]+\\])", "\\1", it[it.find("waits: ") :].strip()) for it in cells]
    checks.same(f"./caf show {line}", "\n".join(wanted), "\n".join(told))
    page = text_of(call([LAUNCHER, "picture", *line.split()]).text)
    missing = [it for it in wanted if it.replace("waits: ", "waits for ") + "</li>" not in page]
    checks.same(f"./caf picture {line}: what isn't told of", "[]", str(missing))
