"""The page and the drawing of a run that `caf picture` writes.

The page is page.html with its places filled: it stands alone, and asks nothing of the net.
"""

import os
import re
from typing import Dict, List, Sequence

from drawing import drawing, numbers, race_steps
from packed_clocks import packed
from places import LANE, LEFT, ROW, TOP, escaped
from segments import segments_of
from trace import Run
from views import Seen
from waited_for import Reason, circle, reasons
from ways import images

_PAGE = os.path.join(os.path.dirname(os.path.abspath(__file__)), "page.html")

# Of more steps the drawing is short, so that the page stays below 2 MB for 10,000 steps.
MOST_WHOLE = 3000


def svg(seen: Seen) -> str:
    """Returns the drawing alone."""
    return drawing(seen.run, segments_of(seen.run), reasons(seen.run, seen.source)) + "\n"


def page(seen: Seen) -> str:
    """Returns the page."""
    with open(_PAGE, encoding="latin-1") as file:
        text = file.read()
    segments = segments_of(seen.run)
    why = reasons(seen.run, seen.source)
    places = {
        "TITLE": escaped(seen.title),
        "END": _end(seen.run, why),
        "SOURCE": _source(seen),
        "SEGMENTS": "[" + ",".join(numbers(it) for it in packed(segments.all)) + "]",
        "OF_STEP": numbers(segments.of_step),
        "IMAGES": str(seen.run.images),
        "LAYOUT": numbers([LEFT + 16, LANE, TOP + 22, ROW]),
        "DRAWING": drawing(seen.run, segments, why, len(seen.run.steps) > MOST_WHOLE),
    }
    return re.sub(r"\{\{([A-Z_]+)\}\}", lambda it: places[it[1]], text)


def _end(run: Run, why: Sequence[Reason]) -> str:
    """Returns how the run ended; of a race each access leads to its step, of a stuck run each image to its last one."""
    lines = [f"<p>{escaped(it)}</p>" for it in run.end] or ["<p>finished</p>"]
    steps = race_steps(run)
    if run.race and len(steps) == 2:
        names = [f"image {it.image}, step {it.number}, line {it.line}" for it in (run.race.first, run.race.second)]
        links = " and ".join(f'<a href="#s{at}">{name}</a>' for at, name in zip(_of_race(run, steps), names))
        what = f"Race on cell {run.race.cell} of {escaped(run.race.coarray)} of image {run.race.owner}"
        lines = [f"<p><b>{what}:</b> {links}. Nothing orders their two segments.</p>"]
    elif why:
        lines = [f"<p><b>Stuck:</b> none of these images can go on{_circle(why)}.</p>", f"<ul>{_waits(run, why)}</ul>"]
    return f'<div class="end{" wrong" if run.end else ""}">{"".join(lines)}</div>'


def _waits(run: Run, why: Sequence[Reason]) -> str:
    """Returns who waits for what; images that wait at one line for one thing stand together."""
    last = {it.image: number for number, it in enumerate(run.steps, 1)}
    told: Dict[str, List[int]] = {}
    for it in why:
        told.setdefault(f"line {it.wait.line}, waits for {escaped(it.text)}", []).append(it.wait.image)
    lines = []
    for text, who in told.items():
        name = images(who)
        if who[0] in last:
            name = f'<a href="#s{last[who[0]]}">{name}</a>'
        lines.append(f"<li>{name}: {text}</li>")
    return "".join(lines)


def _circle(why: Sequence[Reason]) -> str:
    """Returns which images wait for each other, where there are such ones."""
    found = circle(why)
    if not found:
        return ""
    last = f"and image {found[-1]} for image {found[0]}"
    return f"; of images {', '.join(map(str, found))} each waits for the next one, {last}"


def _of_race(run: Run, steps: List[int]) -> List[int]:
    """Returns the two steps of the race in its order, the first access first."""
    assert run.race is not None
    first = run.steps[steps[0] - 1]
    return steps if (first.image, first.number) == run.race.first[:2] else steps[::-1]


def _source(seen: Seen) -> str:
    """Returns the lines of the source, those of steps as buttons; those of the race are marked."""
    counts: Dict[int, int] = {}
    for step in seen.run.steps:
        counts[step.line] = counts.get(step.line, 0) + 1
    race = [it.line for it in (seen.run.race.first, seen.run.race.second)] if seen.run.race else []
    waits = [it.line for it in seen.run.waits]
    lines = []
    for number, text in enumerate(seen.source, 1):
        style = ' class="raced"' if number in race + waits else ""
        code = f"<code>{escaped(text)}</code>"
        if number in counts:
            code = f'<button title="{counts[number]} steps">{code}</button>'
        lines.append(f'<li id="L{number}"{style}>{code}</li>')
    return "".join(lines) or "<li>The source isn't known: this is a trace.</li>"


