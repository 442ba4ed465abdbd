"""How a run ended, apart from what depends on the order alone: by this the runs of `explore` are grouped."""

import re
from typing import Dict, List, NamedTuple, Tuple

from ending import DONE
from trace import Run

_STOPPED = re.compile("error stop image [0-9]+ line ([0-9]+) code (-?[0-9]+)")
_FAULT = re.compile("fault image [0-9]+ line ([0-9]+) ([^ ]+)")
_CLASH = re.compile("clash image [0-9]+ line ([0-9]+) against image [0-9]+ line ([0-9]+)")
_LIMIT = re.compile("limit image [0-9]+ line ([0-9]+) ([^ ]+) [0-9]+")


class Way(NamedTuple):
    """A way to end: the status, what happened, and, where the run has finished, what the images printed."""

    status: int
    what: str
    printed: Tuple[str, ...] = ()


def way_of(status: int, run: Run) -> Way:
    """Returns the way in which a run ended with this status. Of a race it has the coarray and the two lines, of a stuck
    run who waits where, of a fault, an error stop, a clash or a limit the lines and the kind, but no image."""
    if status == DONE:
        return Way(DONE, "", tuple(run.printed + run.variables))
    return Way(status, _what(run))


def _what(run: Run) -> str:
    if run.race:
        lines = sorted((run.race.first.line, run.race.second.line))
        where = f"line {lines[0]} with itself" if lines[0] == lines[1] else f"lines {lines[0]} and {lines[1]}"
        return f"{run.race.coarray}, {where}"
    if run.waits:
        return _waits(run)
    return "; ".join(_line(it) for it in run.end if not it.startswith("summary "))


def _waits(run: Run) -> str:
    """Returns who waits where; images that wait at one line for one thing stand together."""
    places: Dict[Tuple[int, str], List[int]] = {}
    for wait in run.waits:
        places.setdefault((wait.line, wait.word), []).append(wait.image)
    told = (f"{images(who)} at line {line} ({word})" for (line, word), who in places.items())
    return ", ".join(told)


def images(who: List[int]) -> str:
    """Returns images in words: `images 1, 3 to 6`."""
    return f"image{'s' if len(who) > 1 else ''} {', '.join(ranges(sorted(who)))}"


def ranges(who: List[int], between: str = " to ") -> List[str]:
    """Returns rising numbers, three or more in a row as a range."""
    rows: List[List[int]] = []
    for it in who:
        if rows and rows[-1][-1] == it - 1:
            rows[-1].append(it)
        else:
            rows.append([it])
    told = []
    for row in rows:
        told += [f"{row[0]}{between}{row[-1]}"] if len(row) > 2 else [str(it) for it in row]
    return told


def _line(text: str) -> str:
    """Returns a line of an end without the image."""
    forms = (
        (_STOPPED, "line {}, code {}"),
        (_FAULT, "line {}, {}"),
        (_CLASH, "line {} against line {}"),
        (_LIMIT, "line {}, {}"),
    )
    for form, told in forms:
        found = form.fullmatch(text)
        if found:
            return told.format(*found.groups())
    return text
