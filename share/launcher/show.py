"""The steps of a run in columns, one an image, time downwards: what `caf show` prints.

A cell has the step's number, its line and what it does. An image that has arrived at a round, a collective or SYNC
IMAGES and hasn't left it is filled with `=`, so that a barrier is a band. `!` stands before the two accesses of a race
and before what an image of a stuck run waits for.
"""

import re
from typing import Dict, Iterable, List, NamedTuple, Optional, Sequence, Set, Tuple

from acts import short_text
from trace import Kind, Run, Step

WIDTH = 80
IMAGES_IN_WIDTH = 4
NARROWEST, WIDEST = 18, 40
MOST_LINES, MOST_LINES_OF_WAITS = 4, 12
_BREAK = re.compile(r" |\[|->|=")
_OPENING = ("arrive", "gather", "pair")
_CLOSING = ("leave", "take", "unpair")


class Choice(NamedTuple):
    """What is shown: the images, all where none is named; the first and the last stamp; and the kinds of steps."""

    images: Tuple[int, ...] = ()
    first: int = 0
    last: Optional[int] = None
    kinds: Tuple[Kind, ...] = tuple(Kind)

    def has(self, step: Step) -> bool:
        """Tells whether a step is shown."""
        in_time = self.first <= step.stamp and (self.last is None or step.stamp <= self.last)
        return in_time and step.kind in self.kinds and (not self.images or step.image in self.images)


class Layout(NamedTuple):
    """The widths of the stamp, of a step's number, of its line, and of a whole cell; and the images."""

    stamp: int
    number: int
    line: int
    cell: int
    images: Tuple[int, ...]

    def cell_lines(self, number: str, line: str, text: str, most: int = MOST_LINES) -> List[str]:
        """Returns the lines of a cell: the text goes on below where it is too long."""
        front = f"{number:>{self.number}} {line:>{self.line}} "
        room = max(self.cell - len(front), 1)
        pieces = list(_pieces(text, room))
        if len(pieces) > most:
            pieces = [*pieces[: most - 1], pieces[most - 1][: room - 2] + ".."]
        return [front + pieces[0], *(" " * len(front) + it for it in pieces[1:])]


def _pieces(text: str, room: int) -> Iterable[str]:
    """Cuts a text into pieces for so much room, behind a blank or before a bracket or an arrow where it has one."""
    while len(text) > room:
        places = [it.start() for it in _BREAK.finditer(text, 1, room + 1)]
        place = places[-1] if places and places[-1] > room // 3 else room
        yield text[:place].rstrip(" ")
        text = text[place:].lstrip(" ")
    yield text


class Cell(NamedTuple):
    """A cell of a row: its lines, whether it is marked, and what fills it."""

    lines: List[str]
    is_marked: bool = False
    fill: str = " "


def show(run: Run, choice: Choice, source: Sequence[str] = ()) -> str:
    """Returns the columns of a run, and below them how it ended; the lines of the source tell more of what an image of
    a stuck run waits for."""
    layout = _layout(run, choice)
    lines = _heading(layout)
    waiting: Set[int] = set()
    for steps in _by_stamp(run.steps):
        chosen = {it.image: it for it in steps if choice.has(it)}
        if chosen:
            lines += _row(layout, str(steps[0].stamp), _cells(layout, run, chosen, waiting))
        _note_waiting(steps, waiting)
    lines += _waits(layout, run, source)
    return "".join(f"{it}\n" for it in lines + _end(run))


def _layout(run: Run, choice: Choice) -> Layout:
    images = tuple(it for it in range(1, run.images + 1) if not choice.images or it in choice.images)
    shown = [it for it in run.steps if choice.has(it)]
    stamp = max((len(str(it.stamp)) for it in shown), default=1)
    number = max((len(str(it.number)) for it in shown), default=1)
    line = max([len(str(it.line)) for it in shown] + [len(str(it.line)) for it in run.waits], default=1)
    cell = NARROWEST
    if len(images) <= IMAGES_IN_WIDTH:
        cell = min((WIDTH - stamp) // max(len(images), 1) - 1, WIDEST)
    return Layout(stamp, number, line, cell, images)


def _heading(layout: Layout) -> List[str]:
    cells = {it: Cell([f"image {it}"]) for it in layout.images}
    rule = "-" * layout.stamp + "".join("+" + "-" * layout.cell for _ in layout.images)
    return [*_row(layout, "", cells), rule]


def _by_stamp(steps: Iterable[Step]) -> Iterable[List[Step]]:
    """Gives the steps of each stamp."""
    rows: Dict[int, List[Step]] = {}
    for step in steps:
        rows.setdefault(step.stamp, []).append(step)
    return rows.values()


def _cells(layout: Layout, run: Run, chosen: Dict[int, Step], waiting: Set[int]) -> Dict[int, Cell]:
    """Returns the cells of a row, of the images that step there or wait."""
    cells = {it: Cell([], fill="=") for it in waiting}
    for image, step in chosen.items():
        lines = layout.cell_lines(str(step.number), str(step.line), short_text(step))
        is_band = step.word in _CLOSING or (step.word in _OPENING and not step.reply.startswith("clash"))
        cells[image] = Cell(lines, is_of_race(run, step), "=" if is_band else " ")
    return cells


def is_of_race(run: Run, step: Step) -> bool:
    """Tells whether a step is one of the two accesses of the race."""
    if run.race is None:
        return False
    return (step.image, step.number) in [(it.image, it.number) for it in (run.race.first, run.race.second)]


def _note_waiting(steps: List[Step], waiting: Set[int]) -> None:
    """Notes who waits after these steps."""
    for step in steps:
        if step.word in _OPENING:
            waiting.add(step.image)
        elif step.word in _CLOSING or step.kind is Kind.FAILURE:
            waiting.discard(step.image)


def _row(layout: Layout, stamp: str, cells: Dict[int, Cell]) -> List[str]:
    """Returns the lines of a row."""
    height = max([len(it.lines) for image, it in cells.items() if image in layout.images] + [1])
    lines = []
    for number in range(height):
        front = stamp if number == 0 else ""
        columns = (_column(layout, cells.get(image, Cell([])), number) for image in layout.images)
        lines.append(f"{front:>{layout.stamp}}{''.join(columns)}".rstrip(" "))
    return lines


def _column(layout: Layout, cell: Cell, number: int) -> str:
    """Returns one line of a cell, behind the sign that parts it from the one before."""
    sign = "!" if cell.is_marked else "|"
    text = cell.lines[number] if number < len(cell.lines) else ""
    if cell.fill == " " or len(text) >= layout.cell:
        return sign + f"{text:<{layout.cell}}"
    return sign + (text and text + " ").ljust(layout.cell, cell.fill)


def _waits(layout: Layout, run: Run, source: Sequence[str]) -> List[str]:
    """Returns the row of those that wait at the end of a stuck run, with what they wait for, and on whom that
    depends."""
    if not run.waits:
        return []
    from waited_for import reasons  # here, since few runs are stuck

    told = {it.wait.image: (str(it.wait.line), f"waits: {it.text}") for it in reasons(run, source)}
    cells = {it: Cell(layout.cell_lines("", *told[it], MOST_LINES_OF_WAITS), True) for it in told}
    return _row(layout, "", cells)


def _end(run: Run) -> List[str]:
    """Returns the lines of the end as the program tells it; the waits of a stuck run stand in the columns."""
    return [it for it in run.end if not it.startswith("stuck ")] + (["stuck"] if run.waits else [])
