"""The foot of the picture of a stuck run: for whom each image waits, and why."""

import textwrap
from typing import Dict, List, Sequence

from places import FOOT, TOP, Places, escaped
from waited_for import Reason

# The room below the lanes for the arrows, and for a line of text; the characters of a line and the lines at most.
ARROWS, LINE = 30, 14
WIDTH, MOST_LINES = 25, 6
# So many images at most have an arrow from one that waits for them.
MOST_ARROWS = 4


def foot_of(why: Sequence[Reason]) -> int:
    """Returns the room below the lanes."""
    return FOOT + (ARROWS + LINE * max(len(_lines(it)) for it in why) if why else 0)


def waits(places: Places, why: Sequence[Reason]) -> List[str]:
    """Returns, for each image of a stuck run, a line from its last step to the foot, what it waits for there, and
    arrows to those on whom that depends."""
    last: Dict[int, int] = {it.image: places.y(it) for it in places.run.steps}
    lines: List[str] = []
    for reason in why:
        x = places.x(reason.wait.image)
        lines.append(f'<path class="waiting" d="M{x} {last.get(reason.wait.image, TOP)}V{places.foot + ARROWS - 4}"/>')
        lines += _arrows(places, reason)
        y = places.foot + ARROWS + LINE
        told = ((y + LINE * at, escaped(it)) for at, it in enumerate(_lines(reason)))
        spans = (f'<tspan x="{x - 6}" y="{at}">{it}</tspan>' for at, it in told)
        lines.append(f'<text class="waits">{"".join(spans)}</text>')
    return lines


def _lines(reason: Reason) -> List[str]:
    """Returns what an image waits for, in lines."""
    text = f"line {reason.wait.line} waits: {reason.text}"
    lines = textwrap.wrap(text, WIDTH)
    return lines if len(lines) <= MOST_LINES else [*lines[: MOST_LINES - 1], lines[MOST_LINES - 1][: WIDTH - 2] + ".."]


def _arrows(places: Places, reason: Reason) -> List[str]:
    """Returns the arrows from an image that waits to those on whom that depends."""
    image = reason.wait.image
    lines = []
    for other in reason.others[:MOST_ARROWS]:
        # (those that go past a lane stand below the others)
        y = places.foot + 4 + (image % 2 + (0 if abs(other - image) == 1 else 2)) * 6
        x, to = places.x(image), places.x(other)
        side = 5 if to > x else -5
        path = f"M{x} {y}H{to - side}m{-side} -4l{side} 4l{-side} 4"
        lines.append(f'<path class="awaited" d="{path}"><title>image {image} waits for image {other}</title></path>')
    return lines
