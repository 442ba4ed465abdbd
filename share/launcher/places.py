"""Where the steps of a run stand in its picture, and texts as they stand there."""

from typing import Dict, List, NamedTuple

from trace import Run, Step

ROW, LANE, TOP, LEFT, FOOT = 26, 178, 44, 46, 40


class Places(NamedTuple):
    """Where steps stand: the row of each stamp; the run, and the first step of each failure in it."""

    rows: Dict[int, int]
    run: Run
    failures: List[Step]

    def x(self, image: int) -> int:
        """Returns where an image's lane stands."""
        return LEFT + 16 + (image - 1) * LANE

    def y(self, step: Step) -> int:
        """Returns where a step stands."""
        return TOP + 22 + self.rows[step.stamp] * ROW

    @property
    def width(self) -> int:
        """The width of the diagram."""
        return LEFT + self.run.images * LANE + 12

    @property
    def foot(self) -> int:
        """Where the lanes end."""
        return TOP + 22 + len(self.rows) * ROW


def places_of(run: Run) -> Places:
    """Returns where the steps of a run stand: a row for each stamp that there is."""
    stamps = sorted({it.stamp for it in run.steps})
    return Places({stamp: row for row, stamp in enumerate(stamps)}, run, [it for it in run.steps if it.word == "fail"])


def escaped(text: str) -> str:
    """Returns a text as it stands in SVG and HTML. Signs that these don't take are shown as `?`."""
    kept = "".join(it if it >= " " or it == "\t" else "?" for it in text)
    return kept.replace("&", "&amp;").replace("<", "&lt;").replace(">", "&gt;").replace('"', "&quot;")
