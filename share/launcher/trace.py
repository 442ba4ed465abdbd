"""The text of a run as typed entries: what the images printed, the steps of the trace, and how the run ended.

A step is a line `STAMP IMAGE LINE OBJECT ASK > REPLY`; docs/build/RUN.md has the asks. A step's number is its place
among its image's steps, from 1: the one that `--fail I@K` counts. A trace of form 2 begins with a line
`trace 2 images N`, and a team in an ask has its team number behind it; one of form 1, from an earlier caf, has neither.
"""

import enum
import re
from typing import Dict, List, NamedTuple, Optional, Tuple

from ends import WORDS
from texts import lines_of
from words import GREATEST_IMAGES


class Kind(enum.Enum):
    """What a step is about, as `caf show --only` names it."""

    ACCESS = "access"
    ATOMIC = "atomic"
    ROUND = "round"
    PAIR = "pair"
    COLLECTIVE = "collective"
    LOCK = "lock"
    CRITICAL = "critical"
    EVENT = "event"
    COARRAY = "coarray"
    QUERY = "query"
    PRINT = "print"
    MEMORY = "memory"
    FAILURE = "failure"
    END = "end"


_WORDS_OF = {
    Kind.ACCESS: "read write",
    Kind.ATOMIC: "atomic",
    Kind.ROUND: "arrive leave",
    Kind.PAIR: "pair unpair",
    Kind.COLLECTIVE: "gather take",
    Kind.LOCK: "lock trylock unlock",
    Kind.CRITICAL: "enter exit",
    Kind.EVENT: "post wait query",
    Kind.COARRAY: "create delete",
    Kind.QUERY: "failed stopped status",
    Kind.PRINT: "print",
    Kind.MEMORY: "memory",
    Kind.FAILURE: "fail mark free gone",
    Kind.END: "stop errorstop fault limit",
}
_KIND_OF: Dict[str, Kind] = {word: kind for kind, words in _WORDS_OF.items() for word in words.split()}


class Step(NamedTuple):
    """A step of the trace: its stamp, image, number and line; the object that was asked, `board`, `own` or the memory
    of an image, as `m2`; the words of the ask, and the reply."""

    stamp: int
    image: int
    number: int
    line: int
    place: str
    ask: Tuple[str, ...]
    reply: str

    @property
    def word(self) -> str:
        """The first word of the ask."""
        return self.ask[0]

    @property
    def kind(self) -> Kind:
        """What the step is about; a form that isn't known here is told as a query."""
        return _KIND_OF.get(self.ask[0], Kind.QUERY)

    @property
    def team(self) -> str:
        """The team of an ask about one, as its number in the run: `1` is the initial team."""
        return self.ask[1].partition("/")[0]

    @property
    def team_told(self) -> str:
        """The team of an ask about one with its team number, where the trace tells it: `team 2 (number 7)`."""
        number = self.ask[1].partition("/")[2]
        return f"team {self.team}{f' (number {number})' if number else ''}"

    @property
    def owner(self) -> int:
        """The image whose memory was asked, or 0 where it was no memory."""
        return int(self.place[1:]) if self.place[0] == "m" else 0

    @property
    def is_remote(self) -> bool:
        """Tells whether the memory of another image was asked."""
        return self.owner not in (0, self.image)

    @property
    def text(self) -> str:
        """The ask and the reply as the trace has them."""
        return f"{' '.join(self.ask)} > {self.reply}"


class Side(NamedTuple):
    """One of the two accesses of a race: the image, the number of its step, and the line."""

    image: int
    number: int
    line: int


class Race(NamedTuple):
    """A race: the coarray, the cell's offset in it, the image whose cell it is, and the two accesses."""

    coarray: str
    cell: int
    owner: int
    first: Side
    second: Side


class Wait(NamedTuple):
    """An image of a stuck run, and the line and the first word of the ask for which it waits."""

    image: int
    line: int
    word: str


class Run(NamedTuple):
    """A run: its printed lines, those of --vars, its steps, and the lines of its end, read as far as they are a race or
    the waits of a stuck run; and how many images the trace says that there are, 0 where it doesn't."""

    printed: List[str]
    variables: List[str]
    steps: List[Step]
    end: List[str]
    race: Optional[Race]
    waits: List[Wait]
    told_images: int = 0

    @property
    def images(self) -> int:
        """How many images there are: as many as the trace says, or the greatest number of one that the run names."""
        named = [it.image for it in self.steps] + [it.owner for it in self.steps] + [it.image for it in self.waits]
        return max([self.told_images or 1, *named, *(int(it.partition(":")[0]) for it in self.printed)])


_STEP = re.compile(r"([0-9]+) ([0-9]+) ([0-9]+) (m[0-9]+|board|own) (.+) > ([^\n]*)")
_FORM = re.compile(r"trace 2 images ([0-9]{1,3})")
_PRINTED = re.compile(r"[0-9]+: ")
_SIDE = "image ([0-9]+) event ([0-9]+) line ([0-9]+)"
_RACE = re.compile(f"race on ([^:]+):([0-9]+) of image ([0-9]+): {_SIDE}, {_SIDE}")
_STUCK = re.compile("stuck image ([0-9]+) line ([0-9]+) ([^ ]+)")


def read_run(text: str) -> Run:
    """Reads the text of a run. A line of a form that isn't known is left out."""
    run = Run([], [], [], [], None, [])
    counts: Dict[int, int] = {}
    images = 0
    for line in lines_of(text):
        found = _STEP.fullmatch(line)
        if found:
            run.steps.append(_step(found, counts))
        elif line.startswith("trace ") and not run.steps:
            form = _FORM.fullmatch(line)
            images = min(int(form[1]), GREATEST_IMAGES) if form else images
        elif _PRINTED.match(line):
            run.printed.append(line)
        elif line.startswith("var "):
            run.variables.append(line)
        elif line.startswith(WORDS) or line.startswith("summary "):
            run.end.append(line)
    races = [_race(it) for it in map(_RACE.fullmatch, run.end) if it]
    waits = [Wait(int(it[1]), int(it[2]), it[3]) for it in map(_STUCK.fullmatch, run.end) if it]
    return run._replace(race=races[0] if races else None, waits=waits, told_images=images)


def _step(found: "re.Match[str]", counts: Dict[int, int]) -> Step:
    stamp, image, line = (int(it) for it in found.groups()[:3])
    counts[image] = counts.get(image, 0) + 1
    ask = found[5].split(" ", 1) if found[5].startswith("print ") else found[5].split(" ")
    return Step(stamp, image, counts[image], line, found[4], tuple(ask), found[6])


def _race(found: "re.Match[str]") -> Race:
    name, cell, owner, *sides = found.groups()
    first, second = (Side(*(int(it) for it in sides[at : at + 3])) for at in (0, 3))
    return Race(name, int(cell), int(owner), first, second)


def is_trace(text: str) -> bool:
    """Tells whether a text is that of a run with --trace."""
    return any(_STEP.fullmatch(line) for line in lines_of(text))
