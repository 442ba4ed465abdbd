"""What the trace of a run shows at its end: one pass over its lines, which keeps little of them."""

import re
from typing import Dict, Iterable, List, Optional, Sequence, Set, Tuple

from trace import Step
from waits import Standing

# The steps that tell where the images stand; the others are counted alone.
_TELLING = set(
    b"arrive leave gather pair lock trylock unlock free post wait enter exit stop fail create delete".split()
)
_VARIABLE = re.compile(rb"var ([0-9]+) ([a-z]\w*) = (-?[0-9]+(?:,-?[0-9]+)*)")
_UNALLOCATED = re.compile(rb"var ([0-9]+) ([a-z]\w*) = unallocated")
# Values of arrays with more elements aren't kept.
_MOST_VALUES = 4096

Number = Tuple[int, int]


class Survey:
    """What a trace shows: where each image stands; the last two steps of each image; the steps that were asked for, by
    image and number, and how often the image had come to its line by then; the values of variables, and which aren't
    allocated."""

    def __init__(self, images: int) -> None:
        self.standing = Standing(images)
        self.last: Dict[int, List[Step]] = {}
        self.chosen: Dict[Number, Step] = {}
        self.turns: Dict[Number, int] = {}
        self.variables: Dict[int, Dict[str, List[int]]] = {}
        self.unallocated: Dict[int, Set[str]] = {}
        self.has_steps = False

    def before_last(self, image: int) -> Optional[Step]:
        """Returns the step of an image before its last one, if it has made two."""
        steps = self.last.get(image, [])
        return steps[0] if len(steps) == 2 else None


def survey(lines: Iterable[bytes], images: int, wanted: Sequence[Number] = ()) -> Survey:
    """Reads the lines of --vars and --trace; the steps of these images and numbers are kept."""
    found = Survey(images)
    counts: Dict[bytes, int] = {}
    last: Dict[bytes, List[Tuple[int, bytes]]] = {}
    watched = {b"%d" % image: Watched(found, [number for it, number in wanted if it == image]) for image, _ in wanted}
    for line in lines:
        if line[:4] == b"var ":
            _keep_variable(found, line)
            continue
        parts = line.split(b" ", 5)
        if len(parts) < 5:
            continue
        image = parts[1]
        count = counts[image] = counts.get(image, 0) + 1
        last[image] = [*last.get(image, [])[-1:], (count, line)]
        if image in watched:
            watched[image].take(line, parts, count)
        if parts[4] in _TELLING:
            found.standing.take(step_of(line, count))
    for steps in last.values():
        kept = [step_of(line, number) for number, line in steps]
        found.last[kept[0].image] = kept
    found.has_steps = bool(last)
    return found


class Watched:
    """An image of which steps were asked for: it counts how often the image comes to each line."""

    def __init__(self, found: Survey, numbers: Sequence[int]) -> None:
        self._found = found
        self._numbers = set(numbers)
        self._line = b""
        self._came: Dict[bytes, int] = {}
        self._made: Dict[Tuple[bytes, bytes, bytes], int] = {}

    def take(self, line: bytes, parts: List[bytes], number: int) -> None:
        """Takes the next step of the image. It comes to a line anew where it was at another one, and where it makes the
        same ask there again."""
        at = parts[2]
        if at != self._line:
            self._line = at
            self._came[at] = self._came.get(at, 0) + 1
        ask = (at, parts[4], b" ".join(parts[5].split(b" ", 3)[:2]) if len(parts) > 5 else b"")
        self._made[ask] = self._made.get(ask, 0) + 1
        if number in self._numbers:
            step = step_of(line, number)
            self._found.chosen[step.image, number] = step
            self._found.turns[step.image, number] = max(self._came[at], self._made[ask])


def step_of(line: bytes, number: int) -> Step:
    """Returns the step of a line of the trace."""
    stamp, image, source_line, place, asked = line.decode("latin-1").split(" ", 4)
    ask, _, reply = asked.rpartition(" > ")
    words = ask.split(" ", 1) if ask.startswith("print ") else ask.split(" ")
    return Step(int(stamp), int(image), number, int(source_line), place, tuple(words), reply)


def _keep_variable(found: Survey, line: bytes) -> None:
    absent = _UNALLOCATED.fullmatch(line)
    if absent:
        found.unallocated.setdefault(int(absent[1]), set()).add(absent[2].decode("ascii"))
    read = _VARIABLE.fullmatch(line)
    if read and read[3].count(b",") < _MOST_VALUES:
        values = [int(it) for it in read[3].split(b",")]
        found.variables.setdefault(int(read[1]), {})[read[2].decode("ascii")] = values
