"""What those who tell how a run ended look at, and what they say: the parts that are common to all ends."""

from typing import Dict, Iterable, List, NamedTuple, Optional, Sequence, Tuple

from message import Note
from sentences import Sentences
from source_text import Declared, Source
from survey import Survey
from tables import Tables
from trace import Step
from values import Where, value_of
from waits import Over


class Scene(NamedTuple):
    """The tables and sentences, the source, what the trace shows, the words of the call, and the name of the source."""

    tables: Tables
    sentences: Sentences
    source: Source
    survey: Survey
    words: Sequence[str]
    file: str

    def say(self, end: str, case: str, **found: object) -> str:
        """Returns the sentence of a case."""
        return self.sentences.say(end, case, **found)

    @property
    def images(self) -> int:
        """The number of images."""
        return self.survey.standing.images

    def where(self, line: int, image: int) -> Where:
        """Returns a line as an image executes it."""
        return Where(self.source, line, image, self.images, self.survey.variables.get(image, {}))

    def first_cosubscript(self, declared: Optional[Declared]) -> Optional[int]:
        """Returns the cosubscript of image 1 where a coarray has one cosubscript, its bound is shown, and no other team
        was formed."""
        standing = self.survey.standing
        if declared is None or len(standing.members) > 1:
            return None
        cobounds = standing.cobounds.get(declared.name, "") if declared.is_allocatable else declared.cobounds
        lower, sign, upper = cobounds.rpartition(":")
        if upper != "*":
            return None
        return value_of(lower, self.where(0, 1)) if sign else 1

    def last(self, image: int) -> Optional[Step]:
        """Returns the last step of an image, if it has made one."""
        steps = self.survey.last.get(image, [])
        return steps[-1] if steps else None

    def note(self, line: int, text: str, column: int = 0, length: int = 1) -> Note:
        """Returns a further place; column 0 is the first character of the line that isn't a blank."""
        shown = self.source.line(line)
        return Note(line, column or first_column(shown or ""), text, shown, length)

    def how_over(self, image: int, over: Over) -> str:
        """Returns how an image has ended, as in `stopped at line 6`."""
        if not over.has_failed:
            return f"stopped at line {over.line}"
        return f"failed at line {over.line}" if over.line else f"failed by --fail {image}@{over.number}"

    def over_notes(self, others: Sequence[Tuple[int, Over]]) -> List[Note]:
        """Returns the places where images have ended, but for those that the words of the call let fail."""
        places: Dict[Tuple[int, str], List[int]] = {}
        for image, over in others:
            if over.line:
                places.setdefault((over.line, "failed" if over.has_failed else "stopped"), []).append(image)
        return [self.note(line, f"{images_said(who)} {verb} here") for (line, verb), who in places.items()]


class Told(NamedTuple):
    """What is said of an end: its place, column 0 for the first character that isn't a blank and line 0 for no place;
    the text, the word behind it, further places and what helps; and the word for --explain."""

    line: int
    text: str
    code: str
    column: int = 0
    notes: Tuple[Note, ...] = ()
    helps: Tuple[str, ...] = ()
    hint: str = ""
    length: int = 1


def first_column(text: str) -> int:
    """Returns the column of the first character that isn't a blank, or the one behind the last."""
    return len(text) - len(text.lstrip(" \t")) + 1


def joined(words: Iterable[object]) -> str:
    """Returns words in a row: `1, 3 and 4`."""
    told = [str(it) for it in words]
    return f"{', '.join(told[:-1])} and {told[-1]}" if len(told) > 1 else "".join(told)


def _ranges(numbers: Sequence[int]) -> List[str]:
    """Returns rising numbers, three or more in a row as a range."""
    rows: List[List[int]] = []
    for it in sorted(set(numbers)):
        if rows and rows[-1][-1] == it - 1:
            rows[-1].append(it)
        else:
            rows.append([it])
    told: List[str] = []
    for row in rows:
        told += [f"{row[0]} to {row[-1]}"] if len(row) > 2 else [str(it) for it in row]
    return told


def images_said(numbers: Sequence[int]) -> str:
    """Returns images in words: `image 2`, `images 1 and 3 to 6`."""
    return f"image{'s' if len(set(numbers)) > 1 else ''} {joined(_ranges(numbers))}"


def lines_said(numbers: Sequence[int]) -> str:
    """Returns lines in words: `line 2`, `lines 1 and 7`."""
    return f"line{'s' if len(set(numbers)) > 1 else ''} {joined(_ranges(numbers))}"
