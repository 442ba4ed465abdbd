"""A trace that is kept in a file, TRACE of `caf judge` and `caf replay`: its lines, and those of them that are the
trace's."""

import io
import re
from itertools import islice
from typing import IO, Iterator, NamedTuple, Optional, Tuple

from given_file import GivenFile
from texts import bytes_of, text_of

# So many bytes of a line are kept: it may be as long as the whole file.
KEPT = 4096

_STEP = re.compile(rb"[0-9]+[ \t]")
_FORM = re.compile(rb"trace 2 images ([1-9][0-9]{0,2})\n?")
_MOST_IMAGES = 256


class TraceLine(NamedTuple):
    """A line of the file: its number, from 1, the first bytes of it without what ends it, and what does: a line feed, a
    carriage return with one, or nothing."""

    number: int
    text: str
    end: str


class TraceFile:
    """A trace file, which is read from its start for each question. One that can't be read any more has no lines."""

    def __init__(self, given: GivenFile) -> None:
        self._given = given

    def lines(self) -> Iterator[bytes]:
        """Gives the lines of the steps, without their line feeds, as they are surveyed."""
        return (line.rstrip(b"\n") for _, line in self._numbered() if _STEP.match(line))

    def line(self, number: int) -> Optional[TraceLine]:
        """Returns the line of a number, or nothing where there are fewer."""
        return _nth(self._numbered(), number)

    def step(self, number: int) -> Optional[TraceLine]:
        """Returns the line of a step, by its place among the steps, from 1; or nothing where there are fewer."""
        return _nth((it for it in self._numbered() if _STEP.match(it[1])), number)

    def images(self) -> Optional[int]:
        """Returns how many images the file says that there are; nothing where it is in form 1, which doesn't say it."""
        for _, line in self._numbered():
            found = _FORM.fullmatch(line)
            if found and int(found[1]) <= _MOST_IMAGES:
                return int(found[1])
            if _STEP.match(line):
                return None
        return None

    def _numbered(self) -> Iterator[Tuple[int, bytes]]:
        """Gives each line with its number."""
        try:
            with self._opened() as opened:
                yield from enumerate(opened, 1)
        except OSError:
            return

    def _opened(self) -> IO[bytes]:
        if self._given.kept is not None:
            return io.BytesIO(self._given.kept)
        return open(bytes_of(self._given.word), "rb")


def _nth(lines: Iterator[Tuple[int, bytes]], number: int) -> Optional[TraceLine]:
    """Returns the line at a place, from 1."""
    for at, line in islice(lines, number - 1, number):
        end = b"\r\n" if line.endswith(b"\r\n") else line[len(line.rstrip(b"\n")) :]
        return TraceLine(at, text_of(line[: min(len(line) - len(end), KEPT)]), text_of(end))
    return None
