"""The trace of a run, which the launcher asks for to tell how the run ended: it is cut off the program's text and kept
apart, in memory where it is short, and in a temporary file where it is long.

The text is laid out in this order: the printed lines, `IMAGE: TEXT`; with --vars the lines `var ..`; with --trace a
line `trace 2 images N` and those of the steps, which begin with a number and a blank; the lines of the end; with --why
the lines that tell why a run is stuck; and with --every the line that tells whether it speaks for every order, `every
order` or `this order: ..`.
"""

import re
from typing import IO, Iterator, List, Optional

from tail import Tail

# So many bytes are kept in memory.
MOST_IN_MEMORY = 1 << 20

_BEGINS = re.compile(rb"^(?:v|trace |[0-9]+ )", re.MULTILINE)
_BEHIND_VARIABLES = re.compile(rb"^[^v]", re.MULTILINE)
_BEHIND_STEPS = re.compile(rb"^(?:[^0-9t]|th)", re.MULTILINE)
_PRINTED, _VARIABLES, _STEPS, _END = range(4)
# What may be the beginning of a line with which a block ends: of the first line of a trace, or of a step; of the line
# of --every.
_MAY_BEGIN = {_PRINTED: re.compile(rb"[0-9]+|t(?:r(?:a(?:ce?)?)?)?"), _STEPS: re.compile(b"t")}


class KeptTrace:
    """The lines of --vars and --trace of a run."""

    def __init__(self) -> None:
        self._pieces: List[bytes] = []
        self._size = 0
        self._file: Optional[IO[bytes]] = None
        self._is_lost = False

    def put(self, piece: bytes) -> None:
        """Keeps the next piece. Where there is no room for it nothing more is kept."""
        if self._is_lost or not piece:
            return
        self._size += len(piece)
        if self._size <= MOST_IN_MEMORY:
            self._pieces.append(piece)
            return
        try:
            self._put_in_file(piece)
        except OSError:
            self._is_lost = True

    def _put_in_file(self, piece: bytes) -> None:
        if self._file is None:
            import tempfile  # here, since most runs have a short trace

            self._file = tempfile.TemporaryFile()
            self._file.write(b"".join(self._pieces))
            self._pieces = []
        self._file.write(piece)

    def lines(self) -> Iterator[bytes]:
        """Gives the lines, from the first one on; none where some are lost."""
        if self._is_lost:
            return
        if self._file is None:
            *lines, last = b"".join(self._pieces).split(b"\n")
            yield from lines + [last] * bool(last)
            return
        self._file.seek(0)
        for line in self._file:
            yield line.rstrip(b"\n")


class Cut:
    """Parts a text that comes in pieces: what is passed on, and what is kept."""

    def __init__(self, kept: KeptTrace, has_variables: bool, has_steps: bool, has_why: bool = False) -> None:
        """The lines of --vars, of --trace and of --why are passed on too where they were asked for."""
        self._kept = kept
        self._is_passed = {_VARIABLES: has_variables, _STEPS: has_steps}
        self._block = _PRINTED
        self._tail = Tail(has_why)
        self._held = b""
        self._is_line_start = True

    def take(self, piece: bytes) -> bytes:
        """Takes the next piece, and returns what of the text is passed on."""
        text = self._held + piece
        self._held = b""
        passed: List[bytes] = []
        while text and self._block != _END:
            start = 0 if self._is_line_start else text.find(b"\n") + 1
            found = self._boundary(text, start) if start or self._is_line_start else None
            block = text if found is None else text[: found.start()]
            if found is None and self._block in _MAY_BEGIN:
                block = self._decided(text)
            self._put(block, passed)
            if found is None:
                return b"".join(passed)
            text = text[found.start() :]
            self._block = self._next_block(text)
        passed.append(self._tail.take(text))
        return b"".join(passed)

    def rest(self) -> bytes:
        """Returns what was held back, at the end of the text."""
        held, self._held = self._held, b""
        return held + self._tail.rest()

    def why(self) -> List[str]:
        """Returns the lines that tell why the run is stuck, where they weren't passed on."""
        return self._tail.lines()

    def _boundary(self, text: bytes, start: int) -> "Optional[re.Match[bytes]]":
        """Finds the line with which the block ends, from a line's start on."""
        forms = {_PRINTED: _BEGINS, _VARIABLES: _BEHIND_VARIABLES, _STEPS: _BEHIND_STEPS}
        return forms[self._block].search(text, start)

    def _decided(self, text: bytes) -> bytes:
        """Holds back the beginning of a line with which the block may end."""
        start = text.rfind(b"\n") + 1
        if (start or self._is_line_start) and _MAY_BEGIN[self._block].fullmatch(text, start):
            self._held = text[start:]
            return text[:start]
        return text

    def _put(self, block: bytes, passed: List[bytes]) -> None:
        if block:
            self._is_line_start = block.endswith(b"\n")
        if self._block in self._is_passed:
            self._kept.put(block)
        if self._is_passed.get(self._block, True):
            passed.append(block)

    def _next_block(self, text: bytes) -> int:
        """Returns which block begins with a text."""
        self._is_line_start = True
        first = text[:1]
        if first == b"v" and self._block == _PRINTED:
            return _VARIABLES
        return _STEPS if (first.isdigit() or first == b"t") and self._block != _STEPS else _END
