"""FILE of a call: a regular file, which the program reads by its name, or else what is read once, and kept for its
standard input."""

import os
import stat
from typing import List, NamedTuple, Optional, Sequence, Tuple

from texts import bytes_of, read_file, text_of

# One byte more than the longest source and the longest trace, so that the program sees that it is too long.
MOST_BYTES = 1048577
MOST_TRACE_BYTES = 67108865
STANDARD_INPUT = "-"
# So many bytes are read at once.
PIECE = 1 << 20


class CannotRead(Exception):
    """A file isn't there, is a folder or can't be read; the text says which."""


class GivenFile(NamedTuple):
    """A file: its name as the program gets it, the one in messages, and its bytes where they are kept."""

    word: str
    shown_name: str
    kept: Optional[bytes] = None

    def source(self) -> Optional[str]:
        """Returns the source, where it can still be read."""
        if self.kept is not None:
            return text_of(self.kept)
        try:
            return read_file(bytes_of(self.word))
        except OSError:
            return None

    def is_longer(self, most: int) -> bool:
        """Tells whether the file has more than so many bytes, as far as it can still be asked."""
        if self.kept is not None:
            return len(self.kept) > most
        try:
            return os.stat(bytes_of(self.word)).st_size > most
        except OSError:
            return False

    def standard_input(self) -> Optional[int]:
        """Returns a descriptor of the kept bytes, from their start; or nothing where none are kept."""
        if self.kept is None:
            return None
        try:
            number = os.memfd_create("caf-source")
        except (AttributeError, OSError):
            number = _file_without_a_name()
        left = self.kept
        while left:
            left = left[os.write(number, left) :]
        os.lseek(number, 0, os.SEEK_SET)
        return number

    def by_another_name(self) -> "GivenFile":
        """Returns the file with its kept bytes under a name of their own, where something else is standard input."""
        return self._replace(word=f"/proc/{os.getpid()}/fd/{self.standard_input()}")


class Asked(NamedTuple):
    """What the program is asked: the words of the call, and the places of FILE and TRACE among them, from 0, with these
    files, where they have them."""

    words: Sequence[str]
    place: Optional[int] = None
    file: Optional[GivenFile] = None
    trace_place: Optional[int] = None
    trace: Optional[GivenFile] = None

    def words_for_program(self) -> List[str]:
        """Returns the words as the program gets them."""
        words = list(self.words)
        if self.place is not None and self.file:
            words[self.place] = self.file.word
        if self.trace_place is not None and self.trace:
            words[self.trace_place] = self.trace.word
        return words

    def options(self) -> Sequence[str]:
        """Returns the words before FILE, or those before what stands in its place."""
        end = len(self.words) if self.place is None else self.place
        return self.words[:end]

    def standard_input(self) -> Optional[int]:
        """Returns a descriptor of what is kept for the program's standard input, or nothing."""
        kept = self.trace if self.trace and self.trace.kept is not None else self.file
        return kept.standard_input() if kept else None

    def trace_file(self) -> GivenFile:
        """Returns TRACE, of words that have one."""
        assert self.trace is not None
        return self.trace

    def unread(self) -> GivenFile:
        """Returns the file that can't be read: TRACE where that is so, else FILE."""
        if self.trace and not os.access(bytes_of(self.trace.word), os.R_OK):
            return self.trace
        return self.file or GivenFile("", "")

    def too_long(self) -> Tuple[str, int]:
        """Returns the name of the file that is too long, and how many bytes it may have."""
        if self.trace and self.trace.is_longer(MOST_TRACE_BYTES - 1):
            return self.trace.shown_name, MOST_TRACE_BYTES - 1
        return self.shown_name(), MOST_BYTES - 1

    def source(self) -> str:
        """Returns the source, or nothing where it can't be read any more or is a made one."""
        return (self.file.source() or "") if self.file else ""

    def shown_name(self) -> str:
        """Returns the name of the source in messages."""
        return self.file.shown_name if self.file else "made source"


def _file_without_a_name() -> int:
    """Returns a descriptor of a new file that goes with it."""
    import tempfile  # here, since hardly any system needs it

    with tempfile.TemporaryFile() as file:
        return os.dup(file.fileno())


def take_file(word: str, most: int = MOST_BYTES) -> GivenFile:
    """Takes a file of a call, where `-` is standard input, and keeps so many bytes at most; raises CannotRead where the
    program couldn't read it."""
    shown_name = "<stdin>" if word == STANDARD_INPUT else word
    path = b"/dev/stdin" if word == STANDARD_INPUT else bytes_of(word)
    try:
        if word == STANDARD_INPUT:
            return GivenFile("/dev/stdin", shown_name, _read_all(0, most))
        return _take_path(word, path, most)
    except (OSError, ValueError):
        raise CannotRead(why_unread(path, shown_name)) from None


def _take_path(word: str, path: bytes, most: int) -> GivenFile:
    mode = os.stat(path).st_mode
    number = os.open(path, os.O_RDONLY | os.O_CLOEXEC)
    try:
        if stat.S_ISREG(mode):
            return GivenFile(word, word)
        return GivenFile("/dev/stdin", word, _read_all(number, most))
    finally:
        os.close(number)


def _read_all(number: int, most: int) -> bytes:
    """Returns what can be read there, or a front of it that is too long as well."""
    pieces: List[bytes] = []
    while most > 0:
        piece = os.read(number, min(most, PIECE))
        if not piece:
            break
        pieces.append(piece)
        most -= len(piece)
    return b"".join(pieces)


def why_unread(path: bytes, shown_name: str) -> str:
    if os.path.isdir(path):
        return f"{shown_name} is a folder"
    if not os.path.exists(path):
        return f"there is no file {shown_name}"
    return f"{shown_name} can't be read"
