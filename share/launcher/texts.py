"""Texts as the launcher keeps them: one character a byte, so that columns count bytes, and bytes that are no UTF-8 stay
as they are."""

import errno
import os
import select
import sys
from typing import List, Optional, Union

NO_MORE_TAKEN = "caf: standard output took no more than a front of the text"

_UPPER = "ABCDEFGHIJKLMNOPQRSTUVWXYZ"
_TO_LOWER = str.maketrans(_UPPER, _UPPER.lower())


class NothingMoreTaken(Exception):
    """Standard output takes no more; `is_quiet` where nobody reads it any longer."""

    def __init__(self, is_quiet: bool) -> None:
        super().__init__()
        self.is_quiet = is_quiet


def text_of(data: bytes) -> str:
    """Returns the text of these bytes."""
    return data.decode("latin-1")


def bytes_of(text: str) -> bytes:
    """Returns the bytes of a text."""
    return text.encode("latin-1")


def words_of_call() -> List[str]:
    """Returns the words behind the command's name, as texts."""
    return [text_of(os.fsencode(word)) for word in sys.argv[1:]]


def lower(text: str) -> str:
    """Returns the text with its letters A to Z as small ones, and all else as it is."""
    return text.translate(_TO_LOWER)


def read_file(path: Union[str, bytes]) -> str:
    """Returns what a file holds."""
    with open(path, "rb") as file:
        return text_of(file.read())


def is_text(word: str) -> bool:
    """Tells whether the bytes of a word are UTF-8."""
    try:
        bytes_of(word).decode("utf-8")
    except UnicodeDecodeError:
        return False
    return True


def await_output(patience: Optional[float] = None) -> bool:
    """Waits until standard output takes something, for so many seconds at most, and tells whether it does."""
    return bool(select.select([], [1], [], patience)[1])


def write_out(data: Union[bytes, memoryview]) -> int:
    """Writes some of these bytes to standard output and returns how many, none where it takes none now; raises
    NothingMoreTaken where it takes no more."""
    try:
        return os.write(1, data)
    except BlockingIOError:
        return 0
    except OSError as wrong:
        raise NothingMoreTaken(wrong.errno == errno.EPIPE) from None


def answer(text: str) -> None:
    """Writes a text to standard output; raises NothingMoreTaken where it takes no more than a front of it."""
    left = bytes_of(text)
    while left:
        await_output()
        left = left[write_out(left) :]


def tell(text: str) -> None:
    """Writes a text to standard error, as far as that takes it."""
    left = bytes_of(text)
    try:
        while left:
            select.select([], [2], [])
            left = left[os.write(2, left) :]
    except OSError:
        pass


def keep_streams() -> None:
    """Puts something that takes nothing where standard output or standard error is closed, so that no file comes to
    stand there."""
    for stream in (1, 2):
        try:
            os.fstat(stream)
        except OSError:
            closed = os.open(os.devnull, os.O_RDONLY)
            if closed != stream:
                os.dup2(closed, stream)
                os.close(closed)


def lines_of(text: str) -> List[str]:
    """Returns the lines of a text, each of which a line feed ends, and the last one where none does."""
    lines = text.split("\n")
    return lines[:-1] if lines[-1] == "" else lines
