"""A line of a source with a caret below one of its columns, counted in bytes from 1."""

import re
from typing import List

# The longest part of a line that is shown: with the margin it stays within 100 columns.
LONGEST = 92
CUT = ".."

# Bytes that could command a terminal: all below a blank but tab and line feed, and DEL.
_COMMANDS = re.compile("[\001-\010\013-\037\177]")
# The second byte and those behind it of a character of UTF-8, which take no place.
_FOLLOWING = re.compile("[\200-\277]")
_NO_TAB = re.compile("[^\t]")


def _caret_line(text: str, column: int, length: int) -> str:
    """Returns blanks up to a column, and the mark below what begins there and has that length in bytes."""
    front, marked = text[: max(column - 1, 0)], text[max(column - 1, 0) : max(column - 1, 0) + length]
    width = len(_FOLLOWING.sub("", marked))
    return _NO_TAB.sub(" ", _FOLLOWING.sub("", front)) + "^" + "~" * (width - 1)


def _window(text: str, column: int) -> int:
    """Returns where the part of a long text begins that is shown, from 0: the column stands amid it."""
    start = min(max(column - 1 - LONGEST // 2, 0), len(text) - LONGEST)
    while 0 < start < len(text) and _FOLLOWING.match(text[start]):
        start += 1
    return start


def excerpt(margin: str, text: str, column: int, length: int = 1) -> List[str]:
    """Returns two lines: the text behind the margin, and the caret. Of a long text the part around the column is
    shown."""
    if text.endswith("\r"):
        text = text[:-1]
    text = _COMMANDS.sub("?", text)
    if len(_FOLLOWING.sub("", text)) > LONGEST:
        start = _window(text, column)
        end = start + LONGEST
        shown = text[start:end]
        if start > 0:
            shown = CUT + shown[len(CUT) :]
        if end < len(text):
            shown = shown[: -len(CUT)] + CUT
        text, column = shown, column - start
    return [f"{margin} | {text}", f"{' ' * len(margin)} | {_caret_line(text, column, length)}"]
