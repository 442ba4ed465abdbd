"""Messages as lines for people, editors and CI: FILE:LINE:COL: error: TEXT [CODE], the line with a caret, further
places, and what helps."""

import os
import re
from typing import Dict, Iterable, List, Optional

from excerpts import excerpt
from message import Message, Note

WIDTH = 100
INDENT = "    "
_RESET = "\033[0m"
_COLOURS: Dict[str, str] = {
    "place": "\033[1m",
    "error": "\033[1;31m",
    "note": "\033[1;36m",
    "help": "\033[1;32m",
    "caret": "\033[1;31m",
}
_CARET = re.compile(r"(.* \| [ \t]*)(\^~*)")


def is_coloured() -> bool:
    """Tells whether standard error is a terminal that shows colours, and they are wanted."""
    if os.environ.get("NO_COLOR") or os.environ.get("TERM", "dumb") == "dumb":
        return False
    try:
        return os.isatty(2)
    except OSError:
        return False


def wrapped(text: str, first: str = "", indent: str = INDENT) -> List[str]:
    """Returns a text in lines of at most 100 columns, the first one behind other words, the others indented. A word
    that is longer stays whole."""
    lines: List[str] = []
    line, is_empty = first, True
    for word in text.split(" "):
        if not is_empty and len(line) + 1 + len(word) > WIDTH:
            lines.append(line)
            line, is_empty = indent, True
        line += word if is_empty else f" {word}"
        is_empty = False
    return [*lines, line]


class TextRenderer:
    """Writes messages as lines, with colours or without."""

    def __init__(self, has_colours: bool) -> None:
        self._has_colours = has_colours

    def render(self, messages: Iterable[Message]) -> str:
        """Returns the messages as lines."""
        return "".join(f"{line}\n" for message in messages for line in self._message_lines(message))

    def _paint(self, what: str, text: str) -> str:
        return f"{_COLOURS[what]}{text}{_RESET}" if self._has_colours else text

    def _message_lines(self, message: Message) -> List[str]:
        """Returns the lines of a message: one without a file is said by caf itself."""
        code = f" [{message.code}]" if message.code else ""
        if not message.file:
            first, *more = message.text.split("\n")
            lines = [*wrapped(first, "caf: "), *more]
        else:
            front = self._front(message.file, message.line, message.column, message.severity)
            lines = [f"{front} {message.text}{code}"]
            lines += self._excerpt(message.line, message.column, message.source_line, message.length)
        lines += message.shown
        for note in message.notes:
            lines += self._note_lines(note.file or message.file, note)
        for it in message.helps:
            lines += self._help_lines(it)
        return lines

    def _help_lines(self, text: str) -> List[str]:
        """Returns the lines of what helps; what stands behind a line feed, a call of the command, is left whole."""
        told, *calls = text.split("\n")
        first, *more = wrapped(told, "help: ")
        first = first.replace("help:", self._paint("help", "help:"), 1)
        return [first, *more, *(INDENT + it for it in calls)]

    def _note_lines(self, file: str, note: Note) -> List[str]:
        """Returns the lines of a further place; only its text is cut where it is long."""
        plain = f"{_place(file, note.line, note.column)} note:"
        first, *more = wrapped(note.text, f"{plain} ")
        front = self._front(file, note.line, note.column, "note") + first[len(plain) :]
        return [front, *more, *self._excerpt(note.line, note.column, note.source_line, note.length)]

    def _front(self, file: str, line: int, column: int, severity: str) -> str:
        """Returns the place and the severity."""
        place = _place(file, line, column)
        return f"{self._paint('place', place)} {self._paint(severity, f'{severity}:')}"

    def _excerpt(self, line: int, column: int, text: Optional[str], length: int) -> List[str]:
        """Returns the line with its caret, where there is one."""
        if line == 0 or text is None:
            return []
        shown, caret = excerpt(f"{line:5d}", text, column, length)
        found = _CARET.fullmatch(caret)
        return [shown, found[1] + self._paint("caret", found[2]) if found else caret]


def _place(file: str, line: int, column: int) -> str:
    return f"{file}:{line}:{column}:" if line else f"{file}:"
