"""The statements of a source, each as its tokens with their places. Of a source that can't be cut into tokens as much
is read as there is, since messages alone stand on it."""

import bisect
import re
from typing import List, NamedTuple, Optional, Tuple

from texts import lower

_PIECE = re.compile(r"[^'\"!;&]+|'(?:[^']|'')*'|\"(?:[^\"]|\"\")*\"|['\"]|[!;&]")
_TOKEN = re.compile(
    r"[A-Za-z][A-Za-z0-9_]*|[0-9]+(?:_(?:[48](?![0-9])|[A-Za-z][A-Za-z0-9_]*))?|'(?:[^']|'')*'?|\"(?:[^\"]|\"\")*\"?"
    r"|\.[A-Za-z]+\.|\(/|/\)|\*\*|==|/=|<=|>=|=>|::|[^ \t]"
)
_SPELLED = {".eq.": "==", ".ne.": "/=", ".lt.": "<", ".le.": "<=", ".gt.": ">", ".ge.": ">="}
_BRACKETS = {"(": 1, "[": 1, "(/": 1, ")": -1, "]": -1, "/)": -1}


class Token(NamedTuple):
    """A token, with small letters outside of literals, its line and column from 1, and how many columns it takes."""

    text: str
    line: int
    column: int
    length: int

    def is_name(self) -> bool:
        """Tells whether it is a name or a keyword."""
        return "a" <= self.text[:1] <= "z"

    def is_number(self) -> bool:
        """Tells whether it is an integer literal."""
        return "0" <= self.text[:1] <= "9"

    def is_literal(self) -> bool:
        """Tells whether it is a character literal."""
        return self.text[:1] in ("'", '"')

    def end(self) -> Tuple[int, int]:
        """Returns the place just past it."""
        return self.line, self.column + self.length


Statement = List[Token]


class _Joiner:
    """Joins lines to the texts of statements, each with the places at which its pieces begin."""

    def __init__(self) -> None:
        self.done: List[Statement] = []
        self.text = ""
        self.marks: List[Tuple[int, int, int]] = []
        self.quote = ""
        self.is_continued = False

    def put(self, piece: str, line: int, column: int) -> None:
        """Adds a piece that begins in this column."""
        self.marks.append((len(self.text), line, column))
        self.text += piece

    def finish(self) -> None:
        """Ends a statement; one of blanks alone is nothing."""
        tokens = _cut(self.text, self.marks)
        if tokens:
            self.done.append(tokens)
        self.text, self.marks, self.quote = "", [], ""

    def take(self, number: int, text: str) -> None:
        """Takes a line."""
        start = 0
        if self.is_continued:
            front = text.lstrip(" \t")
            if not front or front[0] == "!":
                return
            start = len(text) - len(front) + 1 if front[0] == "&" else 0
            if start == 0:
                self.put(" ", number, 1)
                self.quote = ""
        self.is_continued = False
        if self.quote:
            start = self._go_on_with_literal(number, text, start)
        if start >= 0:
            self._take_rest(number, text, start)
        if not self.is_continued:
            self.finish()

    def _go_on_with_literal(self, number: int, text: str, start: int) -> int:
        """Takes what belongs to the open literal, and returns where the rest begins, or -1 where there is none."""
        quote = self.quote
        found = re.compile(f"(?:[^{quote}]|{quote}{quote})*{quote}").match(text, start)
        if found:
            self.put(found.group(), number, start + 1)
            self.quote = ""
            return found.end()
        self._leave_open(number, text, start)
        return -1

    def _leave_open(self, number: int, text: str, start: int) -> None:
        """Takes the front of a literal that its line doesn't close."""
        rest = text[start:].rstrip(" \t")
        self.is_continued = rest.endswith("&") and len(rest) > 1
        self.put(rest[:-1] if self.is_continued else rest, number, start + 1)

    def _take_rest(self, number: int, text: str, start: int) -> None:
        for found in _PIECE.finditer(text, start):
            piece = found.group()
            if piece == "!":
                return
            if piece == ";":
                self.finish()
            elif piece in ("'", '"'):
                self.quote = piece
                self._leave_open(number, text, found.start())
                return
            elif piece == "&" and re.match(r"[ \t]*(!|\Z)", text[found.end() :]):
                self.is_continued = True
                return
            else:
                self.put(piece, number, found.start() + 1)


def _cut(text: str, marks: List[Tuple[int, int, int]]) -> Statement:
    """Cuts the text of a statement into tokens."""
    small = text if "'" in text or '"' in text else lower(text)
    following = iter(marks[1:])
    offset, line, column = marks[0] if marks else (0, 0, 0)
    upcoming = next(following, None)
    tokens: Statement = []
    depth = 0
    for found in _TOKEN.finditer(small):
        word, start = found.group(), found.start()
        while upcoming and upcoming[0] <= start:
            offset, line, column = upcoming
            upcoming = next(following, None)
        place = column + start - offset
        kept = word if word[0] in "'\"" else lower(word) if small is text else word
        if kept in _BRACKETS:
            depth = max(depth + _BRACKETS[kept], 0)
        if kept == "::" and depth:
            tokens += [Token(":", line, place, 1), Token(":", line, place + 1, 1)]
        else:
            tokens.append(Token(_SPELLED.get(kept, kept), line, place, len(word)))
    return tokens


def statements_of(source: List[str]) -> List[Statement]:
    """Returns the statements of these lines."""
    joiner = _Joiner()
    for number, text in enumerate(source, 1):
        joiner.take(number, text[:-1] if text.endswith("\r") else text)
    joiner.finish()
    return joiner.done


class Spot(NamedTuple):
    """Where a place lies: the number of its statement, and the number of the token that begins there; one more than
    the last where the place is just past the statement."""

    statement: int
    token: int


def spot_of(statements: List[Statement], line: int, column: int) -> Optional[Spot]:
    """Returns where a place lies in the statements, or nothing where it lies in none."""
    ends = [statement[-1].end() for statement in statements]
    number = bisect.bisect_left(ends, (line, column))
    if number == len(statements):
        return None
    for index, token in enumerate(statements[number]):
        if (token.line, token.column) == (line, column):
            return Spot(number, index)
    if ends[number] == (line, column):
        return Spot(number, len(statements[number]))
    return None
