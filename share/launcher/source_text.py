"""A source as far as messages read it: the statement of a line, its parts, and what is declared.

It reads by patterns and knows no grammar. A source that was run has passed the rules of the language, so what looks
like a statement is one.
"""

import re
from typing import Dict, Iterator, List, NamedTuple, Optional, Tuple

from texts import lower

_LITERAL = re.compile(r"'[^']*'|\"[^\"]*\"")
_COMMENT = re.compile(r"!.*")
_TYPE = re.compile(r"[ \t]*(integer|logical|type)[ \t]*(\([^()]*\))?")
_UNIT = re.compile(r"[ \t]*(?:recursive |integer[^!]* |logical[^!]* )*(subroutine|function)[ \t]+([a-z]\w*)", re.ASCII)
_CONDITION = re.compile(r"[ \t]*(?:else[ \t]*)?if[ \t]*\(")
_NAME = re.compile(r"[a-z]\w*", re.ASCII)
_KIND = re.compile(r"\b8\b|int64", re.ASCII)


class Piece(NamedTuple):
    """A part of a line: its text, and its column from 1."""

    text: str
    column: int


class Declared(NamedTuple):
    """A declared name: its type, the kind of a number, the text of its bounds and of its cobounds (nothing where it has
    none), whether it is allocatable, and its first value, or nothing."""

    name: str
    type: str
    kind: int
    bounds: str
    cobounds: str
    is_allocatable: bool
    value: str


class Reference(NamedTuple):
    """A name in a statement: its place, from 0, the texts of its subscripts or arguments and of its selector, each None
    where it has none, and the text of all of it."""

    name: str
    place: int
    subscripts: Optional[List[str]]
    selector: Optional[List[str]]
    text: str


def plain(line: str) -> str:
    """Returns a line in small letters without its comment; the characters of literals are `'`."""
    return _COMMENT.sub("", _LITERAL.sub(lambda it: "'" * len(it[0]), lower(line)))


def closing(text: str, place: int) -> int:
    """Returns the place behind the bracket that closes the one at a place, or the end."""
    depth = 0
    for at in range(place, len(text)):
        depth += (text[at] in "([") - (text[at] in ")]")
        if depth == 0:
            return at + 1
    return len(text)


def split_list(text: str) -> List[str]:
    """Cuts a list at its commas, those in brackets left out."""
    parts, depth, start = [], 0, 0
    for at, sign in enumerate(text):
        depth += (sign in "([") - (sign in ")]")
        if sign == "," and depth == 0:
            parts.append(text[start:at])
            start = at + 1
    return [it.strip() for it in [*parts, text[start:]]] if text.strip() else []


def references(text: str) -> Iterator[Reference]:
    """Gives the names of a statement with what stands in brackets behind each, from left to right."""
    for found in _NAME.finditer(text):
        if found.start() and (text[found.start() - 1].isalnum() or text[found.start() - 1] in "_'."):
            continue
        end = found.end()
        lists: Dict[str, List[str]] = {}
        for bracket in "([":
            blanks = len(text[end:]) - len(text[end:].lstrip(" \t"))
            if text[end + blanks : end + blanks + 1] == bracket:
                behind = closing(text, end + blanks)
                lists[bracket] = split_list(text[end + blanks + 1 : behind - 1])
                end = behind
        yield Reference(found[0], found.start(), lists.get("("), lists.get("["), text[found.start() : end])


class Source:
    """The lines of a source."""

    def __init__(self, text: str) -> None:
        self.lines = text.split("\n")
        self._declared: Optional[List[Tuple[str, Declared]]] = None

    def line(self, number: int) -> Optional[str]:
        """Returns a line, where the source has it; behind its last line feed it has none."""
        if not 0 < number <= len(self.lines) or (number == len(self.lines) and self.lines[-1] == ""):
            return None
        return self.lines[number - 1]

    def statement(self, number: int) -> str:
        """Returns what begins on a line, with the lines that go on with it, as `plain` has it. Columns of its first
        line are those of the source."""
        text = plain(self.line(number) or "").rstrip()
        while text.endswith("&") and number < len(self.lines):
            number += 1
            text = text[:-1] + plain(self.lines[number - 1]).strip().lstrip("&")
        return text

    def action(self, number: int) -> Piece:
        """Returns the statement of a line behind the condition of a one-line IF, if it has one."""
        text = self.statement(number)
        start = 0
        while True:
            found = _CONDITION.match(text, start)
            behind = closing(text, found.end() - 1) if found else 0
            if not found or text[behind:].strip() in ("", "then"):
                break
            start = behind
        start += len(text[start:]) - len(text[start:].lstrip(" \t"))
        return Piece(text[start:].rstrip(), start + 1)

    def unit(self, number: int) -> str:
        """Returns the name of the procedure that a line stands in, or nothing where it is the main program."""
        name = ""
        for line in self.lines[: max(number, 0)]:
            found = _UNIT.match(plain(line))
            name = found[2] if found else name
        return name

    def has_procedure(self, name: str) -> bool:
        """Tells whether a name is that of a procedure of the source."""
        return any(found and found[2] == name for found in (_UNIT.match(plain(line)) for line in self.lines))

    def declared(self, name: str, number: int) -> Optional[Declared]:
        """Returns what a name is on a line: as its procedure declares it, else the main program."""
        if self._declared is None:
            self._declared = list(self._declarations())
        unit = self.unit(number)
        for scope in (unit, ""):
            for where, found in self._declared:
                if (where, found.name) == (scope, name):
                    return found
        return None

    def _declarations(self) -> Iterator[Tuple[str, Declared]]:
        unit = ""
        for number, line in enumerate(self.lines, 1):
            text = plain(line)
            found = _UNIT.match(text)
            unit = found[2] if found else unit
            if _TYPE.match(text) and not found:
                for part in self.statement(number).split(";"):
                    yield from ((unit, it) for it in _entities(part))


def _entities(text: str) -> Iterator[Declared]:
    """Gives what a declaration declares."""
    head = _TYPE.match(text)
    if not head:
        return
    front, sign, entities = text[head.end() :].partition("::")
    attributes = split_list(front.strip().lstrip(",")) if sign else []
    given = {name: "" for name in ("dimension", "codimension")}
    for it in attributes:
        if it.partition("(")[0].partition("[")[0].strip() in given:
            place = min(at for at in (it.find("("), it.find("[")) if at >= 0)
            given[it[:place].strip()] = it[place + 1 : closing(it, place) - 1]
    kind = 8 if head[2] and _KIND.search(head[2]) else 4
    for entity in split_list(entities if sign else front):
        for found in references(entity):
            bounds = ", ".join(found.subscripts) if found.subscripts is not None else given["dimension"]
            cobounds = ", ".join(found.selector) if found.selector is not None else given["codimension"]
            value = entity[found.place + len(found.text) :].strip().lstrip("=").strip()
            yield Declared(found.name, head[1], kind, bounds, cobounds, "allocatable" in attributes, value)
            break
