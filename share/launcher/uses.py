"""What a statement does with a coarray, as far as its line tells."""

import re
from typing import List, NamedTuple

from texts import lower

_NAME = re.compile("[a-z][a-z0-9_]*")
_UNTOLD = re.compile("['\"&;]")
_ONE_LINE_IF = re.compile(r"[ \t]*if[ \t]*\(")
# Statements that read what they name, but for what their one-line IF has in front.
_READER = re.compile(r"[ \t]*(then|else *if|do|select|case|print|write|stop|error)[^a-z0-9_]")
_COMPARISONS = ("==", "/=", "<=", ">=")


class Use(NamedTuple):
    """What is done, in the words of a message, and the column of the one place that does it, from 1, or 0 where there
    are more."""

    verb: str
    column: int


def use_of(name: str, line: str) -> Use:
    """Tells what a line does with a coarray: it `defines` or `reads` it, or `uses` it where that isn't plain from the
    line."""
    line = lower(line) + " "
    if _UNTOLD.search(line):
        return Use("uses", 0)
    line = line.partition("!")[0]
    found = _places(lower(name), line)
    if not found:
        return Use("uses", 0)
    column = found[0] + 1 if len(found) == 1 else 0
    action = _behind_conditions(line)
    if _READER.match(line, action):
        return Use("reads", column)
    sign = _equals_sign(line, action)
    if sign < 0:
        return Use("uses", column)
    defined = _places(lower(name), line[action:sign])
    if defined and line[action : action + defined[0]].strip(" \t") == "":
        return Use("defines" if len(found) == 1 else "uses", column)
    return Use("reads", column)


def _places(name: str, text: str) -> List[int]:
    """Returns where a name stands in a text as a whole word, from 0."""
    return [it.start() for it in _NAME.finditer(text) if it.group() == name]


def _behind_conditions(line: str) -> int:
    """Returns where the action of a one-line IF begins, behind its condition; else 0."""
    place = 0
    while True:
        condition = _ONE_LINE_IF.match(line, place)
        if not condition:
            return place
        place = _behind_bracket(line, condition.end())


def _behind_bracket(line: str, place: int) -> int:
    """Returns the place behind the bracket that closes the one before a place."""
    depth = 1
    while depth > 0 and place < len(line):
        depth += (line[place] == "(") - (line[place] == ")")
        place += 1
    return place


def _equals_sign(line: str, place: int) -> int:
    """Returns the place of the assignment's `=` from a place on, or -1."""
    depth = 0
    while place < len(line):
        sign = line[place]
        if depth == 0 and line[place : place + 2] in _COMPARISONS:
            place += 1
        elif depth == 0 and sign == "=":
            return place
        depth += (sign in "([") - (sign in ")]")
        place += 1
    return -1
