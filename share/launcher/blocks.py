"""The constructs of a source that are open before a statement."""

from typing import List, NamedTuple

from lexing import Statement, Token
from names_in_file import ends_unit, group_end, heading_of

END_WORDS = {
    "if": "END IF",
    "do": "END DO",
    "select": "END SELECT",
    "critical": "END CRITICAL",
    "change": "END TEAM",
    "subroutine": "END SUBROUTINE",
    "function": "END FUNCTION",
    "program": "END PROGRAM",
}
SHOWN = {"select": "SELECT CASE", "change": "CHANGE TEAM"}


class Block(NamedTuple):
    """A construct or a procedure: its word, and its first token."""

    word: str
    token: Token


def opened_by(statement: Statement) -> str:
    """Returns the word of the construct that a statement begins, or nothing."""
    words = [token.text for token in statement]
    if words[1:2] == [":"] and len(words) > 2:
        words = words[2:]
    ahead = words[1] if len(words) > 1 else ""
    if words[0] == "if" and words[-1] == "then" and ahead == "(":
        return "if"
    if words[0] == "do" and ahead not in ("=", "(", "["):
        return "do"
    if words[0] == "selectcase" and ahead == "(" or words[0] == "select" and ahead == "case":
        return "select"
    if words[0] == "critical" and (len(words) == 1 or ahead == "(" and group_end(statement, 1) == len(words)):
        return "critical"
    return "change" if words[0] == "change" and ahead == "team" else ""


def closed_by(statement: Statement) -> str:
    """Returns the word of the construct that a statement ends, or nothing."""
    words = [token.text for token in statement]
    if ends_unit(statement):
        return "unit"
    last = words[0][3:] if words[0] != "end" and words[0].startswith("end") else ""
    if words[0] == "end" and len(words) > 1:
        last = words[1]
    elif last and len(words) > 1 and words[1] in ("=", "[", "%"):
        last = ""
    last = {"team": "change"}.get(last, last)
    return last if last in ("if", "do", "select", "critical", "change") else ""


def open_blocks(statements: List[Statement], before: int) -> List[Block]:
    """Returns the constructs and the procedure that are open before a statement, the innermost last. An END that
    belongs to none is passed over."""
    opened: List[Block] = []
    is_behind_contains = False
    for statement in statements[:before]:
        word = opened_by(statement)
        heading = heading_of(statement) if is_behind_contains else None
        if len(statement) == 1 and statement[0].text == "contains":
            is_behind_contains = True
        if heading is not None:
            opened.append(Block(statement[heading].text, statement[0]))
        elif word:
            opened.append(Block(word, statement[0]))
        else:
            _close(opened, closed_by(statement))
    return opened


def _close(opened: List[Block], word: str) -> None:
    if word == "unit" and opened and opened[-1].word in ("subroutine", "function"):
        opened.pop()
    elif word and opened and opened[-1].word == word:
        opened.pop()
