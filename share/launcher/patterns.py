"""Refusal 7 by pattern of line and token. Each pattern is a case of 7 in docs/use/REFUSALS.md; where none fits the
sentence says no more than where the reading ends."""

from typing import Dict, Optional

from cases_of_values import assignment_start
from look import COMMON_WORDS, LEFT_WORDS, Chooser, Found, Look, near
from names_in_file import CLOSING, OPENING, group_end
from patterns_of_actions import SECOND_WORDS, at_action
from patterns_of_declarations import at_specification
from patterns_of_ends import at_branch, at_end, at_procedure, behind_the_program
from patterns_of_expressions import in_expression

_FIRST_WORDS = (
    "integer logical type implicit use program contains subroutine function recursive if else elseif endif end do "
    "enddo select selectcase case endselect critical endcritical change endteam sync form event lock unlock allocate "
    "deallocate print write call exit cycle return stop error fail"
).split()
# What stands in the middle of a statement.
_MIDDLE = ("+", "-", "*", "/", "**", ",", ")", "==", "/=", ".and.", ".or.", "(", "[", "]")
# Statements of two words, by their words written as one.
_AS_ONE = {f"{first}{second}": f"{first} {second}".upper() for first, them in SECOND_WORDS.items() for second in them}
_JOINED = ("endif", "enddo", "endselect", "endcritical", "endteam")


def pattern(look: Look) -> Optional[Found]:
    """Returns the pattern of a refused place, or nothing where none fits."""
    if not look.statements:
        return Found("empty")
    if look.spot is None:
        return None
    for choose in (
        behind_the_program,
        _label,
        at_end,
        at_branch,
        at_procedure,
        at_specification,
        _first_word,
        at_action,
        _misspelt,
        _brackets_alone,
        in_expression,
    ):
        found = choose(look)
        if found:
            return found
    return _past(look)


def _label(look: Look) -> Optional[Found]:
    if look.at or look.token is None:
        return None
    if look.token.is_number() and len(look.words) > 1 and look.statement[1].is_name():
        return Found("label", {"left": look.tables.left.get("label", "")})
    if look.token.is_name():
        return None
    before = look.statements[look.spot.statement - 1] if look.spot and look.spot.statement else []
    operator = look.token.is_number() or look.token.text in _MIDDLE
    if operator and before and before[-1].line < look.line:
        return Found("continuation", {"token": look.token.text, "line": str(before[-1].line)})
    return Found("beginning", {"token": look.token.text})


def _assigns(look: Look, start: int) -> bool:
    """Tells whether `=` stands outside of all brackets between a place of the statement and the refused one."""
    depth = 0
    for word in look.words[start : look.at + 1]:
        depth += (word in OPENING) - (word in CLOSING)
        if word == "=" and depth == 0:
            return True
    return False


def _first_word(look: Look) -> Optional[Found]:
    """Chooses by a first word that is no word of the language, unless it is a variable's name."""
    start = assignment_start(look)
    word, ahead = look.word(start), look.word(start + 1)
    if look.at <= start or look.find(word) or ahead == "=" or _assigns(look, start):
        return None
    if word == "implicit" or (word == "type" and ahead == "("):
        return None
    if word in look.tables.left and word not in COMMON_WORDS:
        case = "derived-type" if word == "type" else "left"
        values = {"word": LEFT_WORDS.get(word, word.upper()), "left": look.tables.left[word]}
        return Found(case, values, look.statement[start])
    if word == "then" and len(look.words) == 1:
        return Found("then-alone")
    if word in look.tables.foreign and look.names.procedure(word) is None:
        return Found("foreign", {"word": word, "instead": look.tables.foreign[word]}, look.statement[start])
    return None


def _misspelt(look: Look) -> Optional[Found]:
    """Chooses by a first word that is like one of the language, where it is no variable to which something is
    assigned."""
    start = assignment_start(look)
    word = look.word(start)
    if look.at <= start or look.find(word) or word in _FIRST_WORDS or look.names.procedure(word):
        return None
    if _assigns(look, start):
        return None
    as_one = _AS_ONE.get(word.replace("_", ""))
    if as_one:
        return Found("misspelt", {"word": word, "near": as_one})
    found = near(word, [it for it in _FIRST_WORDS if abs(len(it) - len(word)) < 3 and it[0] in (word[0], word[1:2])])
    near_words = _spelled(found, look.word(start + 1)).upper()
    return Found("misspelt", {"word": word, "near": near_words}) if found else None


def _spelled(word: str, ahead: str) -> str:
    """Returns a first word, with the second one where that is meant too."""
    if word in _JOINED:
        return f"end {word[3:]}"
    seconds = SECOND_WORDS.get(word, [])
    second = ahead if ahead in seconds else near(ahead, seconds)
    return f"{word} {second}" if second else word


def _brackets_alone(look: Look) -> Optional[Found]:
    """Chooses for a name with empty brackets alone."""
    return _past(look) if look.words[-2:] == ["(", ")"] and look.at == len(look.words) - 1 else None


def _past(look: Look) -> Optional[Found]:
    """Chooses for a statement that needs more, or that is but a name with what stands in its brackets."""
    start = assignment_start(look)
    is_name = look.at > start and look.statement[start].is_name() and look.word(start) not in _FIRST_WORDS
    behind = group_end(look.statement, start + 1) if look.word(start + 1) == "(" else start + 1
    if is_name and behind == len(look.words) and (look.token is None or look.word(start + 2) == ")"):
        return Found("name-alone", {"name": look.shown(start, behind)})
    return Found("more") if look.token is None else None


CHOOSERS: Dict[str, Chooser] = {"7": pattern}
