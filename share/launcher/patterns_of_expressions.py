"""The patterns of refusal 7 within expressions and brackets."""

import re
from typing import List, Optional

from lexing import Token
from look import Found, Look
from names_in_file import CLOSING, OPENING
from typed import RELATIONS

_OPERATORS = ("+", "-", "*", "/", "**", ".and.", ".or.", ".eqv.", ".neqv.", ".not.", *RELATIONS)
_LOOSER = (".and.", ".or.", ".eqv.", ".neqv.", ".not.", ",", "=")
_CLOSED_BY = {"(": ")", "[": "]", "(/": "/)"}
_DOTTED = ("and", "or", "not", "eqv", "neqv")
# Pairs of tokens that mean one sign.
PAIRS = {
    ("<", ">"): "/=",
    ("=", "<"): "<=",
    ("=", "/"): "/=",
    ("=", "="): "==",
    ("==", "="): "==",
    (">", "="): ">=",
    ("<", "="): "<=",
    ("/", "="): "/=",
}
_EXPONENT = re.compile("[de][0-9]*")


def is_operand_end(token: Token) -> bool:
    """Tells whether an operand may end with a token."""
    is_truth = token.text in (".true.", ".false.")
    return token.is_name() or token.is_number() or token.is_literal() or token.text in CLOSING or is_truth


def _starts_operand(token: Token) -> bool:
    is_truth = token.text in (".true.", ".false.")
    return token.is_name() or token.is_number() or token.is_literal() or is_truth


def in_expression(look: Look) -> Optional[Found]:
    """Chooses by the token at the place and the ones around it."""
    if look.token is None:
        return _past(look)
    before = look.statement[look.at - 1] if look.at else None
    opened = look.opened
    pair = pair_of_signs(look)
    if pair and before and is_operand_end(look.statement[look.at - 2]):
        return pair
    for found in (
        _closing(look, opened),
        _in_brackets(look, opened),
        _wrong_operand(look, before),
        _wrong_operator(look, before),
        _adjacent(look, before),
    ):
        if found:
            return found
    return None


def pair_of_signs(look: Look) -> Optional[Found]:
    """Chooses for a pair of signs that mean one, of which the second stands at the place."""
    instead = PAIRS.get((look.word(look.at - 1), look.word(look.at)))
    if instead is None or look.at < 2:
        return None
    if instead == "==" and not look.opened and look.word(look.at - 1) == "=":
        return Found("second-equals")
    return Found("two-signs", {"token": look.shown(look.at - 1, look.at + 1), "instead": instead})


def _past(look: Look) -> Optional[Found]:
    """Chooses for a statement that isn't complete."""
    opened = look.opened
    last = look.statement[-1]
    line = look.source[last.line - 1]
    rest = line[last.column + last.length - 1 :].lstrip(" \t")
    if opened and rest.startswith("!="):
        return Found("unequal")
    if opened and re.match(r"![A-Za-z(]\w*", rest) and (last.text in OPENING or last.text in _OPERATORS):
        return Found("not-sign")
    if last.text in _OPERATORS or (last.text in (",", "=") and len(look.words) > 1):
        return Found("operand-behind", {"token": look.shown(len(look.words) - 1, len(look.words))})
    if opened:
        bracket = look.statement[opened[-1]]
        return Found("bracket-open", {"bracket": bracket.text, "closing": _CLOSED_BY[bracket.text]}, bracket)
    return None


def _closing(look: Look, opened: List[int]) -> Optional[Found]:
    word = look.word(look.at)
    if word not in CLOSING:
        return None
    if not opened:
        return Found("bracket-closed", {"token": word})
    bracket = look.word(opened[-1])
    if _CLOSED_BY[bracket] != word:
        return Found("bracket-kind", {"bracket": bracket, "closing": _CLOSED_BY[bracket], "token": word})
    before = look.word(look.at - 1)
    if before in _OPERATORS or before in (",", "="):
        return Found("operand-behind-sign", {"token": before})
    return Found("empty-brackets", {"token": bracket + word}) if before == bracket else None


def _in_brackets(look: Look, opened: List[int]) -> Optional[Found]:
    """Chooses by the bracket around the place."""
    word, before = look.word(look.at), look.word(look.at - 1)
    if word in ("(", "[") and before in ("]", "/)") and word == "(":
        return Found("subscripts-behind", {"token": word})
    if word == "(" and before == ")":
        return Found("second-brackets")
    if not opened:
        return None
    bracket, owner = look.word(opened[-1]), opened[-1] - 1
    is_group = owner < 0 or not (look.statement[owner].is_name() or look.word(owner) == ")")
    if word == "," and bracket == "(" and is_group:
        return Found("implied-do" if _has_loop(look) else "comma-in-brackets")
    if look.word(0) in ("integer", "logical", "type", "allocate"):
        return None
    if word == "*" and bracket in ("[", "(/") and before in (bracket, ","):
        return Found("star-selector")
    if word == ":" and bracket in ("[", "(/"):
        return Found("range-in-list" if is_group else "range-of-images")
    return None


def _has_loop(look: Look) -> bool:
    """Tells whether `NAME =` stands behind the place in the same bracket."""
    depth = 0
    for index in range(look.at, len(look.words)):
        depth += (look.word(index) in OPENING) - (look.word(index) in CLOSING)
        if depth < 0:
            return False
        if depth == 0 and look.word(index) == "=":
            return True
    return False


def _wrong_operand(look: Look, before: Optional[Token]) -> Optional[Found]:
    """Chooses for a token where an operand has to begin."""
    token = look.token
    if token is None or before is None or not (before.text in _OPERATORS or before.text in ("=", ",", "(", "[", "(/")):
        return None
    if token.is_literal():
        return Found("text")
    if before.text == "/" and token.text == "/":
        return _double_slash(look)
    if token.text in ("+", "-") and before.text in _OPERATORS and before.text not in RELATIONS:
        return Found("sign", {"token": token.text, "before": before.text})
    if token.text == ".not." and before.text == ".not.":
        return Found("not-not")
    values = {"token": token.text, "before": before.text}
    is_sign = token.text in _OPERATORS or token.text in (",", "=", ")")
    return Found("operand-between", values) if is_sign else None


def _wrong_operator(look: Look, before: Optional[Token]) -> Optional[Found]:
    """Chooses for a sign behind a whole operand."""
    word = look.word(look.at)
    if before is None or not is_operand_end(before):
        return None
    if word in RELATIONS and _has_relation(look):
        return Found("chain", {"token": word})
    if before.is_literal() and word in _OPERATORS:
        is_joined = word == "/" and look.word(look.at + 1) == "/"
        return _double_slash(look) if is_joined else Found("text-operand", {"token": word})
    if word == "/" and look.word(look.at + 1) == "/":
        return _double_slash(look)
    if word == "=>" and look.opened:
        return Found("two-signs", {"token": word, "instead": ">="})
    return Found("pointer", {"left": look.tables.left.get("pointer", "")}) if word == "=>" else None


def _double_slash(look: Look) -> Found:
    return Found("concatenation" if any(token.is_literal() for token in look.statement) else "double-slash")


def _has_relation(look: Look) -> bool:
    """Tells whether a relation stands before the place in the same operand of .and. and the like."""
    depth = 0
    for word in reversed(look.words[: look.at]):
        depth += (word in CLOSING) - (word in OPENING)
        if depth < 0 or (depth == 0 and word in _LOOSER):
            return False
        if depth == 0 and word in RELATIONS:
            return True
    return False


def _adjacent(look: Look, before: Optional[Token]) -> Optional[Found]:
    """Chooses for two operands side by side in an expression."""
    token = look.token
    if token is None or before is None or not is_operand_end(before) or not _starts_operand(token):
        return None
    touching = before.end() == (token.line, token.column)
    if before.is_number() and touching and _EXPONENT.fullmatch(token.text):
        number = look.shown(look.at - 1, look.at + 1)
        return Found("real", {"number": number, "left": look.tables.left.get("real", "")})
    for word in (token.text, before.text):
        if word in _DOTTED and look.find(word) is None:
            return Found("without-dots", {"token": word})
    if before.is_number() and touching:
        is_coded = before.text == "0" and token.text[0] in "xbo"
        return Found("not-decimal" if is_coded else "number-name", {"token": look.shown(look.at - 1, look.at + 1)})
    in_value = "=" in look.words[: look.at] or bool(look.opened) or look.word(0) in ("print", "write")
    return Found("operator-missing", {"token": look.shown(look.at, look.at + 1)}) if in_value else None
