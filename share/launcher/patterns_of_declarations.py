"""The patterns of refusal 7 at USE, IMPLICIT and declarations: where they come too late, and where they go wrong."""

from typing import Optional

from look import Found, Look, near
from names_in_file import NAMES_OF_MODULE, Scope, group_end, heading_of, is_declaration

_ATTRIBUTES = ("parameter", "allocatable", "save", "dimension", "codimension", "intent")
_EXAMPLES = {"dimension": "dimension (10)", "codimension": "codimension [*]", "intent": "intent (in)"}
_LEFT_KINDS = {"1": "4", "2": "4", "16": "8"}


def _is_specification(look: Look, number: int) -> bool:
    """Tells whether a statement may stand before a declaration."""
    statement = look.statements[number]
    words = [token.text for token in statement[:2]]
    is_heading = heading_of(statement) is not None or (number == 0 and words[0] == "program" and len(statement) == 2)
    return is_heading or words == ["implicit", "none"] or words[0] == "use" or is_declaration(statement)


def _first_action(look: Look, scope: Scope) -> Optional[int]:
    """Returns the first statement of a scope that is no declaration and stands before the place."""
    last = look.spot.statement if look.spot else 0
    for number in range(scope.first, last):
        if not _is_specification(look, number):
            return number
    return None


def at_specification(look: Look) -> Optional[Found]:
    """Chooses for USE, IMPLICIT and declarations."""
    first = look.word(0)
    if look.find(first) is not None or look.word(1) == "=":
        return None
    if first == "use":
        return _use(look)
    if first == "implicit":
        return _implicit(look)
    if first in _ATTRIBUTES and look.at:
        return Found("attribute-statement", {"word": first.upper(), "attribute": first})
    is_type = first in ("integer", "logical") or (first == "type" and look.word(1) == "(")
    if not is_type or heading_of(look.statement) is not None:
        return None
    action = _first_action(look, look.scope)
    if action is not None:
        return Found("declaration-late", {}, look.statements[action][0])
    return _declaration(look)


def _use(look: Look) -> Optional[Found]:
    if look.at == 1 and look.word(1):
        place = look.spot.statement if look.spot else 0
        if look.scope.word != "program":
            return Found("use-in-procedure", {}, look.scope.name)
        others = [it for it in range(place) if look.statements[it][0].text not in ("use", "program")]
        return Found("use-late", {}, look.statements[others[0]][0]) if others else None
    if "=>" in look.words:
        return Found("use-renamed")
    if look.word(look.at) == "only" or look.word(look.at - 1) == "only":
        return Found("use-only")
    return Found("use-list") if look.word(look.at) in NAMES_OF_MODULE else None


def _implicit(look: Look) -> Optional[Found]:
    if look.word(1) != "none":
        return Found("implicit-other")
    if look.at == 2:
        return Found("behind-statement", {"word": "IMPLICIT NONE", "token": look.shown(2, 3)})
    place = look.spot.statement if look.spot else 0
    before = [it for it in range(look.scope.first, place) if look.statements[it][0].text not in ("use", "program")]
    others = [it for it in before if heading_of(look.statements[it]) is None]
    return Found("implicit-late", {}, look.statements[others[0]][0]) if others and look.at == 1 else None


def _declaration(look: Look) -> Optional[Found]:
    """Chooses within a declaration that stands where it may."""
    word, before = look.word(look.at), look.word(look.at - 1)
    if look.at == 1 and word == "*" and (look.word(2).isdigit() or look.word(2) == "("):
        kind = _LEFT_KINDS.get(look.word(2), look.word(2))
        shown = f"{look.word(0)} ({kind})" if look.word(0) == "integer" and kind in ("4", "8") else look.word(0)
        return Found("star-kind", {"token": look.shown(0, 3), "instead": shown})
    if before == ":" and look.words[: look.at].count(":") == 1 and not look.opened:
        return Found("one-colon")
    has_colons = "::" in look.words
    behind_type = group_end(look.statement, 1) if look.word(1) == "(" else 1
    in_attributes = look.word(behind_type) == "," and (not has_colons or look.at <= look.words.index("::"))
    if in_attributes and before == "," and not look.opened:
        return _attribute(look, word)
    if in_attributes and before in ("dimension", "codimension", "intent") and not look.opened:
        return Found("attribute-brackets", {"word": before.upper(), "example": _EXAMPLES[before]})
    if in_attributes and before in ("(", "in") and "intent" in look.words[look.at - 3 : look.at]:
        return Found("intent", {"token": word})
    if not has_colons and not look.opened and word:
        if word == ":":
            return Found("one-colon")
        if look.word(behind_type) == "," and look.statement[look.at].is_name() and before != ",":
            return Found("colons-attribute", {"name": word})
        if word == "=" and look.statement[look.at - 1].is_name():
            return Found("colons-value", {"name": before, "front": look.shown(0, behind_type)})
    return _entity(look, word, before)


def _attribute(look: Look, word: str) -> Optional[Found]:
    if word in look.tables.left:
        return Found("left", {"word": word.upper(), "left": look.tables.left[word]})
    found = near(word, _ATTRIBUTES)
    if look.token and look.token.is_name():
        there = ", ".join(it.upper() for it in _ATTRIBUTES)
        return Found("attribute", {"token": word, **({"near": found.upper()} if found else {"there": there})})
    return None


def _entity(look: Look, word: str, before: str) -> Optional[Found]:
    """Chooses within the list of entities."""
    opened = look.opened
    if opened:
        return _bounds(look, word, before)
    if "=" in look.words[: look.at] and before != ",":
        return None
    token = look.token
    if word == "(" and before in ("]", "/)"):
        return Found("shape-behind-coshape")
    wants_name = before in ("::", ",") or look.at == 1
    if token is None:
        return Found("no-entity", {"before": before}) if wants_name else None
    if wants_name and token.is_number():
        ahead = look.statement[look.at + 1] if look.at + 1 < len(look.words) else None
        is_one = ahead is not None and ahead.is_name() and token.end() == (ahead.line, ahead.column)
        return Found("name-with-digit", {"token": look.shown(look.at, look.at + 1 + is_one)})
    if wants_name and token.text in ("(", "[", "=", ","):
        return Found("no-entity", {"before": before})
    is_behind_entity = look.statement[look.at - 1].is_name() or before in (")", "]")
    return Found("comma-missing", {"token": word}) if token.is_name() and is_behind_entity else None


def _bounds(look: Look, word: str, before: str) -> Optional[Found]:
    """Chooses within the bounds or cobounds of an entity, and within the bracket of a type that isn't closed."""
    place = look.opened[-1]
    bracket = look.word(place)
    if look.opened[0] == 1 and ":" in look.words[: look.at]:
        return Found("bracket-open", {"bracket": "(", "closing": ")"}, look.statement[1])
    if word == ")" and before == "*" or word == "*" and bracket == "(":
        return Found("assumed-size")
    if bracket in ("[", "(/") and word in ("]", "/)") and before not in ("*", ":", bracket):
        return Found("last-cobound")
    return None
