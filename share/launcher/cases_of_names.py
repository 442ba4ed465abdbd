"""The cases of names that aren't there or stand twice (20 and 21)."""

from typing import Dict, Iterable, List, Optional

from lexing import Statement, Token
from look import Chooser, Found, Look, near
from names_in_file import MODULE, NAMES_OF_MODULE, TYPES_OF_MODULE, Declared, heading_of, is_declaration
from typed import FUNCTIONS, SUBROUTINES

_STATEMENTS = (
    "sync all",
    "sync images",
    "sync memory",
    "sync team",
    "form team",
    "change team",
    "event post",
    "event wait",
    "error stop",
    "fail image",
    "lock",
    "unlock",
    "allocate",
    "deallocate",
    "print",
)


def _unknown_name(look: Look) -> Optional[Found]:
    token = look.token
    if token is None or not token.is_name():
        return None
    name = token.text
    if look.word(0) == "use":
        return _of_use(look, name)
    heading = heading_of(look.statement)
    if heading is not None and look.at > heading:
        return Found("result", {"name": name})
    if look.word(look.at - 1) == "(" and look.word(look.at - 2) == "type":
        return _type(look, name)
    if name in NAMES_OF_MODULE:
        return _of_module(look, name)
    return _declared_elsewhere(look, token) or _undeclared(look, name)


def _of_use(look: Look, name: str) -> Found:
    """Chooses for a name in USE: it is that of the module, or stands in the list behind ONLY."""
    if ":" in look.words[: look.at]:
        return Found("only", {"name": name, **_near(name, NAMES_OF_MODULE)})
    return Found("module", {"name": name, **_near(name, [MODULE])})


def _near(name: str, names: Iterable[str]) -> Dict[str, str]:
    found = near(name, names)
    return {"near": found} if found else {}


def _type(look: Look, name: str) -> Found:
    if name in TYPES_OF_MODULE:
        return _of_module(look, name)
    if name in look.names.used() or look.find(name):
        return Found("no-type", {"name": name})
    if name in ("integer", "logical"):
        return Found("intrinsic-type", {"name": name})
    values = {"name": name, **_near(name, TYPES_OF_MODULE)}
    return Found("unknown-type", values if "near" in values else {**values, "left": look.tables.left.get("type", "")})


def _of_module(look: Look, name: str) -> Optional[Found]:
    """Chooses for a name that ISO_FORTRAN_ENV has."""
    if name in look.names.used():
        return Found("type-as-value", {"name": name}) if name in TYPES_OF_MODULE else None
    uses = [use for use in look.names.uses if MODULE in [it.text for it in use]]
    return Found("not-in-only", {"name": name}, uses[0][0]) if uses else Found("not-used", {"name": name})


def _declared_elsewhere(look: Look, token: Token) -> Optional[Found]:
    """Chooses for a name that is declared below the place or in another procedure."""
    place = look.spot.statement if look.spot else 0
    for scope in [look.scope, look.names.scopes[0]]:
        below = [it for it in scope.names.get(token.text, []) if it.statement >= place]
        if below and is_declaration(look.statement):
            return Found("below", {"name": token.text}, below[0].token)
    for scope in look.names.scopes[1:]:
        if scope is not look.scope and token.text in scope.names and scope.name:
            return Found("elsewhere", {"name": token.text, "scope": scope.name.text}, scope.names[token.text][0].token)
    return None


def _undeclared(look: Look, name: str) -> Found:
    is_called = look.word(look.at - 1) == "call" and look.at == look.words.index("call") + 1
    has_brackets = look.word(look.at + 1) == "("
    if name in look.tables.left and (is_called or has_brackets):
        return Found("left", {"name": name, "word": name.upper(), "left": look.tables.left[name]})
    if is_called:
        return _no_subroutine(look, name)
    if name in ("true", "false"):
        return Found("truth", {"name": name})
    if has_brackets:
        known = look.seen_names() + list(FUNCTIONS)
        return Found("no-array-or-function", {"name": name, **_near(name, known)})
    values = _near(name, look.seen_names()) or {"declaration": _declaration(look, name)}
    return Found("undeclared", {"name": name, **values})


def _declaration(look: Look, name: str) -> str:
    """Returns a declaration of a name that suits the statement of the place."""
    opening = look.opened[0] if look.opened else 0
    two = look.words[max(opening - 2, 0) : opening]
    is_first = look.at == opening + 1
    if two[-1:] == ["team"] and (is_first or two[0] == "form"):
        return f"type (team_type) :: {name}"
    if is_first and two[-1:] in (["lock"], ["unlock"]):
        return f"type (lock_type) :: {name}[*]"
    if is_first and two[:1] == ["event"]:
        return f"type (event_type) :: {name}[*]"
    return f"integer :: {name}"


def _no_subroutine(look: Look, name: str) -> Found:
    statement = near(name.replace("_", " "), _STATEMENTS) or ("sync all" if name == "sync" else "")
    if name.replace("_", " ") in _STATEMENTS:
        statement = name.replace("_", " ")
    procedures = [it.name.text for it in look.names.scopes[1:] if it.word == "subroutine" and it.name]
    close = _near(name, procedures + list(SUBROUTINES))
    if not close and statement:
        return Found("no-subroutine", {"name": name, "statement": statement.upper()})
    return Found("no-subroutine", {"name": name, **close})


def _declared_twice(look: Look) -> Optional[Found]:
    token = look.token
    if token is None:
        return None
    place = heading_of(look.statement)
    if place is not None and look.at > place and _types(look.statement[:place]) > 1:
        return Found("two-types", {"name": look.word(place + 1)})
    if place is not None and look.at > place + 1:
        first = [it for it in look.statement[place + 2 : look.at] if it.text == token.text]
        return Found("dummy-twice", {"name": token.text}, first[0]) if first else None
    found = _first(look, token)
    if found is None:
        return None
    case = "procedure" if found.type in ("subroutine", "function") else "twice"
    return Found(case, {"name": token.text}, found.token)


def _types(prefix: Statement) -> int:
    return sum(token.text in ("integer", "logical", "type") for token in prefix)


def _first(look: Look, token: Token) -> Optional[Declared]:
    """Returns the declaration of the name that stands before the token, where there is one."""
    listed: List[Declared] = look.scope.names.get(token.text, [])
    if heading_of(look.statement) is not None:
        listed = look.names.scopes[0].names.get(token.text, [])
    before = [it for it in listed if (it.token.line, it.token.column) < (token.line, token.column)]
    return before[0] if before else None


CHOOSERS: Dict[str, Chooser] = {"20": _unknown_name, "21": _declared_twice}
