"""The cases of declarations (22 to 30)."""

from typing import Dict, List, Optional

from lexing import Statement
from look import Chooser, Found, Look
from names_in_file import Declared, heading_of, split
from typed import FUNCTIONS, Typer, What

_GREATEST = 2147483647
# The greatest rank and corank, and the most cells.
_MOST = 3
_MOST_CELLS = 65536
_INQUIRIES = ("size", "lbound", "ubound", "huge")
_CONSTANT = ("abs", "mod", "modulo", "min", "max", "int", *_INQUIRIES)


def _entity(look: Look) -> Optional[Declared]:
    """Returns what the declaration declares whose name or first value begins at the place, or has it inside."""
    token = look.token
    for declared in _of_statement(look):
        inside = [declared.token, *declared.value, *sum(declared.dims or [], []), *sum(declared.codims or [], [])]
        if token in inside:
            return declared
    return None


def _of_statement(look: Look) -> List[Declared]:
    """Returns what the statement of the place declares."""
    place = look.spot.statement if look.spot else -1
    return [it for listed in look.scope.names.values() for it in listed if it.statement == place]


def _not_constant(look: Look, tokens: Statement) -> str:
    """Returns the first name among these tokens that is no constant, or nothing."""
    for index, token in enumerate(tokens):
        declared = look.find(token.text)
        has_brackets = index + 1 < len(tokens) and tokens[index + 1].text == "("
        if not token.is_name() or (declared and declared.has("parameter")):
            continue
        if declared or (token.text in FUNCTIONS and token.text not in _CONSTANT and has_brackets):
            return token.text
    return ""


def _asks_bounds(tokens: Statement) -> bool:
    return any(token.text in _INQUIRIES for token in tokens)


def _initial_value(look: Look) -> Optional[Found]:
    token = look.token
    if token is None:
        return None
    if token.is_number() and "_" in token.text:
        suffix = look.find(token.text.partition("_")[2])
        if suffix and not suffix.has("parameter"):
            return Found("kind-variable", {"name": suffix.token.text})
    declared = _entity(look)
    if declared is None:
        return _kind_of_type(look)
    name = declared.token.text
    if token == declared.token:
        return Found("no-value", {"name": name}) if declared.has("parameter") else None
    if token not in declared.value[:1]:
        return None
    if declared.has("allocatable"):
        return Found("allocatable", {"name": name})
    culprit = _not_constant(look, declared.value)
    if culprit and not _asks_bounds(declared.value):
        return Found("not-constant", {"name": name, "culprit": culprit})
    if len(declared.value) == 1 and token.is_number() and declared.type == "integer" and declared.kind == 4:
        return Found("too-wide", {"name": name, "token": token.text})
    return _faulty(declared.value) if not culprit else None


def _faulty(tokens: Statement) -> Optional[Found]:
    """Chooses for a constant expression whose value can't be worked out: without a division it leaves its kind."""
    words = [token.text for token in tokens]
    if any(pair == ("/", "0") for pair in zip(words, words[1:])):
        return Found("by-zero")
    divides = [word for word in words if word in ("/", "mod", "modulo", "**", *_INQUIRIES[:3])]
    return Found("leaves-kind") if not divides else None


def _kind_of_type(look: Look) -> Optional[Found]:
    """Chooses for a kind: that of a declaration, or KIND of INT."""
    in_type = look.word(0) in ("integer", "logical") and look.word(1) == "(" and look.at in (2, 4)
    tokens = _argument(look.statement, look.at)
    culprit = _not_constant(look, tokens)
    if culprit and (in_type or look.word(look.at - 1) == "," or look.word(look.at - 2) == "kind"):
        return Found("kind-not-constant", {"culprit": culprit})
    return Found("kind-too-wide") if in_type and not culprit and not _asks_bounds(tokens) else None


def _argument(statement: Statement, start: int) -> Statement:
    """Returns the tokens from a place to the end of what stands between two commas there."""
    rest = split(statement[start:])[0]
    depth = 0
    for index, token in enumerate(rest):
        depth += (token.text in ("(", "[")) - (token.text in (")", "]"))
        if depth < 0:
            return rest[:index]
    return rest


def _kind(look: Look) -> Optional[Found]:
    token = look.token
    if token is None:
        return None
    in_type = look.word(1) == "(" and (look.at == 2 or look.at == 4 and look.word(3) == "=")
    if look.word(0) in ("integer", "logical") and in_type:
        return _kind_of_declaration(look)
    if not token.is_number():
        return None
    digits, _, suffix = token.text.partition("_")
    value = look.names.value([token], look.scope) or 0
    kind = Typer(look.names, look.scope, look.statement).kind_of(token)
    if suffix and kind not in (4, 8):
        return Found("literal-kind", {"token": token.text, **({"value": str(kind)} if kind else {"name": suffix})})
    if (kind == 4 or not suffix) and value > _GREATEST:
        is_negative = value == _GREATEST + 1 and look.word(look.at - 1) == "-"
        return Found("negative" if is_negative else "literal", {"value": digits})
    return Found("of-int", {"value": str(value)}) if look.word(look.at - 1) == "," else None


def _kind_of_declaration(look: Look) -> Optional[Found]:
    tokens = _argument(look.statement, look.at)
    what = _typed(look)
    if what.type == "logical":
        return Found("kind-logical")
    value = look.names.value(tokens, look.scope)
    if look.word(0) == "logical":
        return Found("logical", {"value": str(value)}) if value is not None else Found("logical-kind")
    return Found("integer", {"value": str(value)}) if value is not None else Found("integer-kind")


def _typed(look: Look) -> What:
    """Returns what the expression at the place is."""
    return Typer(look.names, look.scope, look.statement).at(look.at).what


def _rank(look: Look) -> Optional[Found]:
    declared = _entity(look)
    if declared is None:
        return None
    values = {"name": declared.token.text, "rank": str(declared.rank()), "corank": str(declared.corank())}
    if declared.rank() > _MOST and declared.corank() > _MOST:
        return Found("both", values)
    if declared.rank() > _MOST:
        return Found("rank", values)
    return Found("corank", values) if declared.corank() > _MOST else None


def _bound(look: Look) -> Optional[Found]:
    declared = _entity(look)
    if declared is None:
        return None
    if _typed(look).type not in ("integer", ""):
        return Found("not-integer", {"name": declared.token.text})
    tokens = next((part for part in _bounds(declared) if part and part[0] == look.token), [])
    values = {"name": declared.token.text, "bound": "".join(token.text for token in tokens)}
    culprit = _not_constant(look, tokens)
    if culprit and not _asks_bounds(tokens):
        is_dummy = any(it.text == culprit for it in look.scope.dummies)
        is_procedure = culprit in FUNCTIONS and not look.find(culprit)
        case = "of-dummy" if is_dummy else "call" if is_procedure else "not-constant"
        return Found(case, {**values, "culprit": culprit})
    value = look.names.value(tokens, look.scope)
    if value is None:
        return None
    if abs(value) > _GREATEST:
        return Found("too-wide", values)
    is_upper = look.word(look.at - 1) == ":"
    return Found("below", {**values, "lower": _lower(look)}) if is_upper and not culprit else None


def _lower(look: Look) -> str:
    """Returns the lower bound before the colon before the place."""
    front = look.statement[: look.at - 1]
    start = max((index for index, token in enumerate(front) if token.text in ("[", "(", ",")), default=-1)
    return "".join(token.text for token in front[start + 1 :])


def _bounds(declared: Declared) -> List[Statement]:
    """Returns each bound and cobound."""
    return [part for dim in (declared.dims or []) + (declared.codims or []) for part in split(dim, ":")]


def _is_deferred(dims: Optional[List[Statement]]) -> bool:
    return bool(dims) and all([token.text for token in dim] == [":"] for dim in dims or [])


def _has_deferred(dims: Optional[List[Statement]]) -> bool:
    return any([token.text for token in dim] == [":"] for dim in dims or [])


def _deferred(look: Look) -> Optional[Found]:
    declared = _entity(look)
    if declared is None:
        return None
    values = {"name": declared.token.text}
    if declared.has("allocatable"):
        if declared.dims and not _is_deferred(declared.dims):
            return Found("explicit", values)
        if declared.codims and not _is_deferred(declared.codims):
            return Found("explicit-coshape", values)
        return Found("scalar", values) if not declared.dims and not declared.codims else None
    if _has_deferred(declared.dims):
        is_dummy = any(it.text == declared.token.text for it in look.scope.dummies)
        return Found("assumed" if is_dummy else "deferred", values)
    return Found("deferred-coshape", values) if _has_deferred(declared.codims) else None


def _special_type(look: Look) -> Optional[Found]:
    declared = _entity(look)
    if declared is None:
        return None
    values = {"name": declared.token.text, "type": declared.type.upper()}
    if look.token != declared.token:
        return Found("value", values)
    if declared.type == "team_type":
        return Found("team-coarray" if declared.codims else "team-array", values)
    return Found("no-coarray", values)


def _in_procedure(look: Look) -> Optional[Found]:
    declared = _entity(look)
    if declared is None:
        return None
    values = {"name": declared.token.text}
    if look.token != declared.token:
        is_dummy = any(it.text == declared.token.text for it in look.scope.dummies)
        return Found("constant" if declared.has("parameter") else "value-of-dummy" if is_dummy else "value", values)
    for case, is_so in (
        ("coarray", bool(declared.codims)),
        ("save", declared.has("save")),
        ("allocatable", declared.has("allocatable")),
    ):
        if is_so:
            return Found(case, values)
    return None


def _intent(look: Look) -> Optional[Found]:
    token = look.token
    if token is None:
        return None
    is_heading = heading_of(look.statement) is not None
    return Found("no-type" if is_heading else "no-dummy", {"name": token.text})


def _cells(look: Look) -> Optional[Found]:
    declared = _entity(look)
    if declared is None:
        return None
    values = {"name": declared.token.text}
    case = "coarray" if declared.codims else "variable"
    return Found(case if _extent(look, declared) > _MOST_CELLS else f"{case}s", values)


def _extent(look: Look, declared: Declared) -> int:
    """Returns how many cells a variable has, as far as its bounds can be told."""
    cells = 1
    for dim in declared.dims or []:
        parts = split(dim, ":")
        values = [look.names.value(part, look.scope) for part in parts]
        lower, upper = (values[0], values[1]) if len(values) > 1 else (1, values[0])
        cells *= max(upper - lower + 1, 0) if lower is not None and upper is not None else 1
    return cells


CHOOSERS: Dict[str, Chooser] = {
    "22": _initial_value,
    "23": _kind,
    "24": _rank,
    "25": _bound,
    "26": _deferred,
    "27": _special_type,
    "28": _in_procedure,
    "29": _intent,
    "30": _cells,
}
