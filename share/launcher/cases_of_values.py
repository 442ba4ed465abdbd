"""The cases of operands, assignments, subscripts, image selectors and specifiers (31 to 35), and of arrays where they
can't stand (37 and 38)."""

from typing import Dict, List, Optional

from blocks import open_blocks
from lexing import Token
from look import Chooser, Found, Look, near
from names_in_file import CLOSING, OPENING, Declared, group_end, is_declaration, split
from typed import FUNCTIONS, LISTS, LOGICAL_OPERATORS, RELATIONS, Node, Typer, What, parents_of, walk

_SHOWN = {"integer": "an integer", "logical": "logical", "lock_type": "a lock", "event_type": "an event"}
_SHOWN["team_type"] = "a team"
_SPECIFIERS = {
    "lock": ["stat", "acquired_lock"],
    "event wait": ["stat", "until_count"],
    "form team": ["stat", "new_index"],
}
_LONGEST = 40


def shown_what(what: What) -> str:
    """Returns what an expression is, in words, or nothing where that can't be told."""
    if what.rank > 0 and what.type in ("integer", "logical"):
        return f"an array of {what.type}s"
    shown = _SHOWN.get(what.type, "")
    return f"{shown} of kind 8" if what.type == "integer" and what.kind == 8 else shown


def shown_operand(look: Look, node: Node) -> str:
    """Returns an expression in backticks, or `it` where it is long."""
    text = look.shown_node(node)
    return f"`{text}`" if 0 < len(text) <= _LONGEST else "it"


def node_at(look: Look) -> Optional[Node]:
    """Returns the largest expression that begins at the place."""
    return next((it for it in walk(look.forest) if it.start == look.at and it.form != "keyword"), None)


def _operand(look: Look) -> Optional[Found]:
    for parent, part in parents_of(look.forest, look.at):
        what = shown_what(part.what)
        values = {"operator": parent.word, "operand": shown_operand(look, part), "what": what}
        wants_logical = parent.word in LOGICAL_OPERATORS
        if not what:
            continue
        if parent.form in ("binary", "prefix") and part.what.type != ("logical" if wants_logical else "integer"):
            return _of_operator(parent, part, values)
        item = _item(parent, part, values) if parent.form == "constructor" else None
        if item:
            return item
        is_array = parent.form in ("reference", "name") and look.find(parent.word) is not None
        if part.what.type != "integer" and (is_array or parent.form == "triplet"):
            in_selector = part in (parent.selector or [])
            case = "cosubscript" if in_selector else "section" if parent.form == "triplet" else "subscript"
            return Found(case, values)
    return None


def _of_operator(parent: Node, part: Node, values: Dict[str, str]) -> Found:
    if parent.word in LOGICAL_OPERATORS:
        has_help = part.form in ("name", "reference", "number") and part.what.type == "integer"
        return Found("logical", {**values, "compared": f"{values['operand'][1:-1]} /= 0"} if has_help else values)
    if parent.word in RELATIONS:
        instead = {"==": ".eqv.", "/=": ".neqv."}.get(parent.word) if part.what.type == "logical" else None
        return Found("relation", {**values, "instead": instead} if instead else values)
    return Found("arithmetic", values)


def _item(parent: Node, part: Node, values: Dict[str, str]) -> Optional[Found]:
    first = parent.parts[0]
    if part is first:
        return Found("first-item", values) if part.what.type in ("lock_type", "event_type") else None
    kinds = shown_what(first.what._replace(rank=0)), shown_what(part.what._replace(rank=0))
    if kinds[0] == kinds[1] or not all(kinds):
        return None
    if "integer" in (first.what.type,) and first.what.type == part.what.type:
        return Found("item-kind", {"first": str(first.what.kind), "second": str(part.what.kind), **values})
    return Found("item", {**values, "first": kinds[0], "what": kinds[1]})


def _assignment(look: Look) -> Optional[Found]:
    if is_declaration(look.statement):
        return _first_value(look)
    is_loop = look.word(look.at - 1) == "do"
    name = look.word(look.at)
    found = look.find(name)
    values = {"name": name}
    if found is None:
        return None
    if found.has("parameter") and not is_loop:
        return Found("constant", values, found.token)
    if found.has("in"):
        return Found("dummy", values, found.token)
    loop = _active_loop(look, name)
    if loop:
        return Found("outer-loop" if is_loop else "loop", {**values, "line": str(loop.line)}, loop)
    if found.type in ("lock_type", "event_type"):
        return Found(found.type.partition("_")[0], values)
    return None if is_loop else _unlike(look, found)


def _active_loop(look: Look, name: str) -> Optional[Token]:
    """Returns the first token of an open DO loop of a variable."""
    number = look.spot.statement if look.spot else 0
    for block in open_blocks(look.statements, number):
        if block.word == "do":
            statement = next(it for it in look.statements if it[0] == block.token)
            texts = [token.text for token in statement]
            if texts[texts.index("do") + 1 : texts.index("do") + 2] == [name]:
                return block.token
    return None


def _unlike(look: Look, found: Declared) -> Optional[Found]:
    """Chooses for an assignment between unlike types."""
    place = _behind_equals(look)
    value = Typer(look.names, look.scope, look.statement).at(place)
    what, left = shown_what(value.what._replace(rank=0, kind=4)), _SHOWN.get(found.type, "")
    if place < 0 or not what or not left or what == left:
        return None
    values = {"name": found.token.text, "left": left, "what": what, "value": shown_operand(look, value)}
    is_truth = found.type == "logical" and look.word(place) in ("0", "1") and place + 1 == len(look.words)
    truth = ".true." if look.word(place) == "1" else ".false."
    return Found("types", {**values, "truth": truth} if is_truth else values)


def _first_value(look: Look) -> Optional[Found]:
    for listed in look.scope.names.values():
        for declared in listed:
            if look.token in declared.value[:1]:
                what = Typer(look.names, look.scope, look.statement).at(look.at).what
                shown = shown_what(what._replace(rank=0, kind=4))
                left = _SHOWN.get(declared.type, "")
                values = {"name": declared.token.text, "left": left, "what": shown}
                return Found("initial", values) if shown and left and shown != left else None
    return None


def _node_here(look: Look) -> Optional[Node]:
    """Returns the designator that begins at the place."""
    return next((it for it in walk(look.forest) if it.start == look.at and it.form in ("name", "reference")), None)


def _plural(count: int, word: str) -> str:
    return f"{'no' if count == 0 else count} {word}{'' if count == 1 else 's'}"


def _subscripts(look: Look) -> Optional[Found]:
    node, found = _node_here(look), look.find(look.word(look.at))
    if node is None or found is None:
        return None
    name, rank, corank = found.token.text, found.rank(), found.corank()
    in_allocate = look.word(0) == "allocate" or "allocate" in look.words[: look.at]
    count = len(node.parts)
    has_brackets = look.word(look.at + 1) == "("
    values = {"name": name, "rank": str(rank), "corank": str(corank)}
    if has_brackets and rank == 0:
        return Found("scalar", values)
    if has_brackets and count != rank:
        case = "bounds" if in_allocate else "subscripts"
        return Found(case, {**values, "count": _plural(count, "bound" if in_allocate else "subscript")})
    if node.selector is None:
        return None
    cosubscripts = len(_cobounds(look, node.end)) if in_allocate else len(
        [it for it in node.selector if it.form != "keyword"]
    )
    if cosubscripts != corank and corank:
        case = "cobounds" if in_allocate else "cosubscripts"
        return Found(case, {**values, "count": _plural(cosubscripts, case[:-1])})
    return Found("whole", {**values, "colons": ", ".join([":"] * rank)}) if rank and not has_brackets else None


def _cobounds(look: Look, end: int) -> List[List[Token]]:
    """Returns the cobounds in the square brackets behind the object at the place."""
    start = look.at
    while look.word(start) not in ("[", "(/") and start < end:
        start += 1
    return split(look.statement[start + 1 : end - 1])


def _selector(look: Look) -> Optional[Found]:
    name = look.word(look.at)
    found = look.find(name)
    if found is None:
        return None
    in_allocate = look.word(assignment_start(look)) == "allocate" and look.word(look.at - 1) in ("(", ",")
    if in_allocate and len(look.opened) == 1:
        return Found("cobounds", {"name": name})
    is_variable = found.type not in ("function", "subroutine") and not found.has("parameter")
    return Found("selector", {"name": name, **({"coarray": name} if is_variable else {})})



def _statement_name(look: Look) -> str:
    """Returns the words of the statement whose specifier stands at the place."""
    first, second = look.word(0), look.word(1)
    return first if second == "(" else f"{first} {second}"


def _specifier(look: Look) -> Optional[Found]:
    name = look.word(look.at)
    selector = next((it for it in walk(look.forest) if look.token in it.specifiers), None)
    if selector:
        before = [it.text for it in selector.specifiers if it.column < look.column or it.line < look.line]
        there = ["stat", "team", "team_number"]
    else:
        start = look.opened[-1] if look.opened else 0
        before = [look.word(it) for it in range(start, look.at) if look.word(it + 1) == "="]
        there = _SPECIFIERS.get(_statement_name(look), ["stat"])
    values = {"name": name.upper()}
    if name in before:
        return Found("twice", values)
    if selector and name in ("team", "team_number"):
        return Found("both", values)
    if name in there:
        return None
    if name in look.tables.left:
        return Found("left", {**values, "left": look.tables.left[name]})
    found = near(name, there)
    shown = ", ".join(f"{it.upper()}=" for it in there)
    return Found("unknown", {**values, **({"near": found.upper()} if found else {"there": shown})})


def assignment_start(look: Look) -> int:
    """Returns where the action of the statement begins, behind the conditions of one-line IFs."""
    start = 0
    while look.word(start) == "if" and look.word(start + 1) == "(":
        start = group_end(look.statement, start + 1)
    return start


def _array_for_scalar(look: Look) -> Optional[Found]:
    for parent, part in parents_of(look.forest, look.at):
        is_name = parent.form == "reference"
        values = {"operand": shown_operand(look, part), "operator": parent.word.upper() if is_name else parent.word}
        if part.what.rank > 0 and parent.form in ("binary", "prefix"):
            return Found("operator", values)
        if part.what.rank > 0 and parent.form == "reference" and parent.word in FUNCTIONS:
            return Found("argument", values)
    node = next((it for it in walk(look.forest) if it.start == look.at and it.what.rank > 0), None)
    if node is None:
        return None
    if look.word(look.at - 1) == "=" and is_declaration(look.statement):
        return Found("initial", {"name": next((it.token.text for it in _declared_here(look)), "it")})
    start = assignment_start(look)
    name = look.word(start)
    left = look.find(name)
    is_assigned = look.at == _behind_equals(look) and name != "do"
    if is_assigned and left and not left.has("allocatable"):
        return Found("assigned", {"name": look.shown(start, look.at - 1), "operand": shown_operand(look, node)})
    return Found("array", {"operand": shown_operand(look, node)})


def _behind_equals(look: Look) -> int:
    """Returns the place behind the `=` of the statement that stands in no bracket, or -1."""
    depth = 0
    for index, word in enumerate(look.words):
        depth += (word in OPENING) - (word in CLOSING)
        if word == "=" and depth == 0:
            return index + 1
    return -1


def _declared_here(look: Look) -> List[Declared]:
    """Returns what gets the first value that begins at the place."""
    return [it for listed in look.scope.names.values() for it in listed if look.token in it.value[:1]]


def _array_assignment(look: Look) -> Optional[Found]:
    if is_declaration(look.statement):
        return Found("initial", {"name": next((it.token.text for it in _declared_here(look)), "the array")})
    node = next((it for it in walk(look.forest) if it.start == look.at), None)
    if node is None:
        return None
    left = Typer(look.names, look.scope, look.statement).at(assignment_start(look)).what
    values = {"operand": shown_operand(look, node), "rank": str(node.what.rank), "left": str(left.rank)}
    if node.word in LISTS and node.form == "reference":
        return Found("list", {**values, "word": node.word.upper()})
    return Found("rank", values) if left.rank > 0 and node.what.rank not in (0, -1, left.rank) else None


CHOOSERS: Dict[str, Chooser] = {
    "31": _operand,
    "32": _assignment,
    "33": _subscripts,
    "34": _selector,
    "35": _specifier,
    "37": _array_for_scalar,
    "38": _array_assignment,
}
