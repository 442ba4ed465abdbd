"""The cases of arguments: of procedures of the program (45 and 46), names of procedures (47), atomic and collective
subroutines (53 and 54), intrinsic procedures (59), and of formats (57)."""

import re
from typing import Dict, Optional, Tuple

from cases_of_values import node_at, shown_operand, shown_what
from look import Chooser, Found, Look
from names_in_file import Declared, Scope
from typed import FUNCTIONS, LISTS, SUBROUTINES, Node, parents_of, walk

# Of each intrinsic procedure how few and how many arguments it takes.
_COUNTS: Dict[str, Tuple[int, int]] = {
    **dict.fromkeys(("abs", "huge", "allocated"), (1, 1)),
    **dict.fromkeys(("mod", "modulo", "lbound", "ubound"), (2, 2)),
    **dict.fromkeys(("min", "max"), (2, 1000)),
    **dict.fromkeys(("int", "size", "image_status"), (1, 2)),
    "this_image": (0, 3),
    "image_index": (2, 3),
    **dict.fromkeys(("num_images", "failed_images", "stopped_images", "team_number", "get_team"), (0, 1)),
    **dict.fromkeys(("atomic_fetch_add", "atomic_fetch_and", "atomic_fetch_or", "atomic_fetch_xor"), (3, 4)),
    "atomic_cas": (4, 5),
    **dict.fromkeys(("co_sum", "co_min", "co_max"), (1, 3)),
}
_KEYWORDS: Dict[str, str] = {
    "abs": "a",
    "int": "a kind",
    "huge": "x",
    "mod": "a p",
    "modulo": "a p",
    "size": "array dim",
    "lbound": "array dim",
    "ubound": "array dim",
    "allocated": "v",
    "co_sum": "a result_image stat",
    "co_min": "a result_image stat",
    "co_max": "a result_image stat",
    "co_broadcast": "a source_image stat",
    "event_query": "event count stat",
    "atomic_define": "atom value stat",
    "atomic_ref": "value atom stat",
}
_LOGICAL_ATOMS = ("atomic_define", "atomic_ref", "atomic_cas")
_DESCRIPTOR = re.compile(r"[0-9]*i[0-9]+|[0-9]*l[0-9]+|[0-9]+x|a|'.*'|\".*\"", re.IGNORECASE)


def _call_at(look: Look) -> Optional[Tuple[Node, Node]]:
    """Returns the reference of which an argument begins at the place, and the argument."""
    found = [it for it in parents_of(look.forest, look.at) if it[0].form == "reference" and it[1] in it[0].parts]
    return found[-1] if found else None


def _reference_at(look: Look, name: str) -> Optional[Node]:
    """Returns the reference to a procedure that begins at the place."""
    return next((it for it in walk(look.forest) if it.start == look.at and it.word == name), None)


def _callee(look: Look, node: Node) -> Optional[Scope]:
    return look.names.procedure(node.word)


def _dummy(scope: Scope, place: int) -> Optional[Declared]:
    """Returns the declaration of a dummy argument of a procedure."""
    if place >= len(scope.dummies):
        return None
    listed = scope.names.get(scope.dummies[place].text)
    return listed[0] if listed else None


def _counted(count: int) -> str:
    return f"{'no' if count == 0 else count} argument{'' if count == 1 else 's'}"


def _argument(look: Look) -> Optional[Found]:
    procedure = look.names.procedure(look.word(look.at))
    if procedure is not None:
        name = look.word(look.at)
        node = _reference_at(look, name)
        given = len(node.parts) if node else 0
        values = {"name": name, "wanted": _counted(len(procedure.dummies)), "given": _counted(given)}
        if given < len(procedure.dummies):
            return Found("too-few", values, procedure.name)
    call = _call_at(look)
    callee = _callee(look, call[0]) if call else None
    if call is None or callee is None:
        return None
    node, part = call
    place = node.parts.index(part)
    values = {"name": node.word, "operand": shown_operand(look, part), "wanted": _counted(len(callee.dummies))}
    if part.form == "keyword":
        return Found("keyword", {**values, "keyword": part.word.upper()})
    if part.form == "triplet":
        return Found("triplet", values)
    if place >= len(callee.dummies):
        return Found("too-many", {**values, "given": _counted(len(node.parts))}, callee.name)
    dummy = _dummy(callee, place)
    return _unlike_argument(part, dummy, values) if dummy else None


def _unlike_argument(part: Node, dummy: Declared, values: Dict[str, str]) -> Optional[Found]:
    """Chooses for an argument of another type, kind, rank or shape than its dummy."""
    values = {**values, "dummy": dummy.token.text, "kind": str(dummy.kind), "own": str(part.what.kind)}
    values.update(rank=str(dummy.rank()), given=str(part.what.rank))
    what, wanted = part.what._replace(rank=0, kind=4), shown_what(part.what._replace(type=dummy.type, rank=0, kind=4))
    if what.type and what.type != dummy.type:
        return Found("type", {**values, "what": shown_what(what), "wanted": wanted}, dummy.token)
    if part.what.kind and dummy.kind and part.what.kind != dummy.kind:
        return Found("kind", values, dummy.token)
    if part.what.rank >= 0 and part.what.rank != dummy.rank():
        case = "array-for-scalar" if dummy.rank() == 0 else "scalar-for-array" if part.what.rank == 0 else "rank"
        return Found(case, values, dummy.token)
    return Found("shape", values, dummy.token) if part.what.rank > 0 and part.what.kind and dummy.kind else None


def _out_argument(look: Look) -> Optional[Found]:
    call = _call_at(look)
    callee = _callee(look, call[0]) if call else None
    if call is None or callee is None:
        return None
    node, part = call
    dummy = _dummy(callee, node.parts.index(part))
    if dummy is None:
        return None
    found = look.find(part.word) if part.form in ("name", "reference") else None
    intent = "INTENT (OUT)" if dummy.has("out") else "INTENT (INOUT)" if dummy.has("inout") else "no INTENT"
    values = {"name": node.word, "operand": shown_operand(look, part), "dummy": dummy.token.text, "intent": intent}
    if not dummy.has("intent"):
        values["missing"] = dummy.token.text
    is_variable = found is not None and found.type not in ("function", "subroutine") and not found.has("parameter")
    if found is None or not is_variable:
        return Found("constant" if found is not None and found.has("parameter") else "value", values, dummy.token)
    return Found("coarray", values, dummy.token) if found.codims else None


def _procedure_name(look: Look) -> Optional[Found]:
    name = look.word(look.at)
    procedure = look.names.procedure(name)
    found = look.find(name)
    values = {"name": name}
    is_called = look.word(look.at - 1) == "call"
    if found and found.type not in ("function", "subroutine"):
        return Found("call-of-variable", values, found.token) if is_called else None
    is_function = procedure.word == "function" if procedure else name in FUNCTIONS
    if procedure is None and not is_function and name not in SUBROUTINES:
        return None
    if is_called:
        return Found("call-of-function", values) if is_function else None
    if not is_function:
        is_left = look.at == 0 and look.word(1) in ("=", "(")
        return Found("left-side" if is_left else "subroutine-as-value", values)
    if look.word(look.at + 1) == "=" or (look.at == 0 and look.word(1) == "("):
        return Found("left-side", values)
    return Found("no-brackets", values) if look.word(look.at + 1) != "(" else None


def _atom(look: Look) -> Optional[Found]:
    node = node_at(look)
    if node is None:
        return None
    name = next((word for word in look.words[: look.at] if word.startswith("atomic_")), "")
    found = look.find(node.word) if node.form in ("name", "reference") else None
    values = {"operand": shown_operand(look, node), "word": name.upper()}
    if found is None or found.has("parameter"):
        return Found("no-variable", values)
    if not found.codims:
        return Found("no-coarray", values)
    if node.what.rank > 0:
        return Found("array", values)
    if node.what.type == "integer" and node.what.kind == 8:
        return Found("kind", values)
    what = shown_what(node.what._replace(kind=4))
    if node.what.type in ("lock_type", "event_type", "team_type"):
        return Found("type", {**values, "what": what})
    is_logical = node.what.type == "logical" and name not in _LOGICAL_ATOMS
    return Found("logical", {**values, "what": what}) if is_logical else None


def _collective(look: Look) -> Optional[Found]:
    node = node_at(look)
    if node is None:
        return None
    name = next((word for word in look.words[: look.at] if word.startswith("co_")), "")
    found = look.find(node.word) if node.form in ("name", "reference") else None
    values = {"operand": shown_operand(look, node), "word": name.upper()}
    if found is None or found.has("parameter"):
        return Found("no-variable", values)
    if node.selector is not None:
        return Found("coindexed", values)
    return Found("logical", values) if node.what.type == "logical" else None


def _format(look: Look) -> Optional[Found]:
    token = look.token
    if token is None or not token.is_literal():
        return None
    quote = token.text[0]
    text = token.text[1:-1].replace(quote * 2, quote).strip(" \t")
    if text.startswith("(") and not text.endswith(")"):
        return Found("half-brackets", {"token": token.text})
    if not (text.startswith("(") and text.endswith(")")):
        return Found("no-brackets", {"token": token.text})
    items = re.findall(r"(?:'[^']*'|\"[^\"]*\"|\([^)]*\)|[^,'\"(])+", text[1:-1])
    bad = [it.strip(" \t") for it in items if not _DESCRIPTOR.fullmatch(re.sub("[ \t]", "", it))]
    if bad:
        return _descriptor(bad[0])
    return Found("no-data")


def _descriptor(text: str) -> Found:
    """Chooses for a descriptor that isn't one of the four."""
    values = {"token": text}
    if re.match("[0-9]*[fegd]", text, re.IGNORECASE):
        return Found("real", values)
    if re.fullmatch("[0-9]*[il]", text, re.IGNORECASE):
        return Found("no-width", {**values, "instead": f"{text}5"})
    if text.lower() == "x":
        return Found("no-count", {**values, "instead": "1x"})
    if "(" in text:
        return Found("group", values)
    return Found("descriptor", values)


def _intrinsic_argument(look: Look) -> Optional[Found]:
    name = look.word(look.at)
    call = _call_at(look)
    if name in _COUNTS or name in SUBROUTINES:
        reference = _reference_at(look, name)
        least = _COUNTS.get(name, (2, 3))[0]
        given = len(reference.parts) if reference else 0
        if given < least:
            wanted = _counted(least) + ("" if _COUNTS.get(name, (2, 3))[1] == least else " at least")
            return Found("too-few", {"name": name.upper(), "wanted": wanted, "given": _counted(given)})
    if call is None or call[0].word not in (*FUNCTIONS, *SUBROUTINES):
        return None
    node, part = call
    place = node.parts.index(part)
    most = _COUNTS.get(node.word, (2, 3))[1]
    values = {"name": node.word.upper(), "operand": shown_operand(look, part), "what": shown_what(part.what)}
    if part.form == "triplet":
        return Found("triplet", values)
    keywords = _KEYWORDS.get(node.word, "").split()
    if part.form == "keyword":
        shown = ", ".join(it.upper() for it in keywords)
        is_other = bool(keywords) and part.word not in keywords
        return Found("keyword", {**values, "keyword": part.word.upper(), "there": shown}) if is_other else None
    if place >= most:
        least = _COUNTS.get(node.word, (2, 3))[0]
        wanted = _counted(most) + ("" if least == most else " at most")
        return Found("too-many", {**values, "wanted": wanted, "given": _counted(len(node.parts))})
    return _wrong_argument(look, node, part, values)


def _wrong_argument(look: Look, node: Node, part: Node, values: Dict[str, str]) -> Optional[Found]:
    name = node.word
    if name in ("size", "lbound", "ubound") and part is node.parts[0] and part.what.rank == 0 and part.what.type:
        return Found("no-array", values)
    found = look.find(part.word) if part.form in ("name", "reference") else None
    if name == "allocated" and not (found and found.has("allocatable")):
        return Found("not-allocatable", values)
    is_first = part is node.parts[0]
    if name in ("image_index", "this_image") and is_first and not (found and found.codims):
        return Found("no-coarray", values)
    if name == "image_index" and not is_first and part is node.parts[1] and part.what.rank == 0:
        return Found("no-list", values)
    has_type = part.what.type in ("lock_type", "event_type", "logical")
    takes_integers = name in FUNCTIONS and name not in (*LISTS, "allocated", "size", "lbound", "ubound")
    if has_type and (takes_integers or not name.startswith("atomic_") or part.what.type != "logical"):
        return Found("type", values)
    return Found("atomic-type", values) if name.startswith("atomic_") and values["what"] else None


CHOOSERS: Dict[str, Chooser] = {
    "45": _argument,
    "46": _out_argument,
    "47": _procedure_name,
    "53": _atom,
    "54": _collective,
    "57": _format,
    "59": _intrinsic_argument,
}
