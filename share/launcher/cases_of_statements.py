"""The cases of statements: their result variables, conditions and loops (36, 39 and 40), locks, events, teams and image
sets (48 to 52), allocation (55), lists of images (56) and what is printed (58)."""

from typing import Dict, Optional

from cases_of_values import assignment_start, node_at, shown_operand, shown_what
from look import Chooser, Found, Look
from names_in_file import group_end, is_declaration
from typed import FUNCTIONS, LISTS, SUBROUTINES, What, parents_of



def _result_variable(look: Look) -> Optional[Found]:
    node = node_at(look)
    if node is None:
        return None
    keyword = look.word(look.at - 2).upper() if look.word(look.at - 1) == "=" else ""
    found = look.find(node.word) if node.form in ("name", "reference") else None
    wanted = "logical" if keyword == "ACQUIRED_LOCK" else "an integer"
    what = shown_what(node.what._replace(rank=0, kind=4))
    values = {"operand": shown_operand(look, node), "wanted": wanted, "what": what}
    values["target"] = f"{keyword}=" if keyword else "this argument"
    if found is None or found.type in ("function", "subroutine"):
        return Found("no-variable", values) if node.form != "odd" else None
    if found.has("parameter"):
        return Found("constant", values)
    if found.codims:
        return Found("coarray", values)
    if node.what.rank > 0:
        return Found("array", values)
    is_stat = keyword in ("STAT", "ACQUIRED_LOCK", "COUNT", "OLD")
    return Found("type", values) if is_stat and what and what != wanted else None


def _condition(look: Look) -> Optional[Found]:
    node = node_at(look)
    what = shown_what(node.what) if node else ""
    if node is None or not what:
        return None
    values = {"operand": shown_operand(look, node), "what": what}
    before, two_before = look.word(look.at - 1), look.word(look.at - 2)
    if before == "(" and two_before in ("if", "while", "elseif"):
        has_name = node.form in ("name", "reference") and node.what.type == "integer"
        return Found("condition", {**values, "compared": f"{look.shown_node(node)} /= 0"} if has_name else values)
    if before == "stop":
        return Found("stop", {**values, "word": "ERROR STOP" if two_before == "error" else "STOP"})
    if before == "=" and two_before in ("new_index", "until_count", "team_number"):
        return Found("specifier", {**values, "name": two_before.upper()})
    if look.word(assignment_start(look)) == "allocate":
        return Found("bound", values)
    if two_before == "team" and before == "(":
        return Found("team", values)
    is_loop = "do" in look.words[:3]
    return Found("loop", {**values, "part": _part_of_loop(look)}) if is_loop else None


def _part_of_loop(look: Look) -> str:
    """Returns which of the values of a DO statement stands at the place."""
    if look.word(look.at - 1) == "=":
        return "first value"
    depth = commas = 0
    for word in look.words[: look.at]:
        depth += (word in ("(", "[")) - (word in (")", "]"))
        commas += word == "," and depth == 0
    return "last value" if commas == 1 else "step"


def _do_variable(look: Look) -> Optional[Found]:
    found = look.find(look.word(look.at))
    if found is None:
        return None
    values = {"name": found.token.text}
    if found.type in ("function", "subroutine"):
        return Found("procedure", values)
    if found.has("parameter"):
        return Found("constant", values)
    if found.codims:
        return Found("coarray", values)
    if found.dims:
        return Found("array", values)
    what = shown_what(What(found.type, 4, 0))
    return Found("type", {**values, "what": what}) if what and found.type != "integer" else None


def _lock_or_event(look: Look) -> Optional[Found]:
    node = node_at(look)
    if node is None:
        return None
    what = shown_what(node.what._replace(kind=4, rank=0))
    values = {"operand": shown_operand(look, node), "what": what, "word": _control_words(look)}
    values.update({"name": node.word} if node.form == "name" else {})
    wanted = "lock_type" if look.number == "48" else "event_type"
    if node.what.type == wanted:
        return Found("array", values) if node.what.rank > 0 else None
    return Found("type", values) if what else None


def _control_words(look: Look) -> str:
    """Returns the name of the statement that does something with a lock or an event."""
    if "event_query" in look.words:
        return "EVENT_QUERY"
    words = look.words[assignment_start(look) :]
    return (" ".join(words[:2]) if words[0] == "event" else words[0]).upper()


def _coindexed_event(look: Look) -> Found:
    return Found("wait" if "event_query" not in look.words else "query")


def _team(look: Look) -> Optional[Found]:
    node = node_at(look)
    if node is None:
        return None
    what = shown_what(node.what._replace(rank=0))
    values = {"operand": shown_operand(look, node), "what": what}
    values.update({"name": node.word} if node.form == "name" else {})
    if node.what.type == "team_type":
        return Found("elsewhere", values)
    return Found("type", values) if what else None


def _image_set(look: Look) -> Optional[Found]:
    node = node_at(look)
    if node is None:
        return None
    values = {"operand": shown_operand(look, node), "rank": str(node.what.rank)}
    what = shown_what(node.what._replace(rank=0))
    if what and node.what.type != "integer":
        return Found("type", {**values, "what": what})
    if node.what.rank > 1:
        return Found("rank", values)
    return Found("coindexed", values) if node.what.rank == 1 and node.selector is not None else None


def _allocate(look: Look) -> Optional[Found]:
    found = look.find(look.word(look.at))
    if found is None:
        return None
    values = {"name": found.token.text, "word": look.word(assignment_start(look)).upper()}
    if not found.has("allocatable"):
        return Found("not-allocatable", {**values, **({"array": found.token.text} if found.dims else {})}, found.token)
    has_bounds = look.word(look.at + 1) == "("
    rest = look.statement[look.at + 1 : group_end(look.statement, look.at + 1)] if has_bounds else []
    if found.dims and not has_bounds:
        return Found("no-bounds", values)
    if has_bounds and (look.word(look.at + 2) == ":" or any(it.text == ":" for it in rest[-2:-1])):
        return Found("colons", values)
    behind = look.at + 1 + len(rest)
    if found.codims and look.word(behind) not in ("[", "(/"):
        return Found("no-cobounds", values)
    return Found("cocolons", values) if found.codims and look.word(behind + 1) == ":" else None


def _image_list(look: Look) -> Optional[Found]:
    name = look.word(look.at)
    if name not in LISTS:
        return None
    values = {"word": name.upper()}
    for parent, _ in parents_of(look.forest, look.at):
        if parent.form in ("binary", "prefix"):
            return Found("operand", {**values, "operator": parent.word})
        is_procedure = look.names.procedure(parent.word) is not None or parent.word in (*FUNCTIONS, *SUBROUTINES)
        if parent.form == "reference" and is_procedure:
            return Found("argument", {**values, "name": parent.word})
    if look.word(look.at - 1) != "=" or is_declaration(look.statement):
        return Found("elsewhere", values)
    start = assignment_start(look)
    found = look.find(look.word(start))
    if found is None:
        return None
    values["name"] = found.token.text
    if look.word(start + 1) != "=":
        return Found("part", values)
    if found.codims:
        return Found("coarray", values)
    return Found("left", values) if not found.has("allocatable") or found.rank() != 1 else None


def _printed(look: Look) -> Optional[Found]:
    node = node_at(look)
    what = shown_what(node.what._replace(rank=0)) if node else ""
    return Found("item", {"operand": shown_operand(look, node), "what": what}) if node and what else None


CHOOSERS: Dict[str, Chooser] = {
    "36": _result_variable,
    "39": _condition,
    "40": _do_variable,
    "48": _lock_or_event,
    "49": _lock_or_event,
    "50": _coindexed_event,
    "51": _team,
    "52": _image_set,
    "55": _allocate,
    "56": _image_list,
    "58": _printed,
}
