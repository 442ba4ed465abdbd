"""The cases of names of constructs and of what leaves a construct or can't stand in it (41 to 43), and of CASE (44)."""

from typing import Dict, List, Optional

from blocks import Block, open_blocks
from cases_of_values import assignment_start, node_at, shown_operand, shown_what
from look import Chooser, Found, Look
from names_in_file import group_end
from typed import Typer


def _opened(look: Look) -> List[Block]:
    return open_blocks(look.statements, look.spot.statement if look.spot else 0)


def _name_before(look: Look, block: Block) -> str:
    """Returns the name that stands before a construct, or nothing."""
    statement = next((it for it in look.statements if it[0] == block.token), [])
    return statement[0].text if len(statement) > 2 and statement[1].text == ":" else ""


def _construct_name(look: Look) -> Optional[Found]:
    name = look.word(look.at)
    if look.word(0).startswith("end"):
        return _name_behind_end(look, name)
    action = assignment_start(look)
    word = look.word(action).upper()
    loops = [block for block in _opened(look) if block.word == "do"]
    if look.at == action:
        return None if loops else Found("outside", {"word": word})
    names = [it for it in (_name_before(look, block) for block in loops) if it]
    values = {"word": word, "name": name}
    return Found("no-such-loop", {**values, "names": ", ".join(f"`{it}`" for it in names)} if names else values)


def _name_behind_end(look: Look, name: str) -> Optional[Found]:
    opened = _opened(look)
    if not opened or opened[-1].word in ("subroutine", "function"):
        first = look.scope.name.text if look.scope.name else ""
        if not opened and look.statements[0][0].text == "program" and len(look.statements[0]) > 1:
            first = look.statements[0][1].text
        if not first:
            return Found("program-without-name", {"name": name}) if not opened else None
        return Found("end-of-unit", {"name": name, "first": first, "word": look.word(1) if look.at > 1 else "unit"})
    first, block = _name_before(look, opened[-1]), opened[-1]
    if not first:
        return Found("end-of-nameless", {"name": name}, block.token)
    return Found("end", {"name": name, "first": first}, block.token)


def _leaves(look: Look) -> Optional[Found]:
    action = assignment_start(look)
    around = [block for block in _opened(look) if block.word in ("critical", "change")]
    if not around:
        return None
    shown = {"critical": "CRITICAL", "change": "CHANGE TEAM"}[around[-1].word]
    values = {"word": look.word(action).upper(), "construct": shown, "line": str(around[-1].token.line)}
    return Found("leaves", values, around[-1].token)


def _in_critical(look: Look) -> Optional[Found]:
    action = assignment_start(look)
    around = [block for block in _opened(look) if block.word == "critical"]
    words = look.words[action : action + 2]
    shown = " ".join(words).upper() if words[:1] in (["sync"], ["event"], ["form"], ["change"]) else words[0].upper()
    return Found("control", {"word": shown}, around[0].token) if around else None


def _case_value(look: Look) -> Optional[Found]:
    if look.word(0) in ("select", "selectcase"):
        node = node_at(look)
        what = shown_what(node.what) if node else ""
        return Found("selector", {"operand": shown_operand(look, node), "what": what}) if node and what else None
    if look.word(1) == "default":
        return Found("default")
    rest = look.statement[look.at : group_end(look.statement, 1) - 1]
    end = next((index for index, token in enumerate(rest) if token.text == ","), len(rest))
    part = rest[:end]
    values = {"value": look.shown(look.at, look.at + end)}
    for token in part:
        found = look.find(token.text)
        if found and not found.has("parameter"):
            return Found("variable", {**values, "name": token.text})
    node = node_at(look)
    if node and node.form == "triplet" and node.parts:
        node = node.parts[0]
    selector = _selector_type(look)
    if node and selector and node.what.type and node.what.type != selector:
        return Found("type", {**values, "what": shown_what(node.what._replace(rank=0)), "selector": selector})
    if selector == "logical" and ":" in [token.text for token in part]:
        return Found("logical-range", values)
    return Found("overlap", values) if node and node.what.type == selector and selector else None


def _selector_type(look: Look) -> str:
    """Returns the type of the selector of the construct around the place, or nothing."""
    opened = [block for block in _opened(look) if block.word == "select"]
    if not opened:
        return ""
    statement = next(it for it in look.statements if it[0] == opened[-1].token)
    start = [token.text for token in statement].index("(")
    return Typer(look.names, look.scope, statement).at(start + 1).what.type


CHOOSERS: Dict[str, Chooser] = {
    "41": _construct_name,
    "42": _leaves,
    "43": _in_critical,
    "44": _case_value,
}
