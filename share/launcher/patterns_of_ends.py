"""The patterns of refusal 7 at END statements, at ELSE and CASE, at procedures, and at what stands behind the END of
the program or behind CONTAINS."""

from typing import Dict, List, Optional

from blocks import END_WORDS, SHOWN, Block, closed_by, open_blocks, opened_by
from lexing import Statement, Token
from look import Found, Look
from names_in_file import ends_unit, group_end, heading_of

_UNITS = ("subroutine", "function", "program")
_CLOSERS = {"team": "change", "case": "", "while": "", "for": "", "loop": "", "module": "", "type": "", "interface": ""}
_PARTS = ("else", "elseif", "case")


def _before(look: Look) -> List[Statement]:
    return look.statements[: look.spot.statement] if look.spot else []


def opened_here(look: Look) -> List[Block]:
    """Returns what is open before the statement of the place."""
    return open_blocks(look.statements, len(_before(look)))


def _shown(word: str) -> str:
    return SHOWN.get(word, word.upper())


def at_end(look: Look) -> Optional[Found]:
    """Chooses for a statement that begins with END."""
    first = look.word(0)
    if not first.startswith("end") or look.word(1) in ("=", "("):
        return None
    is_joined = first != "end"
    word = first[3:] if is_joined else look.word(1)
    if look.find(first) or (is_joined and word not in END_WORDS and word not in _CLOSERS):
        return None
    if look.at > (1 if is_joined else 2) or (look.at == 2 and not is_joined):
        return Found("behind-end-statement", {"end": look.shown(0, look.at).upper(), "token": _token(look)})
    opened = opened_here(look)
    wanted = {"team": "change"}.get(word, word)
    if wanted in END_WORDS and wanted not in _UNITS:
        return _end_of_construct(opened, wanted)
    if wanted == "" or wanted in _UNITS:
        return _end_of_unit(opened, look)
    right = {"case": "select", "while": "do", "for": "do", "loop": "do"}.get(word)
    values = {"end": f"END {word.upper()}"}
    if right and opened and opened[-1].word == right:
        return Found("no-such-end", {**values, "instead": END_WORDS[right]})
    return Found("no-such-end", {**values, "other": values["end"]})


def _token(look: Look) -> str:
    return look.shown(look.at, look.at + 1) or "nothing"


def _end_of_construct(opened: List[Block], wanted: str) -> Optional[Found]:
    """Chooses for the END of a construct where another one is open, or none."""
    end = END_WORDS[wanted]
    if wanted not in [block.word for block in opened]:
        return Found("end-of-nothing", {"end": end, "word": _shown(wanted)})
    inner = opened[-1]
    if inner.word == wanted:
        return None
    values = {"missing": END_WORDS[inner.word], "word": _shown(inner.word), "line": str(inner.token.line)}
    return Found("end-missing", {**values, "end": end}, inner.token)


def _end_of_unit(opened: List[Block], look: Look) -> Optional[Found]:
    """Chooses for the END of a procedure or of the program."""
    inner = opened[-1] if opened else None
    shown = " ".join(word.upper() for word in look.words[:2] if word in ("end", *_UNITS) or word.startswith("end"))
    if inner and inner.word not in _UNITS:
        values = {"missing": END_WORDS[inner.word], "word": _shown(inner.word), "line": str(inner.token.line)}
        return Found("end-missing", {**values, "end": shown}, inner.token)
    unit = inner.word if inner else "program"
    values = {"end": shown, "unit": unit.upper(), "instead": END_WORDS[unit]}
    return Found("end-of-other-unit", values, inner.token if inner else None)


def behind_the_program(look: Look) -> Optional[Found]:
    """Chooses for a statement behind the END of the program."""
    depth = 0
    is_behind_contains = False
    for statement in _before(look):
        if len(statement) == 1 and statement[0].text == "contains":
            is_behind_contains = True
        elif is_behind_contains and heading_of(statement) is not None:
            depth = 1
        elif ends_unit(statement) and depth:
            depth = 0
        elif ends_unit(statement):
            case = "procedure-behind-end" if heading_of(look.statement) is not None else "behind-end"
            return Found(case, {"token": look.shown(0, 1)}, statement[0])
    return None


def at_procedure(look: Look) -> Optional[Found]:
    """Chooses for the heading of a procedure, and for what stands between procedures."""
    contains = [it for it in _before(look) if len(it) == 1 and it[0].text == "contains"]
    heading = heading_of(look.statement)
    first = look.word(0)
    if heading is not None and not contains:
        return Found("before-contains", {"word": look.word(heading).upper()})
    if not contains:
        return None
    found = _heading(look, heading) if heading is not None and look.token else None
    if found:
        return found
    if heading is not None and look.word(heading) == "function" and look.at == heading + 2:
        return Found("function-brackets", {"name": look.word(heading + 1)})
    if first in ("subroutine", "function") and look.at == 1:
        return Found("procedure-name", {"word": first.upper()})
    is_between = not [block for block in opened_here(look) if block.word in _UNITS]
    if is_between and heading is None and look.at == 0 and first not in _UNITS:
        return Found("behind-contains", {}, contains[0][0])
    return None


def _heading(look: Look, heading: int) -> Optional[Found]:
    """Chooses for what stands behind the name in the heading of a procedure."""
    has_brackets = look.word(heading + 2) == "("
    behind = group_end(look.statement, heading + 2) if has_brackets else heading + 2
    if look.at == behind and (has_brackets or look.word(heading) == "subroutine"):
        return Found("behind-statement", {"word": "this heading", "token": _token(look)})
    is_behind_type = look.word(look.at - 1) in ("integer", "logical")
    return Found("dummy-type", {"name": _token(look)}) if is_behind_type and heading + 2 < look.at < behind else None


def at_branch(look: Look) -> Optional[Found]:
    """Chooses for ELSE and CASE, and for what stands before the first CASE."""
    first = look.word(0)
    opened = opened_here(look)
    inner = opened[-1] if opened else None
    if first in _PARTS and look.word(1) != "=" and look.find(first) is None:
        wanted = "select" if first == "case" else "if"
        if inner is None or inner.word != wanted:
            return _part_of_nothing(opened, wanted, look)
        return _case(look) if first == "case" else _else(look, inner)
    if inner and inner.word == "select" and look.at == 0 and not _parts_of(look, inner, "case"):
        is_default = first == "default"
        return Found("default-without-case" if is_default else "before-case", {"token": first})
    return None


def _part_of_nothing(opened: List[Block], wanted: str, look: Look) -> Found:
    """Chooses for an ELSE or a CASE of no construct, or of one within which another is open."""
    shown = "CASE" if wanted == "select" else "ELSE IF" if look.word(0) == "elseif" or look.word(1) == "if" else "ELSE"
    if wanted in [block.word for block in opened]:
        inner = opened[-1]
        values = {"missing": END_WORDS[inner.word], "word": _shown(inner.word), "line": str(inner.token.line)}
        return Found("end-missing", {**values, "end": shown}, inner.token)
    return Found("part-of-nothing", {"part": shown, "word": _shown(wanted)})


def _parts_of(look: Look, block: Block, word: str) -> List[Token]:
    """Returns the first tokens of the statements of an open construct that begin with a word, ELSE or CASE."""
    parts: List[Token] = []
    depth = 0
    for statement in _before(look):
        if statement[0] == block.token:
            depth = 0
            parts = []
        elif opened_by(statement):
            depth += 1
        elif closed_by(statement) and depth:
            depth -= 1
        elif depth == 0 and statement[0].text == word:
            parts.append(statement[0])
    return parts


def _else(look: Look, block: Block) -> Optional[Found]:
    is_else_if = look.word(0) == "elseif" or look.word(1) == "if"
    elses = [token for token in _parts_of(look, block, "else") if not _is_else_if(look, token)]
    if elses:
        return Found("behind-else", {"part": "ELSE IF" if is_else_if else "ELSE"}, elses[0])
    if not is_else_if:
        return Found("with-else", {"token": _token(look)}) if look.at == 1 else None
    start = 1 if look.word(0) == "elseif" else 2
    if look.at == start:
        return Found("condition-brackets", {"word": "ELSE IF"})
    return Found("else-if-then") if look.word(start) == "(" and group_end(look.statement, start) == look.at else None


def _is_else_if(look: Look, token: Token) -> bool:
    statement = next(it for it in look.statements if it[0] == token)
    return len(statement) > 1 and statement[1].text == "if"


def _case(look: Look) -> Optional[Found]:
    values: Dict[str, str] = {"token": _token(look)}
    if look.at == 1:
        if look.word(1) == "else":
            return Found("case-else")
        return Found("case-brackets", values)
    if look.token and look.word(1) == "(" and look.at == group_end(look.statement, 1):
        return Found("behind-statement", {"word": "CASE (..)", **values})
    return Found("behind-case-default", values) if look.at == 2 and look.word(1) == "default" else None
