"""What is said of a race: the cell by its subscripts, what both images do with it, and what would order the two."""

import re
from typing import Dict, List, NamedTuple, Optional, Sequence, Tuple

from scene import Scene, Told
from source_text import Reference, closing, plain, references
from trace import Race, Side, Step
from uses import use_of
from values import Bounds, bounds_in, bounds_of, subscripts_at, value_of

_OPENS = re.compile(
    r"[ \t]*(?:[a-z]\w*[ \t]*:[ \t]*)?(do|if|select[ \t]*case|critical|change[ \t]*team)\b", re.ASCII
)
_CLOSES = re.compile(r"[ \t]*end[ \t]*(do|if|select|critical|team)\b", re.ASCII)
_BRANCH = re.compile(r"[ \t]*(else|case)\b", re.ASCII)
_VERBS = {
    "read": "reads",
    "write": "writes",
    "create": "allocates",
    "delete": "deallocates",
    "lock": "locks",
    "trylock": "locks",
    "unlock": "unlocks",
    "free": "unlocks",
    "post": "posts",
    "wait": "waits for",
    "query": "queries",
}


class Block(NamedTuple):
    """A construct: its kind and the line on which it begins."""

    kind: str
    line: int


def told_race(scene: Scene, race: Race) -> Told:
    """Returns what is said of a race."""
    cell = cell_of(scene, race)
    first, second = (scene.survey.chosen.get((it.image, it.number)) for it in (race.first, race.second))
    text = scene.say("Race", "first", cell=cell, **_access(scene, race, race.first, first))
    more = scene.say("Race", "second", **_access(scene, race, race.second, second))
    column, length = _span(scene, race, race.second, second)
    note = scene.note(race.second.line, more, column, length)
    column, length = _span(scene, race, race.first, first)
    helps = _what_orders(scene, race)
    return Told(race.first.line, text, "Race", column, (note,), tuple(helps), "Race", length)


def _access(scene: Scene, race: Race, side: Side, step: Optional[Step]) -> Dict[str, object]:
    """Returns the parts of what is said of one access."""
    verb = verb_of(step) if step else use_of(race.coarray, scene.source.line(side.line) or "").verb
    return {"image": side.image, "verb": verb, "step": side.number}


def verb_of(step: Step) -> str:
    """Returns what a step does with a cell."""
    if step.word != "atomic":
        return _VERBS.get(step.word, "uses")
    return "atomically reads" if step.ask[1] == "ref" else "atomically writes"


def cell_of(scene: Scene, race: Race) -> str:
    """Returns the cell by its subscripts, where its bounds are known, and the image that has it."""
    bounds = _bounds(scene, race)
    declared = scene.source.declared(race.coarray, 0)
    if bounds is None:
        name = f"cell {race.cell} of {race.coarray}" if race.cell else race.coarray
        if declared is None or declared.bounds or race.cell:
            return f"cell {race.cell} of {race.coarray} of image {race.owner}"
    else:
        subscripts = subscripts_at(race.cell, bounds)
        if subscripts is None:
            return f"cell {race.cell} of {race.coarray} of image {race.owner}"
        name = f"{race.coarray}({','.join(str(it) for it in subscripts)})"
    return f"{name}[{race.owner}]" if scene.first_cosubscript(declared) == 1 else f"{name} of image {race.owner}"


def _bounds(scene: Scene, race: Race) -> Optional[Bounds]:
    """Returns the bounds of the coarray: those of its declaration, or of its last allocation."""
    declared = scene.source.declared(race.coarray, 0)
    where = scene.where(race.first.line, race.owner)
    if declared is None or not declared.bounds:
        return None
    if declared.is_allocatable:
        return bounds_in(scene.survey.standing.allocated.get(race.coarray, ""), where) or None
    return bounds_of(declared, where)


def _span(scene: Scene, race: Race, side: Side, step: Optional[Step]) -> Tuple[int, int]:
    """Returns the column and the length of the one name on the line that makes the access, or zeros where there are
    more: of a write the one on the left, of a read one on the right."""
    action = scene.source.action(side.line)
    found = [it for it in references(action.text) if it.name == race.coarray]
    if step and step.word in ("read", "write") and len(found) > 1:
        sign = _assignment(action.text)
        found = [it for it in found if (it.place < sign) == (step.word == "write")] if sign else found
    if step and len(found) > 1:
        found = [it for it in found if (it.selector is not None) == step.is_remote] or found
    found = [it for it in found if _is_of(scene, race, side, it)] or found
    if len(found) == 1 and action.column + found[0].place <= len(scene.source.line(side.line) or ""):
        return action.column + found[0].place, len(found[0].text)
    return use_of(race.coarray, scene.source.line(side.line) or "").column if not found else 0, 1


def _is_of(scene: Scene, race: Race, side: Side, found: Reference) -> bool:
    """Tells whether the text of a name shows that it is the cell of the race."""
    bounds = _bounds(scene, race)
    where = scene.where(side.line, side.image)
    values = [value_of(it, where) for it in found.subscripts or []]
    return bool(bounds) and bool(values) and values == subscripts_at(race.cell, bounds or [])


def _assignment(text: str) -> int:
    """Returns the place of the sign of an assignment, or 0."""
    named = next(iter(references(text)), None)
    if named is None or named.place:
        return 0
    behind = text[len(named.text) :].lstrip(" \t")
    return len(text) - len(behind) if behind.startswith("=") and not behind.startswith("==") else 0


def _what_orders(scene: Scene, race: Race) -> List[str]:
    """Says which statement would order the two accesses, where the blocks of the source and the order in which both
    images came there tell it."""
    low, high = sorted((race.first, race.second), key=lambda it: it.line)
    if low.line == high.line:
        return [scene.say("Race", "critical", line=low.line)] if _may_be_critical(scene, race) else []
    if scene.source.unit(low.line) or scene.source.unit(high.line):
        return []
    paths = _paths(scene.source.lines)
    if high.line >= len(paths) or not scene.survey.has_steps:
        return []
    ours, theirs = paths[low.line], paths[high.line]
    depth = 0
    while depth < min(len(ours), len(theirs)) and ours[depth] == theirs[depth]:
        depth += 1
    if any(it.kind != "do" for it in ours[:depth]) or "do while" in {it.kind for it in (*ours, *theirs)}:
        return []
    if len(ours) > depth and len(theirs) > depth and ours[depth].line == theirs[depth].line:
        return []
    end = _end_of(paths, low.line, depth)
    start = theirs[depth].line if len(theirs) > depth else high.line
    if depth and _turn(scene, low) != _turn(scene, high):
        return _next_turn(scene, race, paths, depth)
    return [scene.say("Race", "sync", first=end, second=start)] if end < start else []


def _may_be_critical(scene: Scene, race: Race) -> bool:
    """Tells whether the statement at which both are may stand in a CRITICAL construct: it begins none, and it is no
    image control statement and no collective subroutine."""
    text = scene.source.action(race.first.line).text
    is_plain = re.match(r"call[ \t]+atomic_|print\b|write\b", text, re.ASCII) is not None or _assignment(text) > 0
    return is_plain and not _OPENS.match(text)


def _turn(scene: Scene, side: Side) -> int:
    """Returns how often an image had come to its line when it made the access."""
    return scene.survey.turns.get((side.image, side.number), 0)


def _next_turn(scene: Scene, race: Race, paths: Sequence[Tuple[Block, ...]], depth: int) -> List[str]:
    """Says what orders the access of one turn of a loop before one of the next turn."""
    low, high = sorted((race.first, race.second), key=lambda it: it.line)
    if _turn(scene, low) != _turn(scene, high) + 1:
        return []
    end = _end_of(paths, high.line, depth)
    loop = _end_of(paths, low.line, depth - 1)
    return [scene.say("Race", "sync", first=end, second=loop)] if end < loop else []


def _end_of(paths: Sequence[Tuple[Block, ...]], line: int, depth: int) -> int:
    """Returns the last line of the block at a depth in which a line stands, the line itself where there is none."""
    path = paths[line]
    if len(path) <= depth:
        return line
    block = path[depth]
    while line + 1 < len(paths) and len(paths[line + 1]) > depth and paths[line + 1][depth].line == block.line:
        line += 1
    return line


def _paths(lines: Sequence[str]) -> List[Tuple[Block, ...]]:
    """Returns of each line, from 1, the constructs in which it stands; their first and last lines are among them. A
    branch is told apart from the one before by its kind."""
    paths: List[Tuple[Block, ...]] = [()]
    stack: List[Block] = []
    branches = 0
    for number, line in enumerate(lines, 1):
        text = plain(line)
        opens = _OPENS.match(text)
        if opens and not (opens[1] == "if" and not _is_block_if(text)):
            is_counted = opens[1] != "do" or "=" in text[opens.end() :].partition("while")[0]
            stack.append(Block(opens[1].split()[0] if is_counted else "do while", number))
        elif _BRANCH.match(text) and stack:
            branches += 1
            stack[-1] = Block(f"branch {branches}", stack[-1].line)
        paths.append(tuple(stack))
        if _CLOSES.match(text) and stack:
            stack.pop()
    return paths


def _is_block_if(text: str) -> bool:
    return text[closing(text, text.find("(")) :].strip() == "then"
