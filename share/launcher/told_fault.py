"""What is said of a run fault: the array and its subscripts, the divisor, the selector, as far as the line, the trace
and the values of variables tell them; else the case of the fault that the line shows."""

import re
from typing import Callable, Dict, Iterator, Optional, Tuple

from fault_line import Case, Line, of_name
from fault_numbers import division, overflow
from scene import Scene, Told
from source_text import Declared, Reference, split_list
from values import bounds_in, bounds_of, spell_bounds


def told_fault(scene: Scene, image: int, line: int, kind: str) -> Told:
    """Returns what is said of a run fault of an image."""
    action = scene.source.action(line)
    given = Line(action.text, action.column, scene.where(line, image), scene)
    if kind not in _FINDERS:
        return Told(line, scene.say("RunFault", "alone", image=image), kind, hint=kind)
    case = _FINDERS[kind](given)
    text = scene.say(kind, case.name, image=image, statement=action.text, **case.found)
    column = action.column + case.place
    if column > len(scene.source.line(line) or ""):
        return Told(line, text, kind, hint=kind)
    return Told(line, text, kind, column, hint=kind, length=case.length)


def _arrays(line: Line) -> Iterator[Tuple[Reference, Declared]]:
    """Gives the elements and sections of arrays on the line."""
    for it in line.references():
        declared = line.declared(it.name)
        if it.subscripts and declared and declared.bounds:
            yield it, declared


def _bounds(line: Line) -> Case:
    """A subscript: the one that leaves its bounds where values are shown, the only one where there is one array."""
    found = list(_arrays(line))
    for it, declared in found:
        bounds = bounds_of(declared, line.where)
        if declared.is_allocatable:
            bounds = bounds_in(line.scene.survey.standing.allocated.get(it.name, ""), line.where)
        for at, (subscript, (lower, upper)) in enumerate(zip(it.subscripts or [], bounds or []), 1):
            for text in subscript.split(":")[:2]:
                value = line.value(text)
                if value is not None and not lower <= value <= upper and text.strip():
                    is_literal = text.strip() == str(value)
                    case = "value" if is_literal else "value of a name"
                    case += "" if len(bounds or []) == 1 else " of one"
                    limits = f"{lower} to {upper}"
                    return of_name(it, case, subscript=text.strip(), value=value, number=at, limits=limits)
    asked = [it for it in line.references() if it.name in ("size", "lbound", "ubound", "this_image") and it.subscripts]
    if not found and len(asked) == 1:
        return of_name(asked[0], "dimension")
    if len(found) == 1:
        it, declared = found[0]
        shown = bounds_of(declared, line.where)
        case = "array" if shown else "array of unknown bounds"
        return of_name(it, case, bounds=spell_bounds(shown) if shown else "")
    return Case("alone", {"things": " or ".join(it.text for it, _ in found)}) if found else Case("unknown")


def _zero_step(line: Line) -> Case:
    """A step of DO, or a stride."""
    loop = re.match(r"(?:\w+[ \t]*:[ \t]*)?do[ \t]+\w+[ \t]*=(.*)", line.text, re.ASCII)
    if loop:
        parts = split_list(loop[1])
        return Case("loop", {"thing": parts[2] if len(parts) > 2 else ""})
    strides = [(it, subscript.split(":")) for it in line.references() for subscript in it.subscripts or []]
    strides = [(it, pieces) for it, pieces in strides if len(pieces) == 3 and line.value(pieces[2]) in (0, None)]
    zeros = [(it, pieces) for it, pieces in strides if line.value(pieces[2]) == 0] or strides
    if len(zeros) == 1 or (zeros and line.value(zeros[0][1][2]) == 0):
        return of_name(zeros[0][0], "stride", stride=zeros[0][1][2].strip())
    return Case("unknown")


def _selector(line: Line) -> Case:
    """An image selector, or an image index."""
    images = line.scene.images
    found = [it for it in line.references() if it.selector is not None]
    asked = [it for it in line.references() if it.name in ("image_status", "image_index")]
    in_team = len(line.scene.survey.standing.members) > 1
    for it in found:
        value = line.value((it.selector or [""])[0]) if len(it.selector or []) == 1 else None
        first = line.scene.first_cosubscript(line.declared(it.name))
        if value is None or first is None or first <= value < first + images:
            continue
        if first == 1:
            return of_name(it, "value", selector=value, images=_count(images))
        return of_name(it, "cosubscript", selector=value, limits=f"{first} to {first + images - 1}")
    if len(asked) == 1 and not found:
        return of_name(asked[0], "index", images=_count(images))
    if len(found) == 1:
        return of_name(found[0], "team" if in_team else "selector", images=_count(images))
    things = " or ".join(it.text for it in found)
    return Case("alone", {"things": things, "images": _count(images)}) if found else Case("unknown")


def _count(images: int) -> str:
    return f"there are {images} images" if images > 1 else "there is 1 image"


def _not_allocated(line: Line) -> Case:
    """A variable that isn't allocated, on this image or on the one that the trace tells."""
    step = line.scene.survey.before_last(line.where.image)
    if step and step.reply == "absent" and step.is_remote:
        name = step.ask[1 if step.word != "atomic" else 2].partition(":")[0]
        named = [it for it in line.references() if it.name == name]
        if named:
            return of_name(named[0], "remote", other=step.owner)
    found = [(it, line.declared(it.name)) for it in line.references()]
    names = {it.name: it for it, declared in found if declared and declared.is_allocatable}
    if len(names) == 1:
        calls = any(line.where.source.has_procedure(it.name) for it, _ in found)
        is_event = re.match(r"event[ \t]+wait\b|call[ \t]+event_query\b", line.text, re.ASCII)
        return of_name(next(iter(names.values())), "anew" if is_event and calls else "own")
    return Case("alone", {"things": " or ".join(names)}) if names else Case("unknown")


def _not_established(line: Line) -> Case:
    found = [it for it in line.references() if it.selector is not None]
    return of_name(found[0], "coarray") if len(found) == 1 else Case("unknown")


def _no_team(line: Line) -> Case:
    found = [it for it in line.references() if _is_team(line.declared(it.name))]
    words = " ".join(line.text.partition("(")[0].split()).upper()
    if len(found) == 1:
        return of_name(found[0], "variable")
    return Case("number") if "team_number" in line.text else Case("statement", {"thing": words or "a statement"})


def _is_team(declared: Optional[Declared]) -> bool:
    return declared is not None and declared.type == "type" and not declared.cobounds


def _cells(line: Line) -> Case:
    found = [it for it in line.references() if it.selector is not None or _is_coarray(line, it)]
    return of_name(found[0], "section") if len(found) == 1 else Case("unknown")


def _is_coarray(line: Line, found: Reference) -> bool:
    declared = line.declared(found.name)
    return declared is not None and bool(declared.cobounds)


def _depth(line: Line) -> Case:
    names = [it for it in line.references() if line.where.source.has_procedure(it.name)]
    called = re.match(r"call[ \t]+(\w+)", line.text, re.ASCII)
    if called:
        return Case("call", {"thing": called[1]})
    return of_name(names[0], "call", thing=names[0].name) if len(names) == 1 else Case("unknown")


def _room(line: Line) -> Case:
    if line.text.startswith(("print", "write")):
        return Case("items")
    called = re.match(r"call[ \t]+(\w+)", line.text, re.ASCII)
    if called:
        return Case("call", {"thing": called[1]})
    return Case("allocation" if line.text.startswith("allocate") else "values")


def _shape(line: Line) -> Case:
    """Two shapes: those of the arrays of the statement, where their bounds are shown."""
    told = []
    if "[" in line.text or any(":" in text for it in line.references() for text in it.subscripts or []):
        return Case("unknown")
    for it in line.references():
        declared = line.declared(it.name)
        if declared and declared.bounds and it.subscripts is None:
            bounds = bounds_of(declared, line.where)
            told.append(f"{it.name}({spell_bounds(bounds)})" if bounds else it.name)
    named = list(dict.fromkeys(told))
    return Case("arrays", {"things": " and ".join(named)}) if len(named) == 2 else Case("unknown")


def _format(line: Line) -> Case:
    raw = line.where.source.line(line.where.line) or ""
    found = re.search(r"(['\"])(\(.*?\))\1", raw)
    return Case("format", {"thing": found[2]}) if found else Case("unknown")


_FINDERS: Dict[str, Callable[[Line], Case]] = {
    "Overflow": overflow,
    "DivideByZero": division,
    "Bounds": _bounds,
    "ZeroStep": _zero_step,
    "CoBounds": _selector,
    "NotAllocated": _not_allocated,
    "NotEstablished": _not_established,
    "NoTeam": _no_team,
    "Cells": _cells,
    "Depth": _depth,
    "Room": _room,
    "Shape": _shape,
    "Format": _format,
}
