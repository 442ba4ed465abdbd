"""Which argument a statement doesn't take (6006): as far as its line, the trace and the values of variables tell it."""

import re
from typing import Dict, List, Optional, Sequence, Tuple

from scene import Scene, images_said
from source_text import references, split_list
from values import Where, bounds_of, value_of

# A case of docs/use/REFUSALS.md, and what stands in the place of its names.
Bad = Tuple[str, Dict[str, object]]


def bad_argument(scene: Scene, image: int, line: int, text: str) -> Bad:
    """Returns which argument of the statement of a line an image gave that isn't taken."""
    first, _, inside = text.partition("(")
    word = "".join(first.split())
    arguments = split_list(inside.rpartition(")")[0])
    where = scene.where(line, image)
    if word == "syncimages":
        return _bad_set(scene, where, arguments[0] if arguments else "")
    if word in ("allocate", "deallocate"):
        return _bad_object(scene, image, word, [it.partition("(")[0].strip() for it in arguments if "=" not in it])
    if word == "formteam":
        value = value_of(arguments[0], where) if arguments else None
        if value is not None and value < 1:
            which = "" if arguments[0] == f"{value}" else f", which is {value}"
            return "team", {"thing": f"the team number {arguments[0]}{which}"}
        return "team", {"thing": _bad_team(scene, image) or f"the arguments of `{text}`"}
    if word.startswith("call"):
        return _bad_collective(scene, where, word[4:].upper(), arguments)
    return "other", {"thing": text}


def _bad_object(scene: Scene, image: int, word: str, names: Sequence[str]) -> Bad:
    """Returns which variable is allocated already, or isn't; or that the image has no room for what it allocates."""
    absent, present = scene.survey.unallocated.get(image, set()), scene.survey.variables.get(image, {})
    if word == "deallocate":
        return word, {"thing": next((it for it in names if it in absent), " and ".join(names))}
    known = [it for it in names if it in present]
    if known:
        return word, {"thing": known[0]}
    is_room = bool(names) and all(it in absent for it in names)
    return "room" if is_room else "allocate of no value", {"thing": " and ".join(names)}


def _bad_team(scene: Scene, image: int) -> str:
    """Returns the team number that isn't one, or the NEW_INDEX= that no image of its team can have or that two give, of
    the images that came to FORM TEAM together; nothing where the trace doesn't show it."""
    arrival = scene.survey.standing.arrival
    own = arrival.get(image)
    if own is None or own.word != "arrive" or own.ask[2] != "form":
        return ""
    come = [it for it in arrival.values() if (it.ask[:3], it.reply) == (own.ask[:3], own.reply)]
    come.sort(key=lambda it: (it.image != image, it.image))
    teams: Dict[int, List[Tuple[int, int]]] = {}
    for it in come:
        number, index = int(it.ask[3]), int(it.ask[4])
        if number < 1:
            return f"the team number {number}{'' if it is own else f' of image {it.image}'}"
        teams.setdefault(number, []).append((it.image, index))
    for members in teams.values():
        given = [index for _, index in members if index]
        for other, index in members:
            if index and not 1 <= index <= len(members):
                return f"NEW_INDEX={index} of image {other}, in a team of {len(members)}"
            if given.count(index) > 1:
                return f"NEW_INDEX={index} of {images_said([who for who, it in members if it == index])}"
    return ""


def _bad_collective(scene: Scene, where: Where, name: str, arguments: Sequence[str]) -> Bad:
    """Returns whether a collective subroutine doesn't take its image, or its result leaves its kind. An image that
    isn't there is found before this image comes to the others, so the trace has no step of it."""
    roots = [it for it in arguments if re.match(r"(result|source)_image[ \t]*=", it)]
    roots = [it.partition("=")[2].strip() for it in roots] or [it for it in arguments[1:2] if "=" not in it]
    found: Dict[str, object] = {"thing": name, "root": roots[0] if roots else ""}
    if not roots or _has_result(scene, where):
        return "result", found
    value = value_of(roots[0], where)
    if value is not None and not 1 <= value <= scene.images:
        return "root", {**found, "number": value}
    is_told = scene.survey.has_steps or name != "CO_SUM"
    return ("root of no value" if is_told else "collective"), found


def _has_result(scene: Scene, where: Where) -> bool:
    """Tells whether the trace shows that an image got the status from the others."""
    step = scene.survey.before_last(where.image)
    return step is not None and (step.word, step.line, step.reply) == ("take", where.line, "6006")


def _bad_set(scene: Scene, where: Where, text: str) -> Bad:
    """Returns which image of SYNC IMAGES stands twice or isn't there. Where all values are known and none of them is
    wrong by itself, the team has not all of them."""
    values = _images_of(text.replace("(/", "[").replace("/)", "]"), where)
    for it in values:
        if it is not None and not 1 <= it <= scene.images:
            return "absent", {"thing": f"image {it}"}
        if it is not None and values.count(it) > 1:
            return "twice", {"thing": f"image {it}"}
    is_absent = None not in values or (len(values) == 1 and _is_one(text.strip(" \t[]()/"), where))
    return ("absent of no value" if is_absent else "set"), {"thing": text.strip()}


def _is_one(text: str, where: Where) -> bool:
    """Tells whether a name stands for one image, not for an array."""
    declared = where.source.declared(text, where.line)
    return declared is not None and declared.bounds == ""


def _images_of(text: str, where: Where) -> List[Optional[int]]:
    """Returns the images of a set, nothing for those whose value isn't shown: of a constructor, an array, a section or
    a scalar."""
    text = text.strip()
    if text.startswith("[") and text.endswith("]"):
        return [image for it in split_list(text[1:-1]) for image in _images_of(it, where)]
    array = re.fullmatch(r"(\w+)[ \t]*(?:\(([^():,]*):([^():,]*)\))?", text, re.ASCII)
    values = where.variables.get(array[1], []) if array and not where.source.unit(where.line) else []
    declared = where.source.declared(array[1], where.line) if array else None
    if not array or not values or declared is None:
        return [value_of(text, where)]
    if array[2] is None:
        return [*values]
    bounds = bounds_of(declared, where)
    if not bounds or len(bounds) != 1:
        return [None]
    lower = value_of(array[2], where) if array[2].strip() else bounds[0][0]
    upper = value_of(array[3], where) if array[3].strip() else bounds[0][1]
    if lower is None or upper is None:
        return [None]
    return [*values[max(lower - bounds[0][0], 0) : max(upper - bounds[0][0] + 1, 0)]]
