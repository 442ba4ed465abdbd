"""What is said of a clash: which statements the two images came to, and where these are alike, in what they differ."""

from typing import Dict, Optional, Tuple

from scene import Scene, Told
from trace import Step
from waits import statement_of

_KINDS = {"I4": "kind 4", "I8": "kind 8", "L4": "a logical"}


def told_clash(scene: Scene, image: int, line: int, other: int, at: int) -> Told:
    """Returns what is said of a clash of an image with the one that had come first."""
    own, first = scene.last(image), scene.survey.standing.arrival.get(other)
    note = scene.note(at, scene.say("Clash", "there", other=other))
    found: Dict[str, object] = {"image": image, "other": other, "line": at}
    if own is None or first is None or own.word not in ("arrive", "gather"):
        text = scene.say("Clash", "alone", **found)
        return Told(line, text, "Clash", notes=(note,), hint="Clash")
    mine, theirs = statement_of(own, scene.source), statement_of(first, scene.source)
    found.update(mine=mine, theirs=theirs)
    if mine != theirs:
        helps = (scene.say("Clash", "help"),)
        return Told(line, scene.say("Clash", "statements", **found), "Clash", notes=(note,), helps=helps, hint="Clash")
    case, ours, yours = _difference(own, first)
    text = scene.say("Clash", case, ours=ours, yours=yours, **found)
    helps = (scene.say("Clash", "bounds help"),) if case == "bounds" else ()
    notes = () if at == line else (note,)
    return Told(line, text, "Clash", notes=notes, helps=helps, hint="Clash")


def _difference(own: Step, first: Step) -> Tuple[str, str, str]:
    """Returns in what two statements of one kind differ, and what each has of it."""
    if own.word == "gather":
        return _of_collectives(own, first)
    kind = own.ask[2]
    if kind in ("allocate", "deallocate"):
        for ours, yours in zip(own.ask[3:], first.ask[3:]):
            if ours != yours:
                is_one = ours.partition("(")[0].partition("[")[0] == yours.partition("(")[0].partition("[")[0]
                return ("bounds" if is_one and kind == "allocate" else "objects"), _object(ours), _object(yours)
        return "objects", _objects(own), _objects(first)
    return "lines", "", ""


def _object(text: str) -> str:
    """Returns an object of ALLOCATE with its bounds as a source has them."""
    return text.replace("(1:", "(").replace(",1:", ",").replace("[1:*]", "[*]")


def _objects(step: Step) -> str:
    return ", ".join(_object(it) for it in step.ask[3:])


def _of_collectives(own: Step, first: Step) -> Tuple[str, str, str]:
    """Returns in what two calls of one collective subroutine differ: the kind, the root, or the number of values."""
    if own.ask[4] != first.ask[4]:
        return "kinds", _KINDS.get(own.ask[4], own.ask[4]), _KINDS.get(first.ask[4], first.ask[4])
    if own.ask[3] != first.ask[3]:
        return "roots", _root(own.ask[3]), _root(first.ask[3])
    return "sizes", str(_count(own)), str(_count(first))


def _root(text: str) -> str:
    return "no image" if text == "0" else f"image {text}"


def _count(step: Step) -> Optional[int]:
    values = step.ask[5] if len(step.ask) > 5 else ""
    return len(values.split(",")) if values else 0
