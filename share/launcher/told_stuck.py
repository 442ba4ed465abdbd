"""What is said of a stuck run: whom each image waits for, and the chain of waits that the program tells."""

from typing import Dict, List, Optional, Sequence, Tuple

from chains import Chain
from message import Note
from scene import Scene, Told, images_said, joined, lines_said
from tables import Kind
from trace import Wait
from waits import Held, Waiting, waits_after


def told_stuck(scene: Scene, waits: Sequence[Wait], chain: Optional[Chain] = None) -> Told:
    """Returns what is said: the images that wait at one line for one thing stand together, each such group at a place
    of its own, and behind it where it got what is waited for."""
    if scene.survey.has_steps:
        found = waits_after(scene.survey.standing, waits, scene.source, scene.survey.variables)
    else:
        found = [Waiting(*it, "", ()) for it in waits]
    groups: Dict[Tuple[int, str], List[Waiting]] = {}
    for it in found:
        groups.setdefault((it.line, _said(scene, it)), []).append(it)
    notes: List[Note] = []
    for (line, said), group in groups.items():
        notes += [scene.note(line, f"{_who(group)} {said}"), *_notes(scene, group)]
    helps = tuple(_chain(scene, chain)) if chain else ()
    return Told(notes[0].line, notes[0].text, "Stuck", notes=tuple(notes[1:]), helps=helps, hint="Stuck")


def _who(group: Sequence[Waiting]) -> str:
    return f"{images_said([it.image for it in group])} {'wait' if len(group) > 1 else 'waits'}"


def _said(scene: Scene, waiting: Waiting) -> str:
    """Returns for whom or what an image waits."""
    if waiting.word == "wait":
        return _event(scene, waiting)
    case = {"leave": "round", "take": "round", "unpair": "pair"}.get(waiting.word, waiting.word)
    if not waiting.others:
        return scene.say("Stuck", "alone", meaning=scene.tables.meaning(Kind.WAIT, waiting.word))
    if case in ("round", "pair"):
        return scene.say("Stuck", case, thing=waiting.thing, others=_not_come(waiting.others))
    holders = joined(f"held by image {it.image} since line {it.line}" for it in waiting.others)
    return scene.say("Stuck", case, thing=waiting.thing, holders=holders)


def _notes(scene: Scene, group: Sequence[Waiting]) -> List[Note]:
    """Returns where the thing was posted last, and where those have ended that hold it or posted it."""
    first = group[0]
    if first.word not in ("wait", "lock", "enter"):
        return []
    notes: List[Note] = []
    if first.word == "wait" and first.others:
        last = first.others[-1]
        notes.append(scene.note(last.line, scene.say("Stuck", "posted", image=last.image)))
    over = scene.survey.standing.over
    return notes + scene.over_notes([(it.image, over[it.image]) for it in first.others if it.image in over])


def _not_come(others: Sequence[Held]) -> str:
    """Returns those that haven't come, and where they wait."""
    who = images_said([it.image for it in others])
    lines = [it.line for it in others if it.line]
    verb = "wait" if len(others) > 1 else "waits"
    return f"{who}, which {verb} at {lines_said(lines)}" if lines else who


def _event(scene: Scene, waiting: Waiting) -> str:
    """Returns how many posts of an event are missing."""
    if waiting.wants is None:
        return scene.say("Stuck", "event of a count", thing=waiting.thing, has=waiting.has)
    missing = waiting.wants - waiting.has
    posts = f"{missing}{' more' if waiting.has else ''} post{'s' if missing > 1 else ''}"
    case = "event" if waiting.others else "event without a post"
    return scene.say("Stuck", case, thing=waiting.thing, posts=posts, has=waiting.has)


def _chain(scene: Scene, chain: Chain) -> List[str]:
    """Returns the images that wait for each other, or the chain of more than one that leads to an image that has
    stopped or that waits for a post."""
    images = chain.cycle or chain.images
    waiting = len(images) - (chain.close == "stopped")
    if waiting < 2:
        return []
    said = f"image {images[0]} waits for image {images[1]}"
    for it in images[2:]:
        said += f", which waits for image {it}"
    return [scene.say("Stuck", chain.close, chain=said)]
