"""What is said of an error stop: that of the program itself, or the status that no STAT= took, with the images that
have stopped or failed, or that hold the lock."""

from typing import Dict, List, Optional, Tuple

from message import Note
from scene import Scene, Told, images_said, joined
from tables import Kind
from trace import Step
from waits import Over, statement_of

STOPPED, FAILED = "6000", "6001"
_LOCK_CODES = ("6003", "6004", "6005")


def told_stop(scene: Scene, image: int, line: int, code: str) -> Told:
    """Returns what is said of an error stop of an image."""
    entry = scene.tables.find(Kind.CODE, code)
    text = scene.source.action(line).text
    if entry is None or text.startswith("error"):
        case = "own" if code != "0" or _has_code(text) else "own without a code"
        return Told(line, scene.say("ErrorStop", case, image=image, code=code), "ErrorStop", hint="ErrorStop")
    named = f"{code} {entry.name}"
    step = scene.survey.before_last(image)
    found: Dict[str, object] = {"image": image, "thing": _statement(scene, step, line)}
    helps = (scene.say("ErrorStop", "help"),)
    if code in (STOPPED, FAILED) and step:
        others = _ended(scene, step, code)
        notes = scene.over_notes(others)
        found["others"] = _how_ended(scene, others)
        case = code if others else f"{code} alone"
        return Told(line, scene.say("ErrorStop", case, **found), named, notes=tuple(notes), helps=helps, hint=code)
    if code in _LOCK_CODES and step:
        found["thing"], holder, notes = _lock(scene, step)
        said = scene.say("ErrorStop", code, holder=holder, **found)
        return Told(line, said, named, notes=tuple(notes), helps=helps, hint=code)
    if code == "6006":
        from told_argument import bad_argument  # here, since the others don't need it

        case, told = bad_argument(scene, image, line, text)
        said = scene.say("ErrorStop", f"6006 {case}", image=image, **told)
        return Told(line, said, named, helps=helps, hint=code)
    said = scene.say("ErrorStop", f"{code} alone", meaning=entry.meaning, **found)
    return Told(line, said, named, helps=helps, hint=code)


def _has_code(text: str) -> bool:
    return bool(text.partition("stop")[2].strip())


def _statement(scene: Scene, step: Optional[Step], line: int) -> str:
    """Returns the words of the statement to whose status the image came."""
    text = scene.source.action(line).text or "a statement"
    if step is None:
        return text
    arrival = scene.survey.standing.arrival.get(step.image)
    if step.word in ("leave", "take") and arrival:
        return statement_of(arrival, scene.source)
    words = {"unpair": "SYNC IMAGES", "enter": "CRITICAL", "post": "EVENT POST", "read": "a reference to"}
    words.update({"lock": "LOCK", "trylock": "LOCK", "unlock": "UNLOCK", "write": "a definition of"})
    said = words.get(step.word, text)
    if step.word in ("read", "write"):
        said += f" {step.ask[1].partition(':')[0]}[{step.owner}]"
    return said


def _ended(scene: Scene, step: Step, code: str) -> List[Tuple[int, Over]]:
    """Returns the images that had ended when a step got its status: of those that it needed."""
    standing = scene.survey.standing
    has_failed = code != STOPPED
    ended = {it: over for it, over in standing.over.items() if over.has_failed == has_failed}
    needed: List[int] = sorted(ended)
    if step.word in ("leave", "take"):
        team, number = step.team, int(step.ask[2])
        come = standing.arrived.get(("arrive" if step.word == "leave" else "gather", team), {})
        late = [it for it in come if int(come[it].reply.partition(" ")[2]) >= number and it in ended and not has_failed]
        needed = [it for it in standing.members.get(team, needed) if it not in late]
    elif step.word == "unpair":
        needed = standing.set_of.get(step.image, needed)
    elif step.owner and code == FAILED:
        needed = [step.owner]
    return [(it, ended[it]) for it in needed if it in ended]


def _how_ended(scene: Scene, others: List[Tuple[int, Over]]) -> str:
    """Returns the images with how they ended; those that ended alike stand together."""
    ways: Dict[str, List[int]] = {}
    for it, over in others:
        ways.setdefault(scene.how_over(it, over), []).append(it)
    return joined(f"{images_said(who)} {how}" for how, who in ways.items())


def _lock(scene: Scene, step: Step) -> Tuple[str, str, List[Note]]:
    """Returns the lock, who holds it since when, and the place of that."""
    name = step.ask[1]
    held = scene.survey.standing.locks.get(f"{step.owner} {name}")
    base, _, offset = name.partition(":")
    thing = f"{base}[{step.owner}]" if offset == "0" else f"cell {offset} of {base} of image {step.owner}"
    if held is None:
        return thing, "", []
    holder = f"held by {'itself' if held.image == step.image else f'image {held.image}'} since line {held.line}"
    return thing, holder, [scene.note(held.line, f"image {held.image} acquired it here")]
