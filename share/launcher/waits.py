"""Whom each image of a stuck run waits for, and why: read off its trace.

The step for which an image waits isn't in the trace, for it isn't made. What is held, who has come where and who has
ended are. The line of the source tells which lock or event is meant, where there is more than one.
"""

from typing import Dict, List, NamedTuple, Optional, Sequence, Tuple

from source_text import Reference, Source, references
from trace import Run, Step, Wait
from values import Where, offset_of, value_of

_GOT = ("0", "6002")
Variables = Dict[int, Dict[str, List[int]]]


class Held(NamedTuple):
    """An image that holds something, or has done something, and the line of that."""

    image: int
    line: int


class Over(NamedTuple):
    """How an image has ended: at which line, 0 where the words of the call let it fail, by its step of that number."""

    line: int
    has_failed: bool
    number: int


class Waiting(NamedTuple):
    """An image that waits: the line and the word as the run tells them; the thing (`SYNC ALL`, or the lock or event
    `right[1]`, as far as it is known); the images that hold the thing, or haven't come, each with the line since which
    it holds it or at which it is; and of an event the posts that it has, and that are wanted where that is known."""

    image: int
    line: int
    word: str
    thing: str
    others: Tuple[Held, ...]
    has: int = 0
    wants: Optional[int] = None


class Standing:
    """Where each image stands: it takes the steps of a run in their order. A team has rounds of its own for collective
    subroutines."""

    def __init__(self, images: int) -> None:
        self.images = images
        self.members: Dict[str, List[int]] = {"1": list(range(1, images + 1))}
        self.arrived: Dict[Tuple[str, str], Dict[int, Step]] = {}
        self.arrival: Dict[int, Step] = {}
        self.locks: Dict[str, Held] = {}
        self.inside: Dict[str, Held] = {}
        self.constructs: Dict[int, str] = {}
        self.posts: Dict[str, int] = {}
        self.posted: Dict[str, Held] = {}
        self.named: Dict[Tuple[int, int], int] = {}
        self.set_of: Dict[int, List[int]] = {}
        self.over: Dict[int, Over] = {}
        self.allocated: Dict[str, str] = {}
        self.cobounds: Dict[str, str] = {}

    def take(self, step: Step) -> None:
        """Takes the next step."""
        word = step.word
        if word in ("arrive", "gather"):
            self._arrive(step)
        elif word == "leave":
            self._leave(step)
        elif word == "pair":
            self._pair(step)
        elif word in ("lock", "trylock", "unlock", "free"):
            self._lock(step)
        elif word in ("enter", "exit"):
            self._enter(step)
        elif word in ("post", "wait"):
            self._post(step)
        elif word in ("stop", "fail"):
            self.over[step.image] = Over(step.line, word == "fail", step.number)
        elif word in ("create", "delete"):
            self._make_anew(step)

    def _arrive(self, step: Step) -> None:
        self.arrival[step.image] = step
        if step.reply.startswith("round "):
            self.arrived.setdefault((step.word, step.team), {})[step.image] = step
        if step.word == "arrive" and step.ask[2] == "allocate":
            for it in step.ask[3:]:
                shape, _, cobounds = it.partition("[")
                name, _, bounds = shape.partition("(")
                self.allocated[name] = bounds.rstrip(")")
                self.cobounds[name] = cobounds.rstrip("]")

    def _leave(self, step: Step) -> None:
        for team in step.reply.partition(" teams ")[2].split(" "):
            number, _, members = team.partition(":")
            if members:
                self.members[number.partition("/")[0]] = [int(it) for it in members.split(".")]

    def _pair(self, step: Step) -> None:
        self.set_of[step.image] = [int(it) for it in step.ask[1].split(",") if it] if step.ask[1:] else []
        for other in self.set_of[step.image]:
            self.named[step.image, other] = self.named.get((step.image, other), 0) + 1

    def _lock(self, step: Step) -> None:
        cell = f"{step.owner} {step.ask[1]}"
        if step.word in ("lock", "trylock"):
            if step.reply in _GOT:
                self.locks[cell] = Held(step.image, step.line)
        elif step.reply == "0" or step.word == "free":
            self.locks.pop(cell, None)

    def _enter(self, step: Step) -> None:
        if step.word == "enter":
            self.inside[step.ask[1]] = Held(step.image, step.line)
            self.constructs[step.line] = step.ask[1]
        else:
            self.inside.pop(step.ask[1], None)

    def _post(self, step: Step) -> None:
        cell = f"{step.owner} {step.ask[1]}"
        if step.word == "post" and step.reply == "0":
            self.posts[cell] = self.posts.get(cell, 0) + 1
            self.posted[cell] = Held(step.image, step.line)
        elif step.word == "wait":
            self.posts[cell] = self.posts.get(cell, 0) - int(step.ask[2])

    def _make_anew(self, step: Step) -> None:
        """Forgets the locks and events of a coarray that is made or deleted."""
        front = f"{step.owner} {step.ask[1]}:"
        for cells in (self.locks, self.posts, self.posted):
            for cell in [it for it in cells if it.startswith(front)]:
                cells.pop(cell)

    def not_come(self, arrival: Step) -> List[int]:
        """Returns the members of a team that haven't come to a round, and haven't ended before."""
        team, number = arrival.team, _round_of(arrival)
        come = self.arrived.get((arrival.word, team), {})
        members = self.members.get(team, self.members["1"])
        return [it for it in members if it not in self.over and (it not in come or _round_of(come[it]) < number)]

    def not_paired(self, image: int) -> List[int]:
        """Returns those that an image names in SYNC IMAGES which haven't named it as often, and haven't ended."""
        named = self.named
        wanted = [it for it in self.set_of.get(image, []) if it not in self.over]
        return [it for it in wanted if named.get((it, image), 0) < named[image, it]]


def _round_of(arrival: Step) -> int:
    return int(arrival.reply.partition(" ")[2])


def waits_of(run: Run, source: Optional[Source] = None, images: int = 0) -> List[Waiting]:
    """Returns what each image of a stuck run waits for, in the order of the run's waits. `images` is how many there
    are, as many as the run names where it isn't given."""
    standing = Standing(images or run.images)
    for step in run.steps:
        standing.take(step)
    return waits_after(standing, run.waits, source or Source(""))


def waits_after(
    standing: Standing, waits: Sequence[Wait], source: Source, variables: Optional[Variables] = None
) -> List[Waiting]:
    """Returns what each image waits for after the steps that were taken. The values of each image's variables tell
    which lock or event a statement means, where they are known."""
    lines = {it.image: it.line for it in waits}
    found = []
    for it in waits:
        where = Where(source, it.line, it.image, standing.images, (variables or {}).get(it.image, {}))
        found.append(_waiting(standing, it, where, lines))
    return found


def _waiting(standing: Standing, wait: Wait, where: Where, lines: Dict[int, int]) -> Waiting:
    """Returns what an image waits for; those that haven't come are told with the lines at which they wait."""
    image = wait.image
    if wait.word in ("leave", "take") and image in standing.arrival:
        arrival = standing.arrival[image]
        others = tuple(Held(it, lines.get(it, 0)) for it in standing.not_come(arrival))
        return Waiting(*wait, statement_of(arrival, where.source), others)
    if wait.word == "unpair":
        others = tuple(Held(it, lines.get(it, 0)) for it in standing.not_paired(image))
        return Waiting(*wait, "SYNC IMAGES", others)
    if wait.word == "enter":
        inside = standing.inside.get(standing.constructs.get(wait.line, ""))
        return Waiting(*wait, "CRITICAL", (inside,) if inside else ())
    if wait.word == "lock":
        return _lock_waiting(standing, wait, where)
    return _event_waiting(standing, wait, where)


def statement_of(arrival: Step, source: Source) -> str:
    """Returns the words of the statement that an arrival stands for."""
    if arrival.word == "gather":
        return f"CO_{arrival.ask[2].upper()}"
    kind = arrival.ask[2]
    if kind == "sync":
        return "SYNC TEAM" if "team" in source.action(arrival.line).text.partition("(")[0] else "SYNC ALL"
    return f"{kind.upper()} TEAM" if kind in ("form", "change", "end") else kind.upper()


def _named_at(where: Where) -> Optional[Reference]:
    """Returns what stands first in the brackets of the statement of a line: the lock or the event."""
    text = where.source.action(where.line).text
    inside = text.partition("(")[2]
    return next(iter(references(inside)), None)


def _selected(named: Reference, where: Where) -> Optional[int]:
    """Returns the image that a selector names, where its text shows it."""
    if named.selector is None:
        return where.image
    return value_of(named.selector[0], where) if len(named.selector) == 1 else None


def _lock_waiting(standing: Standing, wait: Wait, where: Where) -> Waiting:
    """Returns which lock an image waits for: of those of the name that another image holds the one that the line tells,
    where it tells it, or the one that there is."""
    named = _named_at(where)
    name = named.name if named else ""
    held = [(it, holder) for it, holder in standing.locks.items() if holder.image != wait.image]
    found = [(it, holder) for it, holder in held if not name or it.split(" ")[1].partition(":")[0] == name]
    owner = _selected(named, where) if named else None
    offset = offset_of(named, where) if named else None
    told = [it for it in found if owner is None or it[0].startswith(f"{owner} ")] or found
    told = [it for it in told if offset is None or it[0].endswith(f":{offset}")] or told
    thing = name
    has_teams = len(standing.members) > 1
    if len(told) == 1 and named and named.subscripts is None and not has_teams:
        thing = f"{name}[{told[0][0].partition(' ')[0]}]"
    elif named:
        thing = named.text
    return Waiting(*wait, thing, tuple(holder for _, holder in told))


def _event_waiting(standing: Standing, wait: Wait, where: Where) -> Waiting:
    """Returns which event an image waits for, and how many posts it has and wants."""
    named = _named_at(where)
    name = named.text if named else ""
    front = f"{wait.image} {named.name if named else ''}:"
    offset = offset_of(named, where) if named else None
    cells = [it for it in standing.posts if it.startswith(front) and (offset is None or it == f"{front}{offset}")]
    has = standing.posts[cells[0]] if len(cells) == 1 else 0
    wanted = where.source.action(where.line).text.partition("until_count")[2].partition("=")[2]
    wants: Optional[int] = 1
    if wanted:
        wants = value_of(wanted.rpartition(")")[0].split(", stat")[0], where)
    posters = tuple(standing.posted[it] for it in cells if it in standing.posted)
    return Waiting(*wait, name, posters, has, wants)
