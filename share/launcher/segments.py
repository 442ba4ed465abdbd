"""Segment order of a run, read off its trace (ISO/IEC 1539-1:2018, 11.6.2), for the pictures: docs/build/ORDER.md has
the rules. It is told of here without proof; what the program tells of races is proved.

A segment's clock counts, for each image, how many of its segments precede it.
"""

from typing import Callable, Dict, Iterable, List, NamedTuple, Optional, Set, Tuple

from trace import Run, Step

Clock = Tuple[int, ...]
STOPPED, FAILED, UNLOCKED_FAILED = "6000", "6001", "6002"


class Segment(NamedTuple):
    """A segment of an image, by its number from 0, and its clock."""

    image: int
    number: int
    clock: Clock

    def precedes(self, other: "Segment") -> bool:
        """Tells whether it precedes another one."""
        return self.number < other.clock[self.image - 1]


class Edge(NamedTuple):
    """Two steps, by their places in the trace, the first of which releases the second: a post and its wait, an unlock
    and the next lock, the end of a CRITICAL construct and its next begin, two SYNC IMAGES, an atomic action that sets a
    flag and one that sees it."""

    kind: str
    source: int
    target: int


class Segments(NamedTuple):
    """The segments that have steps, in the order of their first ones; the place of each step's segment among them; and
    the edges."""

    all: List[Segment]
    of_step: List[int]
    edges: List[Edge]


class Left(NamedTuple):
    """What a step leaves to those that it releases: its place, its image, and the clock with its own segment."""

    place: int
    image: int
    clock: Clock


def joined(first: Clock, second: Clock) -> Clock:
    """Returns the greater counts of two clocks."""
    return tuple(map(max, first, second))


def cells(step: Step) -> List[str]:
    """Returns the cells that an ask names, as OWNER NAME:OFFSET."""
    name, start, *dimensions = step.ask[2 if step.word == "atomic" else 1].split(":")
    places = [int(start)]
    for it in dimensions:
        count, stride = (int(number) for number in it.split("*"))
        places = [place + at * stride for at in range(count) for place in places]
    return [f"{step.owner} {name}:{place}" for place in places]


class Recorder:
    """Goes through the steps of a run and keeps where each image stands."""

    def __init__(self, images: int) -> None:
        self.images = images
        self.counts = [0] * images
        self.clocks: List[Clock] = [(0,) * images] * images
        self.edges: List[Edge] = []
        self.waiting: Dict[str, List[Left]] = {}
        self.named: Dict[int, List[int]] = {}
        self.pairs: Dict[Tuple[int, int], List[Left]] = {}
        self.flags: Dict[str, Tuple[Left, Clock]] = {}
        self.before: List[Clock] = [(0,) * images] * images
        self.taken: List[List[Clock]] = [[] for _ in range(images)]
        self.rounds = Rounds(images)
        self.holders: Dict[str, int] = {}

    def left(self, place: int, step: Step) -> Left:
        """Returns what a step leaves: its own segment and all before it."""
        clock = list(self.clocks[step.image - 1])
        clock[step.image - 1] = self.counts[step.image - 1] + 1
        return Left(place, step.image, tuple(clock))

    def complete(self, place: int, step: Step, sources: Iterable[Left] = (), kind: str = "") -> None:
        """Completes the segment of a step; the next one comes after these, and after what is taken by flags."""
        image = step.image - 1
        own = self.left(place, step)
        clock = own.clock
        for source in sources:
            clock = joined(clock, source.clock)
            if kind and source.image != step.image:
                self.edges.append(Edge(kind, source.place, place))
        for taken in self.taken[image] + [self.last(it) for it in self.failed(step)]:
            clock = joined(clock, taken)
        self.taken[image] = []
        self.before[image] = own.clock
        self.clocks[image] = clock
        self.counts[image] += 1

    def last(self, image: int) -> Clock:
        """Returns the clock of an image's present segment, with itself."""
        clock = list(self.clocks[image - 1])
        clock[image - 1] = self.counts[image - 1] + 1
        return tuple(clock)

    def failed(self, step: Step) -> List[int]:
        """Returns the failed images of which the status of a step speaks."""
        status = step.reply.split(" ")[0]
        if step.word == "leave" and status == FAILED:
            return self.rounds.gone_by_close(step.team, int(step.ask[2]))
        if step.word == "unpair" and status == FAILED:
            return [it for it in self.named.get(step.image, []) if it in self.rounds.gone]
        if step.word == "enter" and status == FAILED:
            return [self.holders[step.ask[1]]] if step.ask[1] in self.holders else []
        if step.word in ("lock", "trylock", "unlock", "post") and status == FAILED:
            return [step.owner]
        if step.word in ("lock", "trylock") and status == UNLOCKED_FAILED:
            return [self.holders[it] for it in cells(step) if it in self.holders]
        return []

    def flag(self, place: int, step: Step) -> None:
        """Notes what an atomic action takes from the flag that it sees, and what it hands on by setting it."""
        if not step.reply.lstrip("-").isdigit() and step.reply != "ok":
            return
        cell = cells(step)[0]
        operation = step.ask[1]
        image = step.image - 1
        if operation != "define" and cell in self.flags and self.flags[cell][0].image != step.image:
            setting, handed = self.flags[cell]
            self.taken[image].append(handed)
            self.edges.append(Edge("flag", setting.place, place))
        if operation != "ref" and (operation != "cas" or step.reply == step.ask[3]):
            self.flags[cell] = (self.left(place, step), self.before[image])


class Rounds:
    """The rounds of the teams: who has come, who is gone, and who was gone when a round closed."""

    def __init__(self, images: int) -> None:
        self.members: Dict[str, List[int]] = {"1": list(range(1, images + 1))}
        self.come: Dict[Tuple[str, int], Set[int]] = {}
        self.closed: Dict[Tuple[str, int], Set[int]] = {}
        self.gone: Set[int] = set()
        self.over: Set[int] = set()

    def take(self, step: Step) -> None:
        """Takes a step that may close rounds."""
        if step.word == "arrive" and step.reply.startswith("round "):
            self.come.setdefault((step.team, int(step.reply[6:])), set()).add(step.image)
        elif step.word in ("gone", "stop"):
            self.over.add(step.image)
            self.gone |= {step.image} if step.word == "gone" else set()
        else:
            for team in step.reply.partition(" teams ")[2].split(" ") if step.word == "leave" else []:
                number, _, members = team.partition(":")
                self.members[number.partition("/")[0]] = [int(it) for it in members.split(".") if it]
            return
        for key, come in self.come.items():
            if key not in self.closed and all(it in come | self.over for it in self.members.get(key[0], [])):
                self.closed[key] = set(self.gone)

    def gone_by_close(self, team: str, number: int) -> List[int]:
        """Returns the members that were gone when a round closed."""
        return [it for it in self.members.get(team, []) if it in self.closed.get((team, number), set())]


def _arrive(recorder: Recorder, place: int, step: Step) -> None:
    if step.reply.startswith("round "):
        _wait_at(recorder, f"round {step.team} {step.reply[6:]}", place, step)


def _leave(recorder: Recorder, place: int, step: Step) -> None:
    is_whole = step.reply.split(" ")[0] != STOPPED
    recorder.complete(place, step, recorder.waiting.get(f"round {step.team} {step.ask[2]}", []) if is_whole else [])


def _pair(recorder: Recorder, place: int, step: Step) -> None:
    recorder.named[step.image] = [int(it) for it in step.ask[1].split(",") if it.isdigit()] if step.ask[1:] else []
    for other in recorder.named[step.image]:
        recorder.pairs.setdefault((step.image, other), []).append(recorder.left(place, step))


def _unpair(recorder: Recorder, place: int, step: Step) -> None:
    sources: List[Left] = []
    for other in recorder.named.get(step.image, []):
        count = len(recorder.pairs.get((step.image, other), []))
        sources += recorder.pairs.get((other, step.image), [])[count - 1 : count]
    recorder.complete(place, step, sources if step.reply != STOPPED else [], "pair")


def _wait_at(recorder: Recorder, key: str, place: int, step: Step) -> None:
    recorder.waiting.setdefault(key, []).append(recorder.left(place, step))


def _lock(recorder: Recorder, place: int, step: Step) -> None:
    cell = cells(step)[0]
    has_got = step.reply in ("0", UNLOCKED_FAILED)
    recorder.complete(place, step, recorder.waiting.pop(f"lock {cell}", []) if has_got else [], "lock")
    if has_got:
        recorder.holders[cell] = step.image


def _unlock(recorder: Recorder, place: int, step: Step) -> None:
    if step.reply == "0":
        _wait_at(recorder, f"lock {cells(step)[0]}", place, step)
    recorder.complete(place, step)


def _enter(recorder: Recorder, place: int, step: Step) -> None:
    recorder.complete(place, step, recorder.waiting.pop(f"critical {step.ask[1]}", []), "critical")
    recorder.holders[step.ask[1]] = step.image


def _exit(recorder: Recorder, place: int, step: Step) -> None:
    _wait_at(recorder, f"critical {step.ask[1]}", place, step)
    recorder.complete(place, step)


def _post(recorder: Recorder, place: int, step: Step) -> None:
    if step.reply == "0":
        _wait_at(recorder, f"event {cells(step)[0]}", place, step)
    recorder.complete(place, step)


def _wait(recorder: Recorder, place: int, step: Step) -> None:
    queue = recorder.waiting.setdefault(f"event {cells(step)[0]}", [])
    count = int(step.ask[2])
    recorder.complete(place, step, queue[:count], "event")
    del queue[:count]


def _write(recorder: Recorder, _: int, step: Step) -> None:
    if recorder.flags and step.reply == "ok":
        for cell in cells(step):
            recorder.flags.pop(cell, None)


def _made_anew(recorder: Recorder, _: int, step: Step) -> None:
    """Forgets what waits at the locks and events of a coarray, and its flags."""
    front = f"{step.owner} {step.ask[1]}:"
    for table in (recorder.waiting, recorder.flags):
        for key in [it for it in table if it.partition(" ")[2].startswith(front) or it.startswith(front)]:
            if step.word == "create" or not key.startswith("lock "):
                table.pop(key)


_ACTS: Dict[str, Callable[[Recorder, int, Step], None]] = {
    "arrive": _arrive,
    "leave": _leave,
    "pair": _pair,
    "unpair": _unpair,
    "lock": _lock,
    "trylock": _lock,
    "unlock": _unlock,
    "enter": _enter,
    "exit": _exit,
    "post": _post,
    "wait": _wait,
    "memory": Recorder.complete,
    "stop": Recorder.complete,
    "atomic": Recorder.flag,
    "write": _write,
    "create": _made_anew,
    "delete": _made_anew,
}


def segments_of(run: Run) -> Segments:
    """Returns the segments of a run."""
    recorder = Recorder(run.images)
    places: Dict[Tuple[int, int], int] = {}
    found = Segments([], [], recorder.edges)
    for place, step in enumerate(run.steps):
        number = recorder.counts[step.image - 1]
        if (step.image, number) not in places:
            places[step.image, number] = len(found.all)
            found.all.append(Segment(step.image, number, recorder.clocks[step.image - 1]))
        found.of_step.append(places[step.image, number])
        recorder.rounds.take(step)
        act: Optional[Callable[[Recorder, int, Step], None]] = _ACTS.get(step.word)
        if act:
            act(recorder, place, step)
    return found
