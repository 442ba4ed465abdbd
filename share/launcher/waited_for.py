"""What each image of a stuck run waits for, and on whom that depends: read off the trace, for `show` and `picture`.

The ask for which an image waits isn't in the trace, since it isn't a step. What is held, who has come and who has ended
is there; which of several locks is meant the line of the source tells.
"""

import re
from typing import Dict, List, NamedTuple, Optional, Sequence, Tuple

from trace import Run, Step, Wait
from ways import images as in_words

_SYNC = {"sync": "SYNC", "form": "FORM TEAM", "change": "CHANGE TEAM", "end": "END TEAM"}
_NAMED = re.compile(r"\b(?:lock|event *wait) *\( *([a-z]\w*)[^,\[]*(?:\[([^\]]*)\])?", re.IGNORECASE)
_VARIABLE = re.compile(r"var ([0-9]+) ([a-z]\w*) = (-?[0-9]+)", re.IGNORECASE)
_COUNT = re.compile(r"until_count *= *([0-9]+)", re.IGNORECASE)


class Reason(NamedTuple):
    """Why an image waits: what it waits for, in a few words; the images on which that depends, in rising order, as far
    as they are known; and that in words."""

    wait: Wait
    what: str
    others: Tuple[int, ...]
    why: str

    @property
    def text(self) -> str:
        """All of it in words."""
        return f"{self.what}{', ' if self.why else ''}{self.why}"


class _Standing:
    """What stands at the end of a trace: who has come where, holds what, and has ended."""

    def __init__(self, run: Run, source: Sequence[str]) -> None:
        self.source = source
        self.images = run.images
        self.values: Dict[int, Dict[str, int]] = {}
        for found in filter(None, map(_VARIABLE.fullmatch, run.variables)):
            self.values.setdefault(int(found[1]), {})[found[2].lower()] = int(found[3])
        self.members: Dict[str, List[int]] = {"1": list(range(1, run.images + 1))}
        self.rounds: Dict[int, Step] = {}
        self.come: Dict[Tuple[str, str], List[int]] = {}
        self.locks: Dict[Tuple[int, str], Step] = {}
        self.inside: Dict[str, Step] = {}
        self.constructs: Dict[int, str] = {}
        self.posts: Dict[Tuple[int, str], int] = {}
        self.named: Dict[int, List[int]] = {}
        self.pairs: Dict[Tuple[int, int], int] = {}
        self.over: Dict[int, str] = {}
        for step in run.steps:
            self._take(step)

    def _take(self, step: Step) -> None:
        word = step.word
        if word in ("arrive", "gather") and step.reply.startswith("round "):
            self.rounds[step.image] = step
            self.come.setdefault((step.team, step.reply), []).append(step.image)
        elif word == "leave":
            for team in [it for it in step.reply.partition(" teams ")[2].split(" ") if it]:
                number, _, members = team.partition(":")
                self.members[number.partition("/")[0]] = [int(it) for it in members.split(".")]
        elif word == "pair":
            self.named[step.image] = [int(it) for it in step.ask[1].split(",")] if step.ask[1:] else []
            for other in self.named[step.image]:
                self.pairs[step.image, other] = self.pairs.get((step.image, other), 0) + 1
        elif word in ("stop", "fail"):
            self.over[step.image] = "has stopped" if word == "stop" else "has failed"
        else:
            self._take_held(step)

    def _take_held(self, step: Step) -> None:
        """Takes a step at a lock, an event or a construct."""
        word, cell = step.word, (step.owner, step.ask[1] if step.ask[1:] else "")
        if word in ("lock", "trylock") and step.reply in ("0", "6002"):
            self.locks[cell] = step
        elif word == "free" or (word == "unlock" and step.reply == "0"):
            self.locks.pop(cell, None)
        elif word == "enter":
            self.inside[step.ask[1]] = step
            self.constructs[step.line] = step.ask[1]
        elif word == "exit":
            self.inside.pop(step.ask[1], None)
        elif word == "post" and step.reply == "0":
            self.posts[cell] = self.posts.get(cell, 0) + 1
        elif word == "wait" and step.reply == "0":
            self.posts[cell] = self.posts.get(cell, 0) - int(step.ask[2])
        elif word == "create":
            name = f"{step.ask[1]}:"
            for place in [it for it in self.posts if it[0] == step.owner and it[1].startswith(name)]:
                del self.posts[place]

    def line(self, wait: Wait) -> str:
        """Returns the line of the source at which an image waits."""
        return self.source[wait.line - 1] if 0 < wait.line <= len(self.source) else ""


def reasons(run: Run, source: Sequence[str] = ()) -> List[Reason]:
    """Returns why each image of a stuck run waits, in the order of the run's waits."""
    standing = _Standing(run, source) if run.waits else None
    return [_reason(standing, it) for it in run.waits] if standing else []


def _reason(standing: _Standing, wait: Wait) -> Reason:
    if wait.word in ("leave", "take"):
        return _round(standing, wait)
    if wait.word == "unpair":
        named = standing.named.get(wait.image, [])
        behind = [it for it in named if _pairs(standing, it, wait.image) < _pairs(standing, wait.image, it)]
        return _not_come(standing, wait, "SYNC IMAGES", behind)
    if wait.word == "enter":
        return _critical(standing, wait)
    if wait.word == "lock":
        return _lock(standing, wait)
    return _event(standing, wait) if wait.word == "wait" else Reason(wait, wait.word, (), "")


def _pairs(standing: _Standing, image: int, other: int) -> int:
    """Returns how often an image has named another one in SYNC IMAGES."""
    return standing.pairs.get((image, other), 0)


def _round(standing: _Standing, wait: Wait) -> Reason:
    """Returns which round an image waits for the end of, and who hasn't come to it."""
    at = standing.rounds.get(wait.image)
    if at is None:
        return Reason(wait, wait.word, (), "")
    team, come = at.team, standing.come[at.team, at.reply]
    kind = at.ask[2].upper()
    what = f"CO_{kind}" if at.word == "gather" else _SYNC.get(at.ask[2], kind)
    what += f" r{at.reply[6:]}" + ("" if team == "1" else f" of {at.team_told}")
    return _not_come(standing, wait, what, [it for it in standing.members.get(team, []) if it not in come])


def _not_come(standing: _Standing, wait: Wait, what: str, behind: Sequence[int]) -> Reason:
    """Returns a wait for others that haven't come."""
    missing = sorted(it for it in behind if it not in standing.over)
    why = f"{in_words(missing)} {'has' if len(missing) == 1 else 'have'}n't come" if missing else ""
    return Reason(wait, what, tuple(missing), why)


def _since(standing: _Standing, step: Step) -> str:
    """Returns who holds something since which line."""
    over = standing.over.get(step.image)
    return f"image {step.image}{f', which {over},' if over else ''} since line {step.line}"


def _critical(standing: _Standing, wait: Wait) -> Reason:
    """Returns who is in the construct that an image waits to enter: the one whose line it is, or the only one."""
    construct = standing.constructs.get(wait.line)
    inside = [step for name, step in standing.inside.items() if construct in (None, name)]
    if len(inside) != 1:
        return Reason(wait, "CRITICAL", (), "")
    return Reason(wait, "CRITICAL", (inside[0].image,), f"with {_since(standing, inside[0])}")


def _owner(standing: _Standing, wait: Wait, selector: Optional[str]) -> Optional[int]:
    """Returns the image that a selector names, or nothing where its text and the values at the end don't show it."""
    if selector is None:
        return wait.image
    from chosen_image import value_of  # here, since few runs need it

    return value_of(selector, wait.image, standing.images, standing.values.get(wait.image, {}))


def _lock(standing: _Standing, wait: Wait) -> Reason:
    """Returns the lock that an image waits for: of those that others hold the one that the line names, or else all."""
    others = {cell: step for cell, step in standing.locks.items() if step.image != wait.image}
    found = _NAMED.search(standing.line(wait))
    if found:
        owner = _owner(standing, wait, found[2])
        named = {it: step for it, step in others.items() if it[1].partition(":")[0] == found[1].lower()}
        others = {it: step for it, step in named.items() if owner in (None, it[0])} or named or others
    if len(others) == 1:
        (owner, name), step = next(iter(others.items()))
        return Reason(wait, f"lock {name}[{owner}]", (step.image,), f"held by {_since(standing, step)}")
    holders = sorted({it.image for it in others.values()})
    return Reason(wait, "lock", (), f"one that {in_words(holders)} hold{'s' * (len(holders) == 1)}" if holders else "")


def _event(standing: _Standing, wait: Wait) -> Reason:
    """Returns the event that an image waits for, and how many posts it has."""
    line = standing.line(wait)
    found, count = _NAMED.search(line), _COUNT.search(line)
    own = {name: it for (owner, name), it in standing.posts.items() if owner == wait.image}
    if found:
        own = {name: it for name, it in own.items() if name.partition(":")[0] == found[1].lower()}
    what = f"event {found[1].lower()}" if found else "event"
    if len(own) > 1 or (found is None and own):
        return Reason(wait, what, (), "not enough posts")
    posts = sum(own.values())
    is_whole = found and "until_count" not in line.lower() and "&" not in line
    wanted = count[1] if count else "1" if is_whole else ""
    if wanted:
        return Reason(wait, what, (), f"{posts} of {wanted} posts")
    return Reason(wait, what, (), f"{posts} post{'s' * (posts != 1)} so far")


def circle(all_reasons: Sequence[Reason]) -> List[int]:
    """Returns images each of which waits for the next one, and the last one for the first; none where there are no
    such ones."""
    ahead = {it.wait.image: it.others for it in all_reasons}
    for start in ahead:
        path, seen = [start], {start}
        while path:
            following = ahead.get(path[-1], [])
            if start in following:
                return path
            further = [it for it in following if it in ahead and it not in seen]
            if further:
                path.append(further[0])
                seen.add(further[0])
            else:
                path.pop()
    return []
