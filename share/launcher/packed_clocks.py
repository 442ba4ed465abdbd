"""The clocks of segments in little room, for the page of `picture`."""

from typing import Dict, List, Sequence

from segments import Clock, Segment

# So many segments before one are looked at for the clock that is most like its own.
NEAR = 4


def packed(segments: Sequence[Segment]) -> List[List[int]]:
    """Returns each segment as its image, its number, how far before it in this list the segment stands whose clock is
    most like its own, and the places of its clock, from 0, that aren't as in that one, each with its count. 0 stands
    for a clock of 0."""
    rows: List[List[int]] = []
    own: Dict[int, int] = {}
    for at, it in enumerate(segments):
        bases = {before: at - before for before in [own.get(it.image, at), *range(max(at - NEAR, 0), at)]}
        told = (_from(back, segments[at - back].clock if back else (0,) * len(it.clock), it) for back in bases.values())
        rows.append(min(told, key=len))
        own[it.image] = at
    return rows


def _from(back: int, before: Clock, segment: Segment) -> List[int]:
    """Returns a segment as what its clock has other than one that stands so far back."""
    pairs = ((place, count) for place, count in enumerate(segment.clock) if count != before[place])
    return [segment.image, segment.number, back, *(number for pair in pairs for number in pair)]
