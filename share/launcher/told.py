"""What is said of how a run ended: each kind of end by the module that knows it."""

from typing import List, Optional, Sequence, Tuple, Union

from chains import chain_of
from ends import End
from given_file import Asked
from scene import Scene, Told
from sentences import read_sentences
from source_text import Source
from survey import survey
from tables import read_tables, tables_path
from trace import Race, Side, Wait
from traced import KeptTrace
from traced_file import TraceFile
from words import images_asked


def told_end(
    home: str, asked: Asked, trace: Union[KeptTrace, TraceFile, None], ends: Sequence[End]
) -> Tuple[Told, Scene]:
    """Returns what is said of the lines of an end, and what was looked at."""
    end = ends[0]
    race = _race(end) if end.kind == "race" else None
    wanted = [(it.image, it.number) for it in (race.first, race.second)] if race else []
    lines = trace.lines() if trace else iter(())
    shown = survey(lines, _images(asked.words, ends), wanted)
    source = Source(asked.source())
    scene = Scene(read_tables(tables_path(home)), read_sentences(home), source, shown, asked.words, asked.shown_name())
    if race:
        from told_race import told_race  # each is read where it is needed

        return told_race(scene, race), scene
    return _told(scene, ends), scene


def _images(words: Sequence[str], ends: Sequence[End]) -> int:
    """Returns how many images the run has: as many as its words ask for, or as its end names."""
    named = [it.number(0) for it in ends if it.kind != "race"]
    return max([images_asked(words), *named])


def _told(scene: Scene, ends: Sequence[End]) -> Told:
    end = ends[0]
    if end.kind == "stuck":
        from told_stuck import told_stuck

        return told_stuck(scene, _waits(ends), chain_of(ends))
    if end.kind == "fault":
        from told_fault import told_fault

        return told_fault(scene, end.number(0), end.number(1), end.found[2])
    if end.kind == "clash":
        from told_clash import told_clash

        return told_clash(scene, *(end.number(it) for it in range(4)))
    if end.kind == "limit":
        from told_limit import told_limit

        return told_limit(scene, end.number(0), end.number(1), end.found[2], end.number(3))
    from told_stop import told_stop

    return told_stop(scene, end.number(0), end.number(1), end.found[2])


def _waits(ends: Sequence[End]) -> List[Wait]:
    return [Wait(it.number(0), it.number(1), it.found[2]) for it in ends if it.kind == "stuck"]


def _race(end: End) -> Race:
    first, second = (Side(*(end.number(at + it) for it in range(3))) for at in (3, 6))
    return Race(end.found[0], end.number(1), end.number(2), first, second)
