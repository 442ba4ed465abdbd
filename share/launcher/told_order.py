"""What is said of a run that doesn't speak for every order of its images, as the program's line of --every tells it."""

import re
from typing import List, Optional, Sequence, Tuple

from again import explore_call
from ending import Caller
from given_file import Asked
from message import Message
from scene import first_column
from sentences import read_sentences
from source_text import Source

_FORM = re.compile("this order: line ([0-9]+), ([a-z ]+)")
# The cases of the sentences, by the reason that the line has; of the others the run ends at the line, or an image does.
_CASES = {
    "race": "race",
    "lock": "lock",
    "trylock": "lock",
    "unlock": "lock",
    "enter": "critical",
    "exit": "critical",
    "atomic": "atomic",
    "query": "query",
    "stopped": "images",
    "status": "images",
    "form": "form",
    "fail": "failure",
    "mark": "failure",
    "free": "failure",
    "gone": "failure",
    "other poster": "poster",
    "events remade": "events",
}
_ENDED = "end"
_CLASH = 9


def reason_of(lines: Sequence[str]) -> Optional[Tuple[int, str]]:
    """Returns the line of the source and the reason why a run doesn't speak for every order; nothing where the lines of
    a text don't tell that."""
    for it in lines:
        found = _FORM.fullmatch(it)
        if found:
            return int(found[1]), found[2]
    return None


def _case_of(reason: str, status: int) -> str:
    """Returns the case of a reason. A FORM TEAM may be the arrival by whose clash the run ended."""
    if reason == "form" and status == _CLASH:
        return _ENDED
    return _CASES.get(reason, _ENDED)


def told_order(caller: Caller, asked: Asked, lines: Sequence[str], status: int) -> List[Message]:
    """Returns what is said of the line that tells it, where there is one."""
    found = reason_of(lines)
    if found is None:
        return []
    line, reason = found
    text = Source(asked.source()).line(line)
    say = read_sentences(caller.home).say
    is_run = asked.words[0] == "run"
    helps = (f"{say('ThisOrder', 'help')}\n{explore_call(caller, asked.words)}",) if is_run else ()
    return [
        Message(
            say("ThisOrder", _case_of(reason, status)),
            "ThisOrder",
            asked.shown_name(),
            line,
            first_column(text or ""),
            source_line=text,
            helps=helps,
            status=status,
            severity="note",
        )
    ]
