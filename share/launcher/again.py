"""How a run on workers is had again, whose order no number has: others are looked for, or it is kept by its trace."""

import shlex
from typing import List, Sequence

from ending import Caller
from sentences import read_sentences
from words import is_on_workers, options_of

# The name that the calls give to a kept trace.
KEPT = "run.trace"
# What a run shows beside its end.
_SHOWN = ("--trace", "--vars", "--why", "--every")


def calls_again(caller: Caller, words: Sequence[str], code: str) -> List[str]:
    """Returns how a run on workers that ended with this code is had again; a limit shows in any order."""
    if not is_on_workers(words) or code in ("statements", "words"):
        return []
    say = read_sentences(caller.home).say
    left = _without(words, (*_SHOWN, "-w"))
    helps = [f"{say('Workers', 'again')}\n{explore_call(caller, words)}"]
    if "--made" in left:
        return helps
    replay = _call(caller, "replay", [*left[:-1], KEPT, left[-1]])
    if "--trace" in options_of(words):
        return [*helps, f"{say('Workers', 'kept')}\n{replay}"]
    run = _call(caller, "run", ["--trace", *_without(words, _SHOWN)])
    return [*helps, f"{say('Workers', 'keep')}\n{run} >{KEPT}\n{replay}"]


def explore_call(caller: Caller, words: Sequence[str]) -> str:
    """Returns the call that makes a run in other orders."""
    return _call(caller, "explore", _without(words, (*_SHOWN, "-w")))


def _without(words: Sequence[str], options: Sequence[str]) -> List[str]:
    """Returns the words behind `run` without some of its options. What stands there for standard input is FILE."""
    left, place = [], 1
    while place < len(words):
        if words[place] in options and place < len(words) - 1:
            place += 2 if words[place] == "-w" else 1
            continue
        left.append("FILE" if words[place] in ("-", "/dev/stdin") else words[place])
        place += 1
    return left


def _call(caller: Caller, command: str, words: Sequence[str]) -> str:
    """Returns a call of the command, as a shell reads it."""
    return " ".join(shlex.quote(it) for it in [caller.called, command, *words])
