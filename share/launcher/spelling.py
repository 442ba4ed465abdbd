"""Other spellings of the words of a call: `-n4`, `--order=3`, options behind FILE, `--` before FILE, and the launcher's
own --message-format. They are turned into the program's words before these are judged; words that come to no valid list
are judged as they were written."""

from typing import Dict, List, NamedTuple, Optional, Sequence, Tuple

from message import FORMS, TEXT
from words import OF_A_TRACE

OPTION = "--message-format"
HELP = ("-h", "--help")
# How many words stand behind each option of a run.
_OF_A_RUN = {"-n": 1, "-w": 1, "--order": 1, "--steps": 1, "--fail": 1, "--made": 2}
_OF_A_RUN.update({it: 0 for it in ("--trace", "--vars", "--why", "--every")})
_RUNS = ("run", "show", "picture", "explore")


class Spelt(NamedTuple):
    """The words of a call in the program's spelling, all options before the files; and the files alone."""

    words: List[str]
    files: List[str]
    wants_help: bool


def take_form(words: Sequence[str]) -> Tuple[List[str], Optional[str]]:
    """Takes --message-format out of the words before `--`, and returns the others and the form that is asked for last:
    nothing where that is none."""
    left: List[str] = []
    form: Optional[str] = TEXT
    place = 0
    while place < len(words):
        word = words[place]
        if word == "--":
            break
        if word == OPTION:
            form = _form(words[place + 1] if place + 1 < len(words) else "")
            place += 1
        elif word.startswith(f"{OPTION}="):
            form = _form(word[len(OPTION) + 1 :])
        else:
            left.append(word)
        place += 1
    return [*left, *words[place:]], form


def _form(word: str) -> Optional[str]:
    return word if word in FORMS else None


def spelt(words: Sequence[str]) -> Optional[Spelt]:
    """Returns the words in the program's spelling, or nothing where a word isn't known or a value is missing."""
    takes = _takes(words[0]) if words else None
    if takes is None:
        return None
    options: List[str] = []
    last: List[str] = []
    files: List[str] = []
    rest = list(words[1:])
    while rest:
        word = rest.pop(0)
        if word == "--":
            files += [f"./{it}" if it.startswith("-") and it != "-" else it for it in rest]
            break
        if word in HELP:
            return Spelt([], [], True)
        if word == "-" or not word.startswith("-"):
            files.append(word)
            continue
        found = _option(word, rest, takes)
        if found is None:
            return None
        if found[0] == "--made":
            last += found
        else:
            options += found
    return Spelt([words[0], *options, *last, *files], files, False)


def _takes(command: str) -> Optional[Dict[str, int]]:
    """Returns the options of a command."""
    if command == "run":
        return _OF_A_RUN
    if command in OF_A_TRACE:
        return {it: _OF_A_RUN[it] for it in OF_A_TRACE[command]}
    if command in _RUNS:
        from view_words import OWN  # here, since most calls don't need it

        return {**_OF_A_RUN, **OWN[command]}
    return {} if command in ("check", "make") else None


def _option(word: str, rest: List[str], takes: Dict[str, int]) -> Optional[List[str]]:
    """Returns an option with its values, which it takes from the words behind it; nothing where it is none."""
    name, sign, value = word.partition("=")
    if word in takes:
        count = takes[word]
        values = rest[:count]
        del rest[:count]
        return [word, *values] if len(values) == count else None
    if sign and name.startswith("--") and takes.get(name) == 1:
        return [name, value]
    if takes.get(word[:2]) == 1 and not word.startswith("--"):
        return [word[:2], word[2:]]
    return None
