"""The words of `show`, `picture` and `explore`: those of a run, and among its options some of their own."""

from typing import Dict, List, NamedTuple, Optional, Sequence, Tuple, Union

from trace import Kind
from words import GREATEST_IMAGES, Range, Valid, Wrong, read_words

STAMPS = Range(0, 1 << 62)
RUNS = Range(1, 1000000)
_IMAGES = Range(1, GREATEST_IMAGES)
_KINDS = {it.value for it in Kind}

# The options that each command has beside those of a run, and how many words stand behind each.
OWN: Dict[str, Dict[str, int]] = {
    "show": {"--image": 1, "--from": 1, "--to": 1, "--only": 1},
    "picture": {"--svg": 0},
    "explore": {"--runs": 1, "--fails": 0},
}
# The options of a run that each of them has no use for, since it is set by the command.
_SHOWN = ("--trace", "--vars", "--why", "--every")
_SET: Dict[str, Tuple[str, ...]] = {
    "show": _SHOWN,
    "picture": _SHOWN,
    "explore": _SHOWN,
}
_WITH_VALUE = ("-n", "-w", "--order", "--steps", "--fail")


class ViewWords(NamedTuple):
    """The words of a call: the command; the words of the run, from `run` on, and the place of FILE among them; and the
    values of the command's own options, an empty one where the option has none."""

    command: str
    run: List[str]
    file: Optional[int]
    own: Dict[str, str]

    def has_run_option(self, *options: str) -> bool:
        """Tells whether one of these options of a run is given."""
        end = len(self.run) if self.file is None else self.file
        return any(it in self.run[:end] for it in options)


def read_view_words(words: Sequence[str]) -> Union[ViewWords, Wrong]:
    """Reads the words of a call that begins with one of the three commands."""
    command = words[0]
    options = OWN[command]
    own: Dict[str, str] = {}
    run, places = ["run"], [0]
    place = 1
    while place < len(words):
        word = words[place]
        if word in options:
            wrong = _own_option(words, place, options[word], own)
            if wrong:
                return wrong
            place += 1 + options[word]
            continue
        if word in _SET[command]:
            return Wrong(place + 1)
        more = 2 if word in _WITH_VALUE else 1
        run += words[place : place + more]
        places += range(place, min(place + more, len(words)))
        place += more
    read = read_words(run)
    if isinstance(read, Valid):
        return ViewWords(command, run, read.file, own)
    return Wrong(places[read.word - 1] + 1 if read.word <= len(places) else len(words) + 1)


def _own_option(words: Sequence[str], place: int, values: int, own: Dict[str, str]) -> Optional[Wrong]:
    """Keeps an option with its value; or tells where it is wrong."""
    option = words[place]
    if option in own:
        return Wrong(place + 1)
    value = words[place + 1] if values and place + 1 < len(words) else ""
    if values and not _is_value(option, value):
        return Wrong(place + 2)
    own[option] = value
    return None


def _is_value(option: str, value: str) -> bool:
    """Tells whether a word may stand behind an option."""
    if option == "--image":
        return all(_IMAGES.has(it) for it in value.split(","))
    if option == "--only":
        return all(it in _KINDS for it in value.split(","))
    return (RUNS if option == "--runs" else STAMPS).has(value)
