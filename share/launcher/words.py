"""Which lists of words are valid, and where the others go wrong: what the program answers, but for `-` as FILE.

The words are those of `run OPTIONS FILE`, `run OPTIONS --made SEED SIZE`, `judge OPTIONS TRACE FILE`, `replay OPTIONS
TRACE FILE`, `check FILE` and `make SEED SIZE`. FILE and TRACE aren't empty and don't begin with `-`; but one of them
may be `-` itself, which is standard input.
"""

import re
from typing import Dict, NamedTuple, Optional, Sequence, Set, Tuple, Union

from texts import is_text

GREATEST_SEED = 2147483647
GREATEST_SIZE = 4096
GREATEST_STEPS = 100000000
DEFAULT_IMAGES = 4
GREATEST_IMAGES = 256
# So many words of the trace a run may record, each image an equal share of them.
RECORDED_WORDS = 16777216

_NUMBER = re.compile("0|[1-9][0-9]*")


class Range(NamedTuple):
    """Whole numbers, from the least to the greatest."""

    least: int
    greatest: int

    def has(self, word: str) -> bool:
        """Tells whether a word is one of them in decimal, without a sign and without a leading zero."""
        return _NUMBER.fullmatch(word) is not None and len(word) < 20 and self.least <= int(word) <= self.greatest

    def told(self) -> str:
        """Returns the range in words."""
        return f"{self.least} to {self.greatest}"


class Valid(NamedTuple):
    """Valid words: the command, and the places of FILE and of TRACE among the words, from 0, where it has them."""

    command: str
    file: Optional[int]
    trace: Optional[int] = None


class Wrong(NamedTuple):
    """Words that aren't valid: the number of the first one, from 1, with which no valid list begins, or one more than
    there are."""

    word: int


SEED = Range(0, GREATEST_SEED)
SIZE = Range(1, GREATEST_SIZE)

# The options of a run that have a number behind them, and those that have nothing.
_NUMBERS: Dict[str, Range] = {
    "-n": Range(1, GREATEST_IMAGES),
    "-w": Range(1, 64),
    "--order": SEED,
    "--steps": Range(1, GREATEST_STEPS),
}
_FLAGS = ("--trace", "--vars", "--why", "--every")
# The one option that may stand more than once, and what stands behind it: I@K.
_FAIL = "--fail"
_FAIL_IMAGE = Range(1, GREATEST_IMAGES)
_FAIL_STEP = Range(1, 1000000)
# Of these two only one may stand.
_RIVALS = {"-w": "--order", "--order": "-w"}
# The commands that take a TRACE before FILE, with the options of a run that each of them takes.
OF_A_TRACE: Dict[str, Tuple[str, ...]] = {
    "judge": ("-n", "--steps", "--fail"),
    "replay": ("-n", "--steps", "--fail", "--trace", "--vars", "--why", "--every"),
}


def range_of(option: str, value: str) -> str:
    """Returns the numbers that may stand behind an option or a command as its value, in words; nothing where others
    tell them."""
    if option == _FAIL:
        return f"I {_FAIL_IMAGE.told()} and K {_FAIL_STEP.told()}"
    found = _NUMBERS.get(option) or {"SEED": SEED, "SIZE": SIZE}.get(value)
    return found.told() if found else ""


def options_of(words: Sequence[str]) -> Dict[str, str]:
    """Returns the options of valid words with their values; of one that stands twice the last."""
    found: Dict[str, str] = {}
    place = 1
    while place < len(words) and (words[place] in _NUMBERS or words[place] in _FLAGS or words[place] == _FAIL):
        has_value = words[place] not in _FLAGS
        found[words[place]] = words[place + 1] if has_value else ""
        place += 1 + has_value
    return found


def is_on_workers(words: Sequence[str]) -> bool:
    """Tells whether valid words are those of a run on workers."""
    return words[:1] == ["run"] and "--order" not in options_of(words)


def images_asked(words: Sequence[str]) -> int:
    """Returns how many images valid words of a run, or of a trace, ask for."""
    return int(options_of(words).get("-n", DEFAULT_IMAGES))


def read_words(words: Sequence[str]) -> Union[Valid, Wrong]:
    """Tells what the words of a call are; a list with a word that is no UTF-8 is read as an empty one, as the program
    does."""
    if not words or not all(is_text(word) for word in words):
        return Wrong(1)
    if words[0] == "run" or words[0] in OF_A_TRACE:
        return _read_behind_options(words)
    if words[0] == "check":
        return _read_file("check", words, 1)
    if words[0] == "make":
        return _read_made("make", words, 1)
    return Wrong(1)


def _read_behind_options(words: Sequence[str]) -> Union[Valid, Wrong]:
    """Reads the words of a command that takes options."""
    given: Set[str] = set()
    place = 1
    while place < len(words) and _may_stand(words[0], words[place], given):
        option = words[place]
        given.add(option)
        place += 1
        if option not in _FLAGS:
            if place == len(words) or not _is_value(option, words[place]):
                return Wrong(place + 1)
            place += 1
    if words[0] in OF_A_TRACE:
        return _read_trace(words[0], words, place)
    if place < len(words) and words[place] == "--made":
        return _read_made("run", words, place + 1)
    return _read_file("run", words, place)


def _may_stand(command: str, option: str, given: Set[str]) -> bool:
    """Tells whether a word is an option of the command that may stand behind those that are given."""
    if option not in OF_A_TRACE.get(command, (option,)):
        return False
    if option == _FAIL:
        return True
    is_option = option in _NUMBERS or option in _FLAGS
    return is_option and option not in given and _RIVALS.get(option) not in given


def _is_value(option: str, word: str) -> bool:
    if option != _FAIL:
        return _NUMBERS[option].has(word)
    image, at, step = word.partition("@")
    return at == "@" and _FAIL_IMAGE.has(image) and _FAIL_STEP.has(step)


def _is_name(words: Sequence[str], place: int) -> bool:
    """Tells whether the word at a place is one for FILE or TRACE."""
    return place < len(words) and words[place] != "" and (words[place][0] != "-" or words[place] == "-")


def _read_file(command: str, words: Sequence[str], place: int) -> Union[Valid, Wrong]:
    """Reads FILE, which stands alone behind all others."""
    if not _is_name(words, place):
        return Wrong(place + 1)
    return Valid(command, place) if len(words) == place + 1 else Wrong(place + 2)


def _read_trace(command: str, words: Sequence[str], place: int) -> Union[Valid, Wrong]:
    """Reads TRACE and FILE, which stand alone behind all others. Standard input is read once."""
    if not _is_name(words, place):
        return Wrong(place + 1)
    if words[place : place + 2] == ["-", "-"]:
        return Wrong(place + 2)
    read = _read_file(command, words, place + 1)
    return Valid(command, read.file, place) if isinstance(read, Valid) else read


def _read_made(command: str, words: Sequence[str], place: int) -> Union[Valid, Wrong]:
    """Reads SEED and SIZE, which stand alone behind all others."""
    for kind in (SEED, SIZE):
        if place == len(words) or not kind.has(words[place]):
            return Wrong(place + 1)
        place += 1
    return Valid(command, None) if len(words) == place else Wrong(place + 1)
