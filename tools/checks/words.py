"""The launcher's answer to lists of words, which needs no program, beside the program's own."""

import random
from typing import Iterator, List

from checks.comparing import LAUNCHER, Checks, call, folder, with_status
from tests.rows_of_words import rows
from spelling import spelt
from texts import bytes_of
from words import Valid, Wrong, read_words

# What drawn lists are made of.
_PIECES = """run judge replay check make -n -n -w -w --order --order --steps --fail --trace --vars --why --every --made
a.f90 b.f90 1 1 4 16 64 65 256 257 0 3@1 3@0 007 _ -x 2147483647 4096 4097 1000000 100000001""".split()
DRAWN = 240
# Of so many lists one is given to the launcher itself too.
STEP = 8


def _drawn() -> Iterator[List[str]]:
    """Gives lists that begin as a call does, drawn alike at each call."""
    draw = random.Random(1539)
    for _ in range(DRAWN):
        front = [draw.choice(["run", "run", "run", "judge", "judge", "replay", "replay", "check", "make"])]
        yield front + ["" if it == "_" else it for it in draw.choices(_PIECES, k=draw.randrange(0, 9))]


def check_words(checks: Checks) -> None:
    """Lists of words are answered as the program answers them, but for those that the launcher spells for it, and
    several files to check. The files that they name aren't there."""
    with folder() as work:
        for number, words in enumerate([words for _, words in rows()] + list(_drawn())):
            given = [bytes_of(word) for word in words]
            own = call([checks.program, *given], folder=work)
            got = read_words(words)
            wanted = own.text if own.text.startswith(b"usage:") else b"valid\n"
            checks.same(f"words {words}", wanted, f"usage: word {got.word}\n" if isinstance(got, Wrong) else "valid\n")
            if number % STEP == 0 and not _is_spelt(words):
                checks.same(f"./caf {words}", with_status(own), with_status(call([LAUNCHER, *given], folder=work)))


def _is_spelt(words: List[str]) -> bool:
    """Tells whether the launcher turns words into others that are valid, or takes them as those of its own."""
    told = spelt(words)
    if told is None:
        return False
    are_several = words[0] == "check" and len(told.files) > 1
    is_turned = told.words != words and isinstance(read_words(told.words), Valid)
    return told.wants_help or are_several or is_turned
