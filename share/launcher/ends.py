"""The lines of the program's text that tell how a run ended, read one by one."""

import re
from typing import List, NamedTuple, Sequence, Tuple

# What the lines of an end begin with; those of an image's output and of the trace begin with a number.
WORDS = (
    "refused",
    "usage:",
    "fault",
    "error",
    "clash",
    "limit",
    "stuck",
    "why",
    "this",
    "every",
    "race",
    "not a run at step",
    "bad trace at line",
)


class Place(NamedTuple):
    """A line and a column from 1, column 0 for the first character that isn't a blank, line 0 for no place; and what is
    said there."""

    line: int
    column: int
    text: str


class End(NamedTuple):
    """A line of an end: its kind, and its numbers and words in their order."""

    kind: str
    found: Tuple[str, ...]

    def number(self, place: int) -> int:
        """Returns the number at a place of what was found."""
        return int(self.found[place])


_SIDE = "image ([0-9]+) event ([0-9]+) line ([0-9]+)"
_FORMS = (
    ("refused", re.compile("refused ([0-9]+) at ([0-9]+):([0-9]+)")),
    ("usage", re.compile("usage: word ([0-9]+)")),
    ("fault", re.compile("fault image ([0-9]+) line ([0-9]+) ([^ ]+)")),
    ("stop", re.compile("error stop image ([0-9]+) line ([0-9]+) code (-?[0-9]+)")),
    ("clash", re.compile("clash image ([0-9]+) line ([0-9]+) against image ([0-9]+) line ([0-9]+)")),
    ("limit", re.compile("limit image ([0-9]+) line ([0-9]+) ([^ ]+) ([0-9]+)")),
    ("stuck", re.compile("stuck image ([0-9]+) line ([0-9]+) ([^ ]+)")),
    ("why", re.compile("why image ([0-9]+) waits for image ([0-9]+)")),
    ("post", re.compile("why image ([0-9]+) waits for a post")),
    ("stopped", re.compile("why image ([0-9]+) stopped")),
    ("cycle", re.compile("why cycle from image ([0-9]+)")),
    ("no run", re.compile("not a run at step ([0-9]+)")),
    ("bad trace", re.compile("bad trace at line ([0-9]+)")),
    ("race", re.compile(f"race on ([^:]+):([0-9]+) of image ([0-9]+): {_SIDE}, {_SIDE}")),
)


def read_ends(lines: Sequence[str]) -> List[End]:
    """Returns the lines that tell an end; others are left out."""
    ends = []
    for line in lines:
        for kind, form in _FORMS:
            found = form.fullmatch(line)
            if found:
                ends.append(End(kind, found.groups()))
    return ends
