"""The sentences of docs/use/REFUSALS.md that tell how a run ended: one for each case of an end, with names in braces
for what the launcher finds in the source and in the trace."""

import re
from typing import Dict, List, NamedTuple, Tuple

from tables import Entry, Kind, tables_path
from texts import read_file

SECTION = "## How an end is told"
_NAME = re.compile(r"\{([a-z]+)\}")
# The cases that tell of an image which waits for what a word of docs/use/REFUSALS.md says.
_WAITS = {"leave": "round", "take": "round", "unpair": "pair", "wait": "event"}
_OF_CODE = re.compile(r"[0-9]{4}\b")
# The cases that stand as a help, but for those whose name ends so, and those that stand at a further place.
_HELPS = (
    ("Race", "sync"),
    ("Race", "critical"),
    ("Stuck", "cycle"),
    ("Stuck", "stopped"),
    ("Stuck", "post"),
    ("Limit", "statements most"),
)
_NOTES = (("Race", "second"), ("Stuck", "posted"), ("Clash", "there"), ("NotARun", "there"))


class Sentence(NamedTuple):
    """A sentence of an entry: `case` where it is the text of a message, `note` where it stands at a further place, or
    `help`; and its words, with the names in braces."""

    role: str
    words: str


class Sentences:
    """The sentences, by the end and the case."""

    def __init__(self, rows: Dict[Tuple[str, str], str]) -> None:
        self.rows = rows

    def say(self, end: str, case: str, **found: object) -> str:
        """Returns the sentence of a case, with what was found in the place of its names."""
        sentence = self.rows.get((end, case), case)
        return _NAME.sub(lambda name: str(found.get(name[1], "")), sentence)

    def of_entry(self, entry: Entry) -> List[Sentence]:
        """Returns the sentences that belong to a status, a run fault, a code, a wait or a limit, each once."""
        found = [
            Sentence(_role(end, case), f"image {{image}} waits {said}" if said.startswith(("in ", "for ")) else said)
            for (end, case), said in self.rows.items()
            if _belongs(entry, end, case)
        ]
        return list(dict.fromkeys(found))


def _role(end: str, case: str) -> str:
    if (end, case) in _NOTES:
        return "note"
    return "help" if (end, case) in _HELPS or case.endswith("help") else "case"


def _belongs(entry: Entry, end: str, case: str) -> bool:
    """Tells whether a case is one of an entry: those of a code aren't told of the status too, which has one help with
    them."""
    first = case.partition(" ")[0]
    if entry.kind is Kind.STATUS:
        return end == entry.name and not _OF_CODE.match(case) and (end, case) != ("ErrorStop", "help")
    if entry.kind is Kind.FAULT:
        return end == entry.key
    if entry.kind is Kind.CODE:
        return end == "ErrorStop" and first in (entry.key, "help")
    if entry.kind is Kind.WAIT:
        wanted = _WAITS.get(entry.key, entry.key)
        return end == "Stuck" and (first == wanted or (wanted, case) == ("event", "posted"))
    return entry.kind is Kind.LIMIT and end == "Limit" and first == entry.key


def read_sentences(home: str) -> Sentences:
    """Reads the section's table: lines `| END | CASE | SENTENCE |`."""
    section = read_file(tables_path(home)).partition(f"\n{SECTION}\n")[2].partition("\n## ")[0]
    rows: Dict[Tuple[str, str], str] = {}
    for line in section.partition("\n|---")[2].split("\n")[1:]:
        if line.startswith("| "):
            end, case, sentence = line[2:-2].split(" | ")
            rows[end, case] = sentence
    return Sentences(rows)
