"""What is said of a refused place: the sentence of its case in docs/use/REFUSALS.md, with its helps and notes."""

import importlib
import re
from typing import Dict, List, NamedTuple, Optional, Tuple

from ends import Place
from look import Chooser, Found, Look
from tables import Kind, Tables

_PLACE = re.compile(r"\{([a-z]+)\}")
# From this number on a place lies in a statement that is read.
_FIRST_RULE = 20
# The numbers whose cases a module chooses.
_MODULES = {
    "cases_of_lines": "1 2 3 4 5 6 8 9",
    "patterns": "7",
    "cases_of_names": "20 21",
    "cases_of_declarations": "22 23 24 25 26 27 28 29 30",
    "cases_of_values": "31 32 33 34 35 37 38",
    "cases_of_statements": "36 39 40 48 49 50 51 52 55 56 58",
    "cases_of_constructs": "41 42 43 44",
    "cases_of_calls": "45 46 47 53 54 57 59",
}


class Said(NamedTuple):
    """What is said of a place: a sentence, helps, notes with their lines and columns, and how many columns the token at
    the place takes, 1 at least."""

    text: str
    helps: List[str]
    notes: List[Tuple[int, int, str]]
    length: int


def refusal_said(number: str, place: Place, source: List[str], tables: Tables) -> Said:
    """Returns what is said of a place that breaks a rule."""
    look = Look(number, place.line, place.column, source, tables)
    found = chosen(look)
    said = _said(found, look) if found else None
    if said is None:
        # What is said of all cases that remain.
        said = _said(Found("-", {"token": look.token.text} if look.token else {}), look)
    return said or Said(tables.meaning(Kind.REFUSAL, number), [], [], _length(look))


def chosen(look: Look) -> Optional[Found]:
    """Returns the case of a refused place with what stands in the places of its sentences, or nothing where it can't be
    told. Of all modules of choosers only the one that is needed is read."""
    is_in_statement = bool(look.statement) or int(look.number) < _FIRST_RULE
    for name, numbers in _MODULES.items():
        if is_in_statement and look.number in numbers.split():
            chooser: Chooser = importlib.import_module(name).CHOOSERS[look.number]
            return chooser(look)
    return None


def _said(found: Found, look: Look) -> Optional[Said]:
    """Returns what the table says of a case, or nothing where it has no sentence whose places are known."""
    case = next((it for it in look.tables.cases if (it.number, it.word) == (look.number, found.case)), None)
    texts = [it for it in (_filled(said, found.values) for said in case.said) if it] if case else []
    if case is None or not texts:
        return None
    helps = [it for it in (_filled(help_, found.values) for help_ in case.helps) if it]
    note = _filled(case.note, found.values) if case.note else None
    notes = [(found.note_at.line, found.note_at.column, note)] if found.note_at and note else []
    return Said(texts[0], helps, notes, _length(look))


def _filled(sentence: str, values: Dict[str, str]) -> Optional[str]:
    """Returns a sentence with its places filled, or nothing where one isn't known."""
    if any(name not in values for name in _PLACE.findall(sentence)):
        return None
    return _PLACE.sub(lambda found: values[found.group(1)], sentence)


def _length(look: Look) -> int:
    """Returns how many columns the token at the place takes."""
    if look.number in ("1", "2", "3", "4", "5"):
        return 1
    if look.token is None:
        return 1
    return max(min(look.token.length, len(look.rest)), 1)
