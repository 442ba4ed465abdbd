"""The tables of docs/use/REFUSALS.md, as data."""

import enum
import os
from typing import Dict, List, NamedTuple, Optional

from texts import read_file


class Kind(enum.Enum):
    """What an entry is of: the value is the kind's name in messages."""

    STATUS = "status"
    REFUSAL = "refusal"
    FAULT = "fault"
    CODE = "code"
    WAIT = "wait"
    LIMIT = "limit"


class Entry(NamedTuple):
    """A row of a table. An example stands in backticks where it is a program, and is told in words else; a refusal for
    which there is no program has neither example nor place."""

    kind: Kind
    key: str
    name: str
    meaning: str
    output: Optional[str] = None
    standard: Optional[str] = None
    example: Optional[str] = None
    place: Optional[str] = None


class Case(NamedTuple):
    """A case of a refusal: the number, the case's word, `-` for all that remain, the sentences of which the first is
    said whose places are known, its helps, what its note says, and an example with its place where there is one."""

    number: str
    word: str
    said: List[str]
    helps: List[str]
    note: str
    example: Optional[str] = None
    place: Optional[str] = None


class Tables(NamedTuple):
    """All entries in their order; what to do after a status, by its number; what stands in the place of a form of
    Fortran that isn't read, by its word; the cases of refusals; and what is written in the place of a word of another
    language."""

    entries: List[Entry]
    advice: Dict[str, str]
    left: Dict[str, str]
    cases: List[Case]
    foreign: Dict[str, str]

    def find(self, kind: Kind, key: str) -> Optional[Entry]:
        """Returns the entry of a kind and a key, if there is one."""
        for entry in self.entries:
            if entry.kind is kind and entry.key == key:
                return entry
        return None

    def meaning(self, kind: Kind, key: str) -> str:
        """Returns the meaning of a kind and a key, or nothing."""
        entry = self.find(kind, key)
        return entry.meaning if entry else ""

    def name(self, kind: Kind, key: str) -> str:
        """Returns the name of a kind and a key, or nothing."""
        entry = self.find(kind, key)
        return entry.name if entry else ""


_KINDS = {
    "Statuses": Kind.STATUS,
    "Refusals": Kind.REFUSAL,
    "Run faults": Kind.FAULT,
    "Codes of a status": Kind.CODE,
    "What an image waits for": Kind.WAIT,
    "Limits": Kind.LIMIT,
}
_ADVICE = "What to do"
_CASES = "Cases of a refusal"
_FOREIGN = "Words of other languages"
_LEFT = "What of Fortran isn't read"


def tables_path(home: str) -> str:
    """Returns the file of the tables."""
    return os.path.join(home, "docs", "use", "REFUSALS.md")


def _plain(text: str) -> str:
    return text.replace("`", "")


def _entry(kind: Kind, cells: List[str]) -> Entry:
    """Returns the entry of a row's cells."""
    if kind is Kind.STATUS:
        return Entry(kind, cells[0], cells[1], _plain(cells[3]), output=_plain(cells[2]))
    if kind is Kind.REFUSAL:
        entry = Entry(kind, cells[0], cells[1], _plain(cells[2]), standard=_plain(cells[3]))
        return entry if cells[5] == "-" else entry._replace(example=cells[4], place=cells[5])
    if kind is Kind.FAULT:
        return Entry(kind, cells[0], cells[0], _plain(cells[1]), standard=_plain(cells[2]), example=cells[3])
    if kind is Kind.CODE:
        return Entry(kind, cells[0], cells[1], _plain(cells[2]))
    return Entry(kind, cells[0], cells[0], _plain(cells[1]))


def _sentences(cell: str) -> List[str]:
    return [] if cell == "-" else cell.split("<br>")


def _case(cells: List[str]) -> Case:
    """Returns the case of a row's cells, whose sentences keep their backticks."""
    number, word, said, helps, note, example, place = (cell.replace("\\|", "|") for cell in cells)
    case = Case(number, word, _sentences(said), _sentences(helps), "" if note == "-" else note)
    return case if place == "-" else case._replace(example=example[1:-1], place=place)


def _keep_row(tables: Tables, section: str, cells: List[str]) -> None:
    if section == _ADVICE:
        tables.advice[cells[0]] = _plain(cells[1])
    elif section == _LEFT:
        tables.left.update((word, _plain(cells[1])) for word in cells[0].split())
    elif section == _FOREIGN:
        tables.foreign.update((word, cells[1]) for word in cells[0].split())
    elif section == _CASES:
        tables.cases.append(_case(cells))
    elif section in _KINDS:
        tables.entries.append(_entry(_KINDS[section], cells))


def read_tables(path: str) -> Tables:
    """Reads the tables of a page: below a heading `## SECTION` the lines that begin with `| `, behind the one of
    dashes."""
    tables = Tables([], {}, {}, [], {})
    section = ""
    is_behind_dashes = False
    for line in read_file(path).split("\n"):
        if line.startswith("## "):
            section = line[3:]
            is_behind_dashes = False
        elif line.startswith("|---"):
            is_behind_dashes = True
        elif is_behind_dashes and line.startswith("| "):
            _keep_row(tables, section, line[2:-2].split(" | "))
    return tables
