"""What `caf --explain WORD` says: the entries of docs/use/REFUSALS.md with a number or a name, each with the sentences
that its messages have, or what there is in the place of a form of Fortran."""

import re
from typing import List, Optional

from ends import Place
from excerpts import excerpt
from render_text import wrapped
from sentences import Sentences
from tables import Case, Entry, Kind, Tables
from texts import lower

KINDS = (
    "a status (0 to 15), the number of a refusal (1 to 9, 20 to 59), a run fault (Overflow), a code (6000 to 6006), "
    "or a name of these"
)

# A place of a sentence.
_OPEN = re.compile(r"\{[a-z]+\}")
_TITLES = {Kind.FAULT: "run fault", Kind.CODE: "code of a status", Kind.WAIT: "a stuck image waits for"}


def explain(word: str, tables: Tables, sentences: Sentences) -> Optional[str]:
    """Returns what is said of a word, or nothing where the tables don't have it."""
    wanted = lower(word)
    entries = [it for it in tables.entries if wanted in (lower(it.key), lower(it.name))]
    told = [_explained(it, tables) + _sentences(it, sentences) for it in entries]
    if wanted in tables.left:
        told.append([f"in the place of {wanted.upper()}", *_indented("", tables.left[wanted])])
    if not told:
        return None
    return "\n".join("".join(f"{line}\n" for line in lines) for lines in told)


def _explained(entry: Entry, tables: Tables) -> List[str]:
    """Returns the lines of an entry."""
    title = _TITLES.get(entry.kind, entry.kind.value)
    name = "" if entry.name == entry.key else f" {entry.name}"
    lines = [f"{title} {entry.key}{name}", *_indented("", entry.meaning)]
    if entry.output is not None:
        lines += _indented("standard output: ", entry.output)
    if entry.standard is not None:
        lines.append(f"    {'ISO/IEC 1539-1:2018, ' if entry.standard[:1].isdigit() else ''}{entry.standard}")
    if entry.kind is Kind.STATUS and entry.key in tables.advice:
        lines += _indented("what to do: ", tables.advice[entry.key])
    cases = []
    if entry.kind is Kind.REFUSAL:
        cases = [case for case in tables.cases if case.number == entry.key and case.word != "-"]
    if entry.example is not None and not any(case.example for case in cases):
        lines += _example(entry.example, entry.place)
    return lines + [line for case in cases for line in _case(case, tables)]


def _sentences(entry: Entry, sentences: Sentences) -> List[str]:
    """Returns the lines of what messages say of an entry, with names in braces for what they find in the source and in
    the trace of the run."""
    return [line for it in sentences.of_entry(entry) for line in _indented(f"{it.role}: ", it.words)]


def _case(case: Case, tables: Tables) -> List[str]:
    """Returns the lines of a case: what is said of its example, or its sentence where it has none."""
    if case.example is None or case.place is None:
        return _indented("case: ", _OPEN.sub("..", case.said[0]))
    from refusals import refusal_said  # here, since only what is said of a refusal needs it

    line, column = case.place.split(":")
    said = refusal_said(case.number, Place(int(line), int(column), ""), [case.example], tables)
    shown = excerpt(f"    {line:>5}", case.example, int(column))
    helps = (line for it in said.helps for line in _indented("help: ", it, 10))
    return [*_indented(f"case, refused at {case.place}: ", said.text), *shown, *helps]


def _indented(front: str, text: str, margin: int = 4) -> List[str]:
    """Returns a text in lines of at most 100 columns, the first one behind other words."""
    return wrapped(text, f"{' ' * margin}{front}", " " * (margin + 4))


def _example(text: str, place: Optional[str]) -> List[str]:
    """Returns the lines of an example: one in backticks is a program, any other is told in words."""
    if not (len(text) > 1 and text[0] == text[-1] == "`"):
        return [f"    example: {text}, refused at {place}"]
    text = text[1:-1]
    if place is None:
        return ["    example:", f"          | {text}"]
    line, column = place.split(":")
    return [f"    example, refused at {place}:", *excerpt(f"    {line:>5}", text, int(column))]
