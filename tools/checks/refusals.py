"""What is said of refused places: the cases of docs/use/REFUSALS.md by their examples, and tools/refusals.cases."""

import re
from typing import Dict, Iterator, List, NamedTuple, Set

import tables
from checks.comparing import HOME, Checks, call, folder, read, write
from ends import Place
from look import Look
from refusals import Said, chosen, refusal_said
from tables import Case, Tables
from texts import bytes_of, text_of

_HEAD = re.compile(r"([^:]+): refused ([0-9]+) at ([0-9]+):([0-9]+)")
_PLACE = re.compile(r"\{[a-z]+\}")
_NUMBERS = [str(it) for it in range(1, 60) if it <= 9 or it >= 20]

# Sources that can't stand in a file of cases, each with its answer and what is said.
_MADE: Dict[bytes, List[str]] = {
    b"\xef\xbb\xbfend\n": [
        "1 at 1:1",
        "error: the file begins with a byte order mark",
        "help: save it as text without one",
    ],
    b"a = \xff\nend\n": ["1 at 1:5", "error: the byte 255 isn't ASCII, and may stand in a comment alone"],
    b"integer :: a; a =\xc2\xa01\nend\n": ["1 at 1:18", "error: this blank isn't ASCII", "help: write a blank"],
    b"end ! " + b"x" * 1000 + b"\n": [
        "2 at 1:1001",
        "error: with its comment the line has 1006 bytes, and 1,000 are the most",
        "help: put the comment on lines of its own",
    ],
    b"print *, 1" + b" + 1" * 300 + b"\nend\n": [
        "2 at 1:1001",
        "error: the line has 1210 bytes, and 1,000 are the most",
        "help: end it with `&` and go on in the next line",
    ],
    b"print *, 'a\x1bb'\nend\n": ["5 at 1:12", "error: the control character 27 can't stand in a literal"],
    b"print *, \x0c1\nend\n": ["5 at 1:10", "error: the control character 12 can't stand in a statement"],
    b"do\n" * 65 + b"end\n": [
        "9 at 65:1",
        "error: brackets, constructs and operands nest 64 levels deep at most, and this DO begins the 65th",
    ],
    b"print *, " + b"2 ** " * 65 + b"2\nend\n": [
        "9 at 1:335",
        "error: brackets, constructs and operands nest 64 levels deep at most, and this operand begins the 65th",
    ],
    b"": ["7 at 1:1", "error: the file has no statement", "help: a program has END at least"],
}


class Tried(NamedTuple):
    """A source, the answer to it behind `refused `, and what is said of it."""

    name: str
    source: bytes
    answer: str
    said: List[str]


def tried_sources() -> Iterator[Tried]:
    """Gives the sources of tools/refusals.cases, and those that are made."""
    for text in ("\n" + text_of(read(f"{HOME}/tools/refusals.cases"))).split("\n== ")[1:]:
        source, _, said = text.rstrip("\n").partition("\n-- said\n")
        head, _, source = source.partition("\n")
        found = _HEAD.fullmatch(head)
        assert found, head
        answer = f"{found.group(2)} at {found.group(3)}:{found.group(4)}"
        yield Tried(found.group(1), bytes_of(source + "\n"), answer, said.split("\n"))
    for number, (made, (answer, *lines)) in enumerate(_MADE.items(), 1):
        yield Tried(f"made source {number}", made, answer, lines)


def _said_of(answer: str, source: bytes, names: Tables) -> Said:
    number, _, place = answer.partition(" at ")
    line, _, column = place.partition(":")
    return refusal_said(number, Place(int(line), int(column), ""), text_of(source).split("\n"), names)


def _case_of(answer: str, source: bytes, names: Tables) -> str:
    """Returns the number and the word of the case that is chosen."""
    number, _, place = answer.partition(" at ")
    line, _, column = place.partition(":")
    found = chosen(Look(number, int(line), int(column), text_of(source).split("\n"), names))
    return f"{number} {found.case if found else '-'}"


def _lines_of(said: Said) -> List[str]:
    notes = [f"note {line}:{column}: {note}" for line, column, note in said.notes]
    return [f"error: {said.text}", *notes, *(f"help: {it}" for it in said.helps)]


def check_refusals(checks: Checks) -> None:
    """Each case is chosen for its example, each source is answered and spoken of as it must be, and each rule and each
    pattern of 7 has a source."""
    names = tables.read_tables(tables.tables_path(HOME))
    found: Set[str] = set()
    with folder() as work:
        for case in names.cases:
            if case.example is not None:
                _check_example(checks, case, names, work)
        for tried in tried_sources():
            path = write(f"{work}/tried.f90", tried.source)
            own = call([checks.program, "check", path]).text
            checks.same(f"the answer to {tried.name}", f"refused {tried.answer}\n", own)
            said = _said_of(tried.answer, tried.source, names)
            wanted = "".join(f"{it}\n" for it in tried.said)
            checks.same(f"what is said of {tried.name}", bytes_of(wanted), bytes_of("\n".join(_lines_of(said)) + "\n"))
            checks.holds(f"{tried.name}: the length is {said.length}", said.length >= 1)
            found.add(_case_of(tried.answer, tried.source, names))
    for number in _NUMBERS:
        checks.holds(f"{number} has no source in tools/refusals.cases", any(it.split()[0] == number for it in found))
    for case in names.cases:
        is_tried = f"{case.number} {case.word}" in found
        if case.number == "7":
            checks.holds(f"7 {case.word} has no help", bool(case.helps) or case.word in ("more", "-"))
            checks.holds(f"7 {case.word} has no source in tools/refusals.cases", is_tried)
        elif case.word != "-":
            what = f"{case.number} {case.word} has neither an example nor a source in tools/refusals.cases"
            checks.holds(what, is_tried or case.example is not None)
    _check_table(checks, names)


def _check_example(checks: Checks, case: Case, names: Tables, work: str) -> None:
    """An example is refused at its place, and the launcher chooses its case and fills its sentence."""
    what = f"the example of {case.number} {case.word}"
    source = bytes_of(f"{case.example}\n")
    path = write(f"{work}/example.f90", source)
    answer = f"{case.number} at {case.place}"
    checks.same(f"the answer to {what}", f"refused {answer}\n", call([checks.program, "check", path]).text)
    checks.same(f"the case of {what}", f"{case.number} {case.word}", _case_of(answer, source, names))
    said = _said_of(answer, source, names)
    is_of_case = any(_form(sentence).fullmatch(said.text) for sentence in case.said)
    checks.holds(f"{what} is told as {said.text!r}", is_of_case)


def _form(sentence: str) -> "re.Pattern[str]":
    """Returns the form of a sentence whose places may have anything."""
    return re.compile(".+".join(re.escape(it) for it in _PLACE.split(sentence)))


def _check_table(checks: Checks, names: Tables) -> None:
    """No case stands twice, and each number has some."""
    keys = [f"{case.number} {case.word}" for case in names.cases]
    for key in sorted(set(keys)):
        checks.holds(f"case {key} stands {keys.count(key)} times", keys.count(key) == 1)
    for number in _NUMBERS:
        checks.holds(f"{number} has no case", any(case.number == number for case in names.cases))
