"""What is said of an answer: tools/messages.cases, tools/uses.cases, and the tables of docs/use/REFUSALS.md."""

import os
import re
from typing import Dict, Iterator, List, NamedTuple

import tables
from checks.comparing import HOME, LAUNCHER, Checks, call, folder, read, write
from ending import Caller
from given_file import Asked, GivenFile
from messages import Answered, messages
from tables import Entry, Kind
from texts import bytes_of, text_of
from uses import use_of
from words import Valid, read_words

# No run comes to the last stamp, and a lock that is acquired ends no run.
NEVER_AN_END = ("stamp", "6002")
MOST_COLUMNS = 100
_HEAD = re.compile(r"== ([^:]*): status ([0-9]+), (.*)")


class Case(NamedTuple):
    """A case: its name, the status, the words, and the source, the text and the messages, with a trace t where they
    name one."""

    name: str
    status: int
    words: List[str]
    parts: Dict[str, str]


def cases() -> Iterator[Case]:
    """Gives the cases of tools/messages.cases."""
    for text in ("\n" + text_of(read(f"{HOME}/tools/messages.cases"))).split("\n== ")[1:]:
        head, *parts = text.rstrip("\n").split("\n-- ")
        found = _HEAD.fullmatch(f"== {head}")
        assert found, head
        kept = {name: f"{lines}\n" if lines else "" for name, _, lines in (part.partition("\n") for part in parts)}
        yield Case(found.group(1), int(found.group(2)), found.group(3).split(), kept)


def check_messages(checks: Checks) -> None:
    """Of each case the program's answer, where it takes the words as they are, and what the launcher answers and says.
    The source that stands for one that is too long has its messages alone."""
    with folder() as work:
        os.symlink(LAUNCHER, f"{work}/caf")
        os.chdir(work)
        for case in cases():
            write("a.f90", bytes_of(case.parts["source"]))
            write("t", bytes_of(case.parts.get("trace", "")))
            own = call([checks.program, *case.words], folder=work)
            got = call(["./caf", *case.words], folder=work)
            if own.status == case.status:
                checks.same(f"the answer of {case.name}", bytes_of(case.parts["text"]), own.text)
            if got.status == case.status:
                checks.same(f"./caf of {case.name}", bytes_of(case.parts["text"]), got.text)
                checks.same(f"what ./caf says of {case.name}", bytes_of(case.parts["said"]), got.said)
            else:
                checks.same(f"the status of {case.name}", "13 0", f"{case.status} {got.status}")
                answered = Answered(case.status, case.parts["text"].split("\n"))
                said = messages(Caller(HOME, "./caf"), _asked(case.words), answered)
                checks.same(f"messages of {case.name}", bytes_of(case.parts["said"]), bytes_of(said))
        os.chdir(HOME)
    _check_cases(checks)
    _check_uses(checks)


def _check_cases(checks: Checks) -> None:
    """There is a case for each status that has a message, each run fault, each wait, each limit and each code with
    which a run can end; and no line of a message is wider than 100 columns, but for what is refused."""
    texts = "".join(case.parts["text"] for case in cases())
    entries = tables.read_tables(tables.tables_path(HOME)).entries
    forms = {
        Kind.FAULT: r"fault image \d+ line \d+ {}\n",
        Kind.WAIT: r"stuck image \d+ line \d+ {}\n",
        Kind.LIMIT: r"limit image \d+ line \d+ {} ",
        Kind.CODE: r"error stop image \d+ line \d+ code {}\n",
    }
    for entry in entries:
        if entry.kind in forms and entry.key not in NEVER_AN_END:
            found = re.search(forms[entry.kind].format(entry.key), texts)
            checks.holds(f"a case of {entry.kind.value} {entry.key}", found is not None)
    for case in cases():
        is_free = case.status == 3 or "--message-format" in " ".join(case.words)
        widest = max((len(it) for it in case.parts["said"].split("\n")), default=0)
        checks.holds(f"{case.name} is {widest} columns wide", widest <= MOST_COLUMNS or is_free)


def _asked(words: List[str]) -> Asked:
    read_as = read_words(words)
    if not isinstance(read_as, Valid) or read_as.file is None:
        return Asked(words)
    asked = Asked(words, read_as.file, GivenFile(words[read_as.file], words[read_as.file]))
    if read_as.trace is None:
        return asked
    return asked._replace(trace_place=read_as.trace, trace=GivenFile(words[read_as.trace], words[read_as.trace]))


def _check_uses(checks: Checks) -> None:
    """The lines of tools/uses.cases: what the message of a race says that they do."""
    for row in read(f"{HOME}/tools/uses.cases").decode().splitlines():
        if not row.startswith("#"):
            line, _, wanted = row.rpartition("|")
            use = use_of("x", line)
            checks.same(f"tools/uses.cases: {line}", wanted, f"{use.verb} {use.column}")


def check_tables(checks: Checks) -> None:
    """The tables have each number once, each place lies in its example, and each example is answered as they say."""
    entries = tables.read_tables(tables.tables_path(HOME)).entries
    found = [(it.kind, it.key) for it in entries]
    wanted = [(Kind.STATUS, str(it)) for it in range(16)]
    wanted += [(Kind.REFUSAL, str(it)) for it in range(1, 60) if it <= 9 or it >= 20]
    for kind, key in wanted:
        checks.holds(f"{kind.value} {key} stands {found.count((kind, key))} times", found.count((kind, key)) == 1)
    with folder() as work:
        for entry in entries:
            is_told = bool(entry.name and entry.meaning)
            checks.holds(f"{entry.kind.value} {entry.key} has no name or no meaning", is_told)
            if entry.example is not None:
                _check_example(checks, entry, work)


def _check_example(checks: Checks, entry: Entry, work: str) -> None:
    """An example is answered as its entry says, by a run and by a check."""
    source = _source_of(entry)
    what = f"the example of {entry.kind.value} {entry.name}"
    path = write(f"{work}/{entry.kind.value}-{entry.name}.f90", bytes_of(source + "\n"))
    if entry.place is not None:
        line, column = (int(it) for it in entry.place.split(":"))
        checks.holds(f"{what} has its place", line == 1 and 1 <= column <= len(source))
    run = call([checks.program, "run", "-n", "1", "--order", "0", path]).text
    checked = call([checks.program, "check", path]).text
    if entry.kind is Kind.FAULT:
        checks.same(what, f"fault image 1 {entry.key}\n", re.sub(rb" line [0-9]+", b"", run, count=1))
        checks.same(f"a check of {what}", "ok\n", checked)
    else:
        checks.same(what, f"refused {entry.key} at {entry.place}\n", run)
        checks.same(f"a check of {what}", f"refused {entry.key} at {entry.place}\n", checked)


def _source_of(entry: Entry) -> str:
    """Returns the source of an example. The one that is told in words is a comment of 1,001 bytes; the statements of a
    run fault's stand on lines of their own."""
    text = entry.example or ""
    if not text.startswith("`"):
        return "!" + "x" * 1000
    return text[1:-1].replace("; ", "\n") if entry.kind is Kind.FAULT else text[1:-1]
