"""Turns the LLVM module that a try makes into what a proved program is compiled from, in two parts.

A try has checks in the place of what a proof shows, and fills each fresh local; both go. Functions that the sources
mark #[inline(always)] are marked so again, which a try drops. What isn't reached from `main` goes, and of functions
that are the same code (instances of a generic function for types of one layout) one stays. The rest is cut in two, for
two processors: what reads and checks a source, and what runs it; few calls go from one to the other.
"""

from __future__ import annotations

import glob
import re
from collections.abc import Callable, Iterable

import sources

# The calls of checks, and the filling of fresh locals.
LEFT_OUT = re.compile(
    r'  call void (@"rattle-llvm-checks::|@llvm\.trap\(|@llvm\.memset\.p0\.i64\(ptr %r\d+, i8 -86, )'
)
NAME = re.compile(r'@("[^"]*"|[\w.$-]+)')
COMMENT = re.compile(r" *; preds = .*")
# A function of the sources that is put in place wherever it is called.
IN_PLACE = re.compile(
    r"#\[inline\(always\)\]\s*(?:#\[[^\n]*\]\s*|//[^\n]*\s*)*"
    r"(?:pub(?:\([a-z]+\))? )?(?:const )?(?:unsafe )?fn (\w+)"
)
DEFINED = re.compile(r'define .*@"(\w+)::(?:.*::)?(\w+)(?:::<[^"]*)?"\(.*#0 \{$')
MARK = "#0 alwaysinline {"
# State of the module: a line is its name, how it is linked, and its type, value and alignment.
STATE = " private global "
VALUE = re.compile(r"(\]|i\d+|ptr) [^,]*(, align \d+)?$")
# What reads and checks a source stands under the first of these crates, and what runs it under the second ones. The
# program is the same wherever it is cut: a good cut is quick to compile.
READING = ("source_reader", "rule_checker")
RUNNING = ("image_machine", "control_board", "coarray_memory", "image_core", "race_watch")


class NoModule(Exception):
    """The text isn't that of a whole program."""


class Module:
    """A module's text: the lines outside functions, and those of each function, its name's line first."""

    def __init__(self) -> None:
        self.outside: list[str] = []
        self.bodies: dict[str, list[str]] = {}

    def uses(self) -> dict[str, set[str]]:
        """Returns what each function names."""
        return {name: names_in(body) for name, body in self.bodies.items()}


def names_in(body: list[str]) -> set[str]:
    """Returns what a function names, behind its first line."""
    return {it for line in body[1:] if "@" in line for it in NAME.findall(line)}


def functions_in_place(home: str) -> set[tuple[str, str]]:
    """Returns the crate and the name of each function that the sources mark #[inline(always)]."""
    found = set()
    for path in glob.glob(f"{glob.escape(home)}/crates/*/src/**/*.rt", recursive=True):
        with open(path, encoding="utf-8") as source:
            crate = path[len(home) :].split("/")[2]
            found.update((crate, name) for name in IN_PLACE.findall(source.read()))
    return found


def first_line(line: str, in_place: set[tuple[str, str]]) -> str:
    """Returns the first line of a function, marked where it is put in place."""
    defined = DEFINED.match(line)
    return line.replace("#0 {", MARK) if defined and defined.groups() in in_place else line


def read_module(lines: Iterable[str], in_place: set[tuple[str, str]], tick: Callable[[], None]) -> Module:
    """Reads a module, without checks."""
    module, body, left_out = Module(), None, LEFT_OUT.match
    for line in lines:
        if body is not None:
            if not left_out(line):
                body.append(line)
            if line[0] == "}":
                body = None
        elif line.startswith("define"):
            tick()
            body = module.bodies[NAME.search(line)[1]] = [first_line(line, in_place)]
        else:
            is_attributes = line.startswith("attributes #")
            module.outside.append(line.replace("sanitize_address ", "") if is_attributes else line)
    if body is not None or "main" not in module.bodies:
        raise NoModule("the module that the kit made has no function main, or no end")
    return module


def reached(uses: dict[str, set[str]], starts: Iterable[str], stops: Iterable[str] = ()) -> set[str]:
    """Returns the functions that these lead to, themselves among them, not through those at which it stops."""
    found, waiting = set(), list(starts)
    while waiting:
        name = waiting.pop()
        if name not in found and name in uses and name not in stops:
            found.add(name)
            waiting += uses[name]
    return found


def globals_name(module: Module) -> set[str]:
    """Returns what constants and state of the module name."""
    return {it for line in module.outside if line[0] == "@" for it in NAME.findall(line)}


def drop_unreached(module: Module) -> None:
    """Leaves out the functions that nothing leads to from main."""
    live = reached(module.uses(), ["main", *globals_name(module)])
    module.bodies = {name: body for name, body in module.bodies.items() if name in live}


def kinds_of(module: Module, tick: Callable[[], None]) -> dict[str, int]:
    """Returns numbers for the functions: two that have the same one do the same.

    Two functions are set apart where their texts differ but for names, or where functions that they name in the same
    place are set apart; so until nothing more is.
    """
    texts: dict[str, int] = {}
    calls, kinds = {}, {}
    for name, body in module.bodies.items():
        tick()
        text = COMMENT.sub("", "".join(body))
        kinds[name] = texts.setdefault(NAME.sub("@", text), len(texts))
        calls[name] = NAME.findall(text)[1:]
    number = 0
    while number != len(set(kinds.values())):
        tick()
        number, now = len(set(kinds.values())), {}
        kinds = {
            name: now.setdefault((kinds[name], *[kinds.get(it, it) for it in calls[name]]), len(now)) for name in kinds
        }
    return kinds


def merge_alike(module: Module, is_reading: Callable[[str], bool], tick: Callable[[], None]) -> None:
    """Leaves one of the functions that do the same, one that runs where there is, and has the others name that one."""
    kinds, firsts = kinds_of(module, tick), {}
    for name in sorted(module.bodies, key=lambda it: (it != "main", is_reading(it), it)):
        firsts.setdefault(kinds[name], name)
    same = {name: firsts[kind] for name, kind in kinds.items()}

    def put(found: re.Match[str]) -> str:
        return f"@{same.get(found[1], found[1])}"

    module.outside = [NAME.sub(put, line) if line[0] == "@" else line for line in module.outside]
    module.bodies = {
        name: [NAME.sub(put, line) if "@" in line else line for line in body]
        for name, body in module.bodies.items()
        if same[name] == name
    }


def crates_of_reading(home: str) -> set[str]:
    """Returns the crates that read and check a source, and on which no run stands."""
    return sources.crates_under(home, *READING) - sources.crates_under(home, *RUNNING)


def state_in(line: str, is_first: bool) -> str:
    """Returns the line of a constant or of state as the part has it: state stands in the first part alone."""
    if line[0] != "@" or STATE not in line:
        return line
    if is_first:
        return line.replace(STATE, " hidden global ", 1)
    return VALUE.sub(r"\1\2", line.replace(STATE, " external hidden global ", 1))


def declared(line: str) -> str:
    """Returns the declaration of a function of the other part, by its first line."""
    return re.sub(r"( #\d+[^{]*)? \{$", "", line.replace("define internal", "declare hidden", 1))


def parts_of(module: Module, is_reading: Callable[[str], bool]) -> tuple[list[str], list[str]]:
    """Returns the lines of the two parts: what runs, with main, and what reads. What both name is in both; a function
    that reads and is called by what runs is known to both, but for one that is put in place."""
    uses, named = module.uses(), globals_name(module)
    reading = {name for name in module.bodies if is_reading(name) and MARK not in module.bodies[name][0]}
    running = reached(uses, ["main", *named], reading)
    shared = {it for name in running for it in uses[name]} | named
    shared &= reading
    first = [state_in(line, True) for line in module.outside]
    first += [declared(module.bodies[name][0]) for name in sorted(shared)]
    first += [line for name in sorted(running) for line in module.bodies[name]]
    second = [state_in(line, False) for line in module.outside]
    for name in sorted(reached(uses, [*reading, *named])):
        head, *body = module.bodies[name]
        second += [head.replace("define internal", "define hidden", 1) if name in shared else head, *body]
    return first, second


def plain_parts(home: str, lines: Iterable[str], tick: Callable[[], None]) -> tuple[list[str], list[str]]:
    """Returns the lines of the two parts of the plain module, from the lines of the module that a try makes."""
    module = read_module(lines, functions_in_place(home), tick)
    reading = crates_of_reading(home)

    def is_reading(name: str) -> bool:
        return name.strip('"').partition("::")[0] in reading

    drop_unreached(module)
    tick()
    merge_alike(module, is_reading, tick)
    tick()
    return parts_of(module, is_reading)
