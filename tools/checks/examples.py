"""The examples, the programs that end alike on workers, the limits, and the commands of the pages."""

import glob
import os
import re
import subprocess
from typing import Iterator, List, NamedTuple, Tuple

from checks.comparing import HOME, LAUNCHER, Checks, call, folder, read, with_status, write

PAGES = ("README.md", "docs/use/REFUSALS.md", "docs/use/GUIDE.md", "docs/use/EVERY-ORDER.md", "docs/build/TOUR.md")
_CALL = re.compile(r"# \./caf (.*): status ([0-9]+)")


class Example(NamedTuple):
    """A call of an example: its words, and what it must answer, with a line of its status."""

    words: List[str]
    wanted: bytes


def calls_of(path: str) -> Iterator[Example]:
    """Gives the calls of examples/NAME.out: a line '# ./caf WORDS: status S' and below it what standard output must
    have."""
    calls: List[Tuple[List[str], str, List[str]]] = []
    for line in read(path).decode("utf-8").split("\n")[:-1]:
        found = _CALL.fullmatch(line)
        if found:
            calls.append((found.group(1).split(), found.group(2), []))
        else:
            calls[-1][2].append(line)
    for words, status, lines in calls:
        yield Example(words, "".join(f"{line}\n" for line in [*lines, f"status {status}"]).encode())


def check_examples(checks: Checks) -> None:
    """The launcher writes and ends as examples/*.out say, and as the program itself."""
    for program in sorted(glob.glob(f"{HOME}/examples/*.f90")):
        checks.holds(f"{program} has its .out", os.path.exists(f"{program[:-4]}.out"))
    for path in sorted(glob.glob(f"{HOME}/examples/*.out")):
        for example in calls_of(path):
            shown = " ".join(example.words)
            got = call([LAUNCHER, *example.words])
            checks.same(f"./caf {shown}", example.wanted, with_status(got))
            own = call([checks.program, *example.words])
            checks.same(f"the program itself: {shown}", example.wanted, with_status(own))
            checks.same(f"standard error of the program: {shown}", b"", own.said)


def check_workers(checks: Checks) -> None:
    """The calls of tools/workers.cases end alike in every order: on four workers, ten times in a row, as by
    rotation."""
    for line in read(f"{HOME}/tools/workers.cases").decode().splitlines():
        wanted = with_status(call([checks.program, "run", "--order", "0", *line.split()]))
        got = [with_status(call([checks.program, "run", "-w", "4", *line.split()])) for _ in range(10)]
        different = [it for it in got if it != wanted]
        checks.same(f"on workers: {line}", wanted, different[0] if different else wanted)


def check_limits(checks: Checks) -> None:
    """The longest file that is read and one byte more; each number of images; a text that can't be written, by the
    program itself."""
    with folder() as work:
        longest = write(f"{work}/longest.f90", b"\n" * 1048572 + b"end\n")
        longer = write(f"{work}/longer.f90", b"\n" * 1048573 + b"end\n")
        for command in (LAUNCHER, checks.program):
            got = call([command, "run", "-n", "1", "--order", "0", longest])
            checks.same(f"{command}: a file of 1,048,576 bytes", b"status 0\n", with_status(got))
            got = call([command, "run", "-n", "1", "--order", "0", longer])
            checks.same(f"{command}: a file of 1,048,577 bytes", b"too long\nstatus 13\n", with_status(got))
    _check_literals(checks)
    for images in (*range(1, 66), 127, 128, 129, 191, 192, 193, 255, 256):
        got = call([checks.program, "run", "-n", str(images), "--order", "0", "examples/empty.f90"])
        checks.same(f"an empty program on {images} images", b"status 0\n", with_status(got))
    with open("/dev/full", "wb") as full:
        words = ["run", "-n", "4", "--order", "0", "examples/neighbour.f90"]
        got = call([checks.program, *words], stdout=full)
        checks.same("the program, to what takes nothing", b"status 11\n", with_status(got))


def _check_literals(checks: Checks) -> None:
    """No number of literals is too many for a PRINT, nor for those that are begun one in another; what stands between
    them may print nothing."""
    alone = _print([b"''"] * 131073) + b"end\n"
    apart = b"integer :: x(0)\n" + _print([b"''", b"x"] * 131330) + b"end\n"
    front = b"print *, f(250)\ncontains\nrecursive integer function f(n) result(r)\ninteger, intent(in) :: n\n"
    front += b"integer :: x(0)\nr = 0\nif (n > 0) then\n"
    deep = front + _print([b"''", b"x"] * 600 + [b"f(n - 1)"]) + b"end if\nend function\nend\n"
    inner = b"1:  0\n" * 250 + b"1: 0\n"
    wanted = (("side by side", alone, b"1: \n"), ("apart", apart, b"1: \n"), ("one in another", deep, inner))
    with folder() as work:
        for name, source, told in wanted:
            path = write(f"{work}/literals.f90", source)
            got = call([checks.program, "run", "-n", "1", "--order", "0", path])
            checks.same(f"literals {name}", told + b"status 0\n", with_status(got))


def _print(items: List[bytes]) -> bytes:
    """A list-directed PRINT of these items, on lines of 100."""
    lines = [b",".join(items[at : at + 100]) for at in range(0, len(items), 100)]
    return b"print *, &\n" + b", &\n".join(lines) + b"\n"


class Shown(NamedTuple):
    """A command of a page, and what both streams must have."""

    command: str
    wanted: str


def commands_of(page: str) -> List[Shown]:
    """Returns the commands of a page: each line '    $ COMMAND', with lines '    > MORE' that go on with it, and below
    it what it writes."""
    shown: List[List[str]] = []
    is_open = False
    for line in page.split("\n"):
        text = line[6:] + "\n"
        if line.startswith("    $ "):
            shown.append([text, ""])
            is_open = True
        elif is_open and line.startswith("    > "):
            shown[-1][0] += text
        elif is_open and line.startswith("    "):
            shown[-1][1] += line[4:] + "\n"
        else:
            is_open = False
    return [Shown(*it) for it in shown]


def check_pages(checks: Checks) -> None:
    """The commands of a page write what stands below them. They run in one folder, which has ./caf, examples and
    docs."""
    for page in PAGES:
        with folder() as work:
            for name in ("caf", "examples", "docs"):
                os.symlink(f"{HOME}/{name}", f"{work}/{name}")
            for shown in commands_of(read(f"{HOME}/{page}").decode("utf-8")):
                got = call(["sh", "-c", shown.command], folder=work, stderr=subprocess.STDOUT)
                checks.same(f"{page}: {shown.command.splitlines()[0]}", shown.wanted, got.text)
