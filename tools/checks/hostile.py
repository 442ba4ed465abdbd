"""Traces that no run wrote: bytes drawn at random, very long lines, numbers and files, and millions of teams. What must
come is worked out from the form of a trace, never taken from an answer."""

import random
import re
from itertools import chain
from typing import Iterable, Iterator, List, NamedTuple

from checks.comparing import Checks, call, folder, with_status, write

SOURCE = b"integer :: x[*]\nx = this_image()\nsync all\nend\n"
STEP = b"1 1 2 m1 write x:0 1 > ok\n"
MOST = 67108864
DRAWN = 40
# How long a call may take, in seconds: a machine that has much else to do takes long for the longest files.
PATIENCE = 600.0
CORE_RUN = b"core run\nstatus 0\n"
FIRST_STEP = b"not a run at step 1\nstatus 14\n"
TOO_LONG = b"too long\nstatus 13\n"
# A line of a trace begins so.
_STEP = re.compile(rb"[0-9]+[ \t]")
# Steps with a number at a place, of which some have no bounds in the text.
_NUMBERS = """\
{} 1 2 m1 write x:0 1 > ok
1 {} 2 m1 write x:0 1 > ok
1 1 {} m1 write x:0 1 > ok
1 1 2 m{} write x:0 1 > ok
1 1 2 m1 write x:{} 1 > ok
1 1 2 m1 write x:0:{}*1 1 > ok
1 1 2 m1 write x:0:2*{} 1,1 > ok
1 1 2 m1 write x:0 {} > ok
1 1 2 m1 write x:0 -{} > ok
1 1 2 m1 read x:0 > {}
1 1 2 m1 create x {} > ok
1 1 2 m1 wait x:0 {} > 0
1 1 2 board arrive {} sync > round 1
1 1 2 board arrive 1 form {} 0 > round 1
1 1 2 board arrive 1 allocate x[{}:*] > round 1
1 1 2 board arrive 1 sync > round {}
1 1 2 board arrive 1 sync > clash {} 1
1 1 2 board leave 1 {} > 0
1 1 2 board leave 1 1 > {}
1 1 2 board leave 1 1 > 0 teams 2/{}:1
1 1 2 board leave 1 1 > 0 teams {}/1:1
1 1 2 board leave 1 1 > 0 teams 2/1:{}
1 1 2 board gather 1 sum {} I4 1 > round 1
1 1 2 board pair {} > ok
1 1 2 board enter {} > 0
1 1 2 board status 1 {} > 0
1 1 2 board failed 1 > {}
1 1 2 board stop {} > ok
1 1 2 own errorstop -{} > ok
1 1 2 own limit stamp {} > ok
"""


class Hostile(NamedTuple):
    """A trace file by its pieces, and what both commands must answer to it, with a line of the status."""

    name: str
    pieces: Iterable[bytes]
    wanted: bytes


def check_hostile(checks: Checks) -> None:
    """Each of the files is judged; each third one is replayed, too, where it is no run."""
    with folder() as work:
        source = write(f"{work}/a.f90", SOURCE)
        files = chain(_drawn(), _long_numbers(), _cut(), _long_lines(), _long_files(), _teams())
        for number, it in enumerate(files):
            trace = f"{work}/t"
            with open(trace, "wb") as made:
                for piece in it.pieces:
                    made.write(piece)
            commands = ["judge"] if number % 3 or it.wanted == CORE_RUN else ["judge", "replay"]
            for command in commands:
                got = call([checks.program, command, "-n", "2", trace, source], timeout=PATIENCE)
                checks.same(f"{command}: {it.name}", it.wanted, with_status(got))
        _check_many_coarrays(checks, work)


def bad(line: int) -> bytes:
    """Returns the answer to a trace that is bad at a line."""
    return b"bad trace at line %d\nstatus 15\n" % line


def answer_to(data: bytes) -> bytes:
    """Returns the answer to bytes of which no line is a step's: it is bad at the first that begins as one."""
    found = [number for number, line in enumerate(data.split(b"\n"), 1) if _STEP.match(line)]
    return bad(found[0]) if found else CORE_RUN


def _drawn() -> Iterator[Hostile]:
    """Bytes of all values, and such as stand in traces; none of their lines is a step's, since none has ` > ` in it."""
    draw = random.Random(1539)
    for number in range(DRAWN):
        kinds = bytes(range(256)) if number % 2 else b"0123456789 \t\n\r:m/-"
        data = bytes(draw.choices(kinds, k=draw.choice((10, 100, 1000, 100000))))
        yield Hostile(f"drawn bytes {number}", [data.replace(b" > ", b" < ")], answer_to(data))


def _long_numbers() -> Iterator[Hostile]:
    """Numbers of 10,000 digits, at each place where a step has one: no number of a step is so long."""
    digits = "1234567890" * 1000
    for number, line in enumerate(_NUMBERS.splitlines(), 1):
        name = f"a number of 10,000 digits in line {number} of the table"
        yield Hostile(name, [line.format(digits).encode() + b"\n"], bad(1))
    yield Hostile("10,000 digits and a blank", [digits.encode() + b" "], bad(1))
    yield Hostile("10,000 digits", [digits.encode() + b"\n", STEP], CORE_RUN)
    yield Hostile("a form with 10,000 digits", [b"trace 2 images " + digits.encode() + b"\n", STEP], CORE_RUN)


def _cut() -> Iterator[Hostile]:
    """Each front of a short trace. One that is cut in its second step has a line without its line feed, and is a step's
    from the blank behind the stamp on."""
    text = STEP + b"1 2 2 m2 write x:0 2 > ok\n"
    for end in range(len(text) + 1):
        wanted = CORE_RUN
        if end < len(STEP):
            wanted = bad(1) if end > 1 else CORE_RUN
        elif end < len(text):
            wanted = bad(2) if end - len(STEP) > 1 else CORE_RUN
        yield Hostile(f"the first {end} bytes of two steps", [text[:end]], wanted)


def _long_lines() -> Iterator[Hostile]:
    """Lines of 60 MB: one that is passed over, digits alone, digits and a blank, a printed text, a list of values."""
    size = 60000000
    yield Hostile("a line of 60 MB of letters", [b"x" * size, b"\n", STEP], CORE_RUN)
    yield Hostile("60 MB of digits", [b"1" * size], CORE_RUN)
    yield Hostile("60 MB of digits and a blank", [b"\n", b"1" * size, b" \n"], bad(2))
    yield Hostile("a printed text of 60 MB", [b"1 1 2 own print ", b"x" * size, b" > ok\n"], FIRST_STEP)
    yield Hostile("a printed text of 60 MB without a reply", [b"1 1 2 own print ", b"> " * (size // 2), b"\n"], bad(1))
    yield Hostile("30,000,000 values", [b"1 1 2 m1 write x:0 1", b",1" * 29999999, b" > ok\n"], FIRST_STEP)
    yield Hostile("blanks between", [b"1", b" " * size, b"1 2 m1 write x:0 1 > ok\n"], bad(1))
    yield Hostile("a line of nothing but NUL", [b"\0" * size], CORE_RUN)


def _long_files() -> Iterator[Hostile]:
    """As many bytes as a trace may have, and one more; as many steps as there is room for."""
    yield Hostile("67,108,864 line feeds", [b"\n" * MOST], CORE_RUN)
    yield Hostile("67,108,865 line feeds", [b"\n" * (MOST + 1)], TOO_LONG)
    yield Hostile("67,108,865 bytes of a bad line", [b"1 ", b"x" * (MOST - 1)], TOO_LONG)
    line = b"1 1 2 own memory > ok\n"
    count = MOST // len(line)
    yield Hostile(f"{count} steps", [line * count], FIRST_STEP)
    yield Hostile(f"{count - 1} steps and a bad line", [line * (count - 1), b"1 1 2 own memory\n"], bad(count))
    yield Hostile(f"{count - 1} steps and a cut one", [line * (count - 1), line[:-1]], bad(count))


def _teams() -> Iterator[Hostile]:
    """3,000,000 teams, each with its team number: in one line, and ten a line. A later line names one of them, by its
    number or by another one."""
    teams = [b" %d/%d:1" % (number, number % 7) for number in range(2, 3000002)]
    head = b"trace 2 images 2\n"
    leave = b"1 1 2 board leave 1/-1 1 > 0 teams"
    one = [head, leave, *teams, b"\n"]
    ten: List[bytes] = [head]
    for start in range(0, len(teams), 10):
        ten += [leave, *teams[start : start + 10], b"\n"]
    for name, pieces, line in (("in a line", one, 3), ("ten a line", ten, 300002)):
        for team, number, wanted in ((3000001, 3000001 % 7, FIRST_STEP), (1500000, 1500000 % 7 + 1, bad(line))):
            last = b"2 1 2 board arrive %d/%d sync > round 1\n" % (team, number)
            yield Hostile(f"3,000,000 teams {name}, then team {team}/{number}", [*pieces, last], wanted)
    again = leave + b" 2/5:1\n"
    named = b"2 1 2 board arrive 2/%d sync > round 1\n"
    yield Hostile("a team with two numbers, by the first", [head, again, leave, b" 2/6:1\n", named % 5], FIRST_STEP)
    yield Hostile("a team with two numbers, by the second", [head, again, leave, b" 2/6:1\n", named % 6], bad(4))


def _check_many_coarrays(checks: Checks, work: str) -> None:
    """A source with 20,000 coarrays, and 500,000 steps that name the last of them."""
    names = [b"c%d" % number for number in range(20000)]
    source = write(f"{work}/many.f90", b"".join(b"integer :: %s[*]\n" % it for it in names) + b"end\n")
    trace = write(f"{work}/t", b"1 1 2 m1 write c19999:0 1 > ok\n" * 500000)
    got = call([checks.program, "judge", "-n", "2", trace, source], timeout=PATIENCE)
    checks.same("500,000 steps at the last of 20,000 coarrays", FIRST_STEP, with_status(got))
    trace = write(f"{work}/t", b"1 1 2 m1 write c20000:0 1 > ok\n")
    got = call([checks.program, "judge", "-n", "2", trace, source])
    checks.same("a step at none of 20,000 coarrays", bad(1), with_status(got))
