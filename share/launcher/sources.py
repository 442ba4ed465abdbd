"""The sum of the sources that the program is made from, and whether one of them changed since it was worked out.

The sum is the sha256 of the lines that crates.txt has of the crates under the program, and of each file in src/,
specs/ and proofs/ of these crates: of its name from the top of the checkout on, and of what is in it. Times, modes, the
place of the checkout, crates beside the program with their lines, and all other files have no part in it.

A call doesn't read four thousand files to know it. What a look at all of them told (name, inode, size, times of the
last write and of the last change) is kept with the sum, and where a later look tells the same, the sum is the same: a
write sets a file's time of change, which no program can set back. A file that was written less than two seconds before
the look might be written again within the same tick of that clock, so nothing is kept then.
"""

from __future__ import annotations

import contextlib
import hashlib
import os
import stat
import time
from typing import NamedTuple

import cache
from trouble import NoProgram

PROGRAM = "caf"
PARTS = ("src", "specs", "proofs")
LIST = "crates.txt"
# How long before a look a file was changed last, in nanoseconds, for a later change to show in its time.
SETTLED = 2_000_000_000


class Look(NamedTuple):
    """What a look at the sources told: the lines of crates.txt; a line for each file, as look_below makes it, sorted;
    and the sum of all these lines, which tells one state of the sources from another."""

    listed: bytes
    lines: list[str]
    identity: str

    def names(self) -> list[str]:
        """Returns the names of the sources from the top on, in the order of their bytes."""
        return sorted((line.rsplit(" ", 4)[0] for line in self.lines), key=os.fsencode)

    def latest(self) -> int:
        """Returns the latest time of change of a source, in nanoseconds since 1970."""
        return max((int(line.rpartition(" ")[2]) for line in self.lines), default=0)


def lines_listed(home: str) -> dict[str, str]:
    """Returns the line of each crate of crates.txt, in order, without what is behind a #."""
    found = {}
    with open(f"{home}/{LIST}", encoding="utf-8") as listed:
        for line in listed:
            told = line.partition("#")[0].strip()
            names, colon, _ = told.partition(":")
            if colon and names.split():
                found[names.split()[0]] = told
    return found


def crates_listed(home: str) -> dict[str, list[str]]:
    """Returns the names that stand behind each crate of crates.txt: those of the crates that it stands on directly,
    and of libraries of the kit."""
    return {name: line.partition(":")[2].split() for name, line in lines_listed(home).items()}


def crates_under(home: str, *tops: str) -> set[str]:
    """Returns the crates of crates.txt under these, with those of them that are listed."""
    listed, found, waiting = crates_listed(home), set(), list(tops)
    while waiting:
        name = waiting.pop()
        if name in listed and name not in found:
            found.add(name)
            waiting += listed[name]
    return found


def lines_under(home: str, names: set[str]) -> bytes:
    """Returns the lines that crates.txt has of these crates, in the order in which they stand there."""
    return "".join(f"{line}\n" for name, line in lines_listed(home).items() if name in names).encode()


def look_below(home: str, waiting: list[str], found: list[str]) -> None:
    """Adds a line for each file of these folders and of those in them: the name from the top on, then the inode, the
    size, and the times of the last write and of the last change in nanoseconds since 1970."""
    is_plain = stat.S_ISREG
    while waiting:
        folder = waiting.pop()
        with os.scandir(f"{home}/{folder}") as entries:
            for entry in entries:
                name = f"{folder}/{entry.name}"
                if entry.is_dir(follow_symlinks=False):
                    waiting.append(name)
                    continue
                it = entry.stat(follow_symlinks=False)
                if not is_plain(it.st_mode):
                    raise NoProgram(f"{name} is no plain file: put the file itself there")
                found.append(f"{name} {it.st_ino} {it.st_size} {it.st_mtime_ns} {it.st_ctime_ns}")


def look(home: str) -> Look:
    """Looks at all sources of a checkout, without reading them."""
    found: list[str] = []
    try:
        under = crates_under(home, PROGRAM)
        crates = sorted(under)
        look_below(home, [f"crates/{name}/src" for name in crates], found)
        others = [f"crates/{name}/{part}" for name in crates for part in PARTS[1:]]
        look_below(home, [it for it in others if os.path.lexists(f"{home}/{it}")], found)
        found.sort()
        listed = lines_under(home, under)
    except OSError as error:
        raise NoProgram(f"the sources of the program can't be read: {error}") from error
    told = hashlib.sha256(listed + "\n".join(found).encode("utf-8", "surrogateescape"))
    return Look(listed, found, told.hexdigest())


def read_sum(home: str, listed: bytes, names: list[str]) -> str:
    """Returns the sum of these lines of crates.txt and of these files, by reading the files."""
    whole = hashlib.sha256(os.fsencode(LIST) + b"\0%d\0" % len(listed) + listed)
    try:
        for name in names:
            with open(f"{home}/{name}", "rb") as source:
                text = source.read()
            whole.update(os.fsencode(name) + b"\0%d\0" % len(text) + text)
    except OSError as error:
        raise NoProgram(f"the sources of the program can't be read: {error}") from error
    return whole.hexdigest()


def places_of_kept(home: str) -> list[str]:
    """Returns the files in which the sum may be kept, the one to be written to first: in the checkout, beside what rt
    leaves there, or in the cache."""
    places = [f"{home}/crates/{PROGRAM}/out/sources.seen"]
    with contextlib.suppress(NoProgram):
        known = hashlib.sha256(os.fsencode(os.path.realpath(home))).hexdigest()[:24]
        places.append(f"{cache.folder(home)}/seen-{known}")
    return places


def kept_sum(places: list[str], identity: str) -> str | None:
    """Returns the sum that is kept for this state of the sources, if one is."""
    for place in places:
        with contextlib.suppress(OSError, ValueError):
            with open(place, encoding="ascii") as kept:
                of, told = kept.read().split()
            if of == identity and len(told) == 64:
                return told
    return None


def keep_sum(places: list[str], identity: str, told: str) -> None:
    """Keeps the sum in the first of these files that can be written."""
    for place in places:
        with contextlib.suppress(OSError):
            os.makedirs(os.path.dirname(place), exist_ok=True)
            cache.write(place, f"{identity} {told}\n".encode("ascii"))
            return


def sum_of_sources(home: str, seen: Look | None = None) -> str:
    """Returns the sum of the sources of the checkout whose top is given, 64 hexadecimal digits. `seen` is a look that
    was just taken."""
    begun = time.time_ns()
    seen = seen or look(home)
    places = places_of_kept(home)
    told = kept_sum(places, seen.identity)
    if told is None:
        told = read_sum(home, seen.listed, seen.names())
        if seen.latest() < begun - SETTLED:
            keep_sum(places, seen.identity, told)
    return told


def has_sources(home: str) -> bool:
    """Returns whether this is a checkout: an installed tree has no sources."""
    return os.path.lexists(f"{home}/{LIST}")
