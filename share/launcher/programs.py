"""Which program a call runs: the first of these that is made from the sources of the checkout.

1. What stands in release/: built by proof, packed. An installed tree has this one alone.
2. What was built by proof in this checkout.
3. What is built of the sources without proof, once.
"""

from __future__ import annotations

import enum
import os
from typing import NamedTuple

import proof
import release
import sources
from release import release_of
from trouble import NoProgram, say

__all__ = ["Kind", "NoProgram", "Program", "closing_words", "find_program", "proved_here", "release_of"]
PROVE = "./caf --prove builds the proved one (two to three hours, up to 30 GB of disk)"


class Kind(enum.Enum):
    """What a program is: the release, the one that was proved in this checkout, the one without proof, or the one that
    CAF_PROGRAM names, of which nothing is known."""

    RELEASED = "released"
    PROVED = "proved"
    UNPROVED = "unproved"
    NAMED = "named"


class Program(NamedTuple):
    """A program that can be run, and, of one without proof, why no proved one is run."""

    path: str
    kind: Kind
    why: str = ""


def closing_words(program: Program) -> str:
    """Returns the line with which a call that ran this program ends, without `caf: `; nothing where it is proved."""
    if program.kind is not Kind.UNPROVED:
        return ""
    why = f", since {program.why}" if program.why else ""
    return f"this program is built without proof{why}; {PROVE}"


def released(home: str, told: str | None) -> tuple[Program | None, str]:
    """Returns the program of the release where it is of the sources of that sum, or why it isn't run. An installed
    tree has no sources, so its release decides."""
    try:
        said = release.manifest_of(home)
        if said is None:
            return None, "there is no release"
        if told is not None and said.sources != told:
            return None, "the release is of other sources than these"
        why = release.why_not_here(said)
        if why:
            return None, why
        return Program(release.unpacked(home, said), Kind.RELEASED), ""
    except (release.Damaged, NoProgram) as wrong:
        return None, str(wrong)


def proved_here(home: str) -> Program | None:
    """Returns the program that was built by proof of this checkout's sources as they stand, if there is one."""
    found = proof.proved_program(home, sources.sum_of_sources(home))
    return Program(found, Kind.PROVED) if found else None


def proved_program(home: str, told: str | None) -> tuple[Program | None, str]:
    """Returns the proved program of the sources of that sum, or why there is none."""
    found, why = released(home, told)
    if found is None and told is not None:
        path = proof.proved_program(home, told)
        found = Program(path, Kind.PROVED) if path else None
    return found, why


def find_program(home: str, unproved: bool = False) -> Program:
    """Returns the program that a call runs.

    `home` is the top of the checkout or of the installed tree. Where `unproved` is set, it is the one without proof
    even where a proved one fits. A program without proof is built where it isn't there yet, which takes some minutes
    and is told on standard error. Raises NoProgram where there is none.
    """
    named = os.environ.get("CAF_PROGRAM")
    if named:
        return Program(named, Kind.NAMED)
    told = sources.sum_of_sources(home) if sources.has_sources(home) else None
    found, why = (None, "") if unproved else proved_program(home, told)
    if found is not None:
        return found
    if told is None:
        raise NoProgram(f"no program can be run: {why or 'there are no sources here to build one of'}")
    if why.startswith(release.FOLDER):
        say(why)
    import quick  # (a call that runs a proved program doesn't need it)

    return Program(quick.program_of(home, told), Kind.UNPROVED, why)
