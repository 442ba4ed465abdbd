"""What tells that crates/caf/out/caf is the program that rt ci built by proof of the sources as they stand now.

rt leaves the program there and says nothing of the text that it is of. So whoever runs rt ci over the checkout writes
beside it, where it passed: the sum of the sources, which didn't change meanwhile, the sum of the program, and the name
of the kit. Each run of rt ci takes the whole folder out/ away first, so what stands beside a program is of its run.
"""

from __future__ import annotations

import os

import cache
from release import read, sum_of

PROGRAM = "crates/caf/out/caf"
STAMP = f"{PROGRAM}.proved"


def note_proof(home: str, told: str, kit: str) -> None:
    """Writes that the program was built by proof of the sources of that sum, with the kit that names itself so, as
    `rattle-kit-13f logic dac8208d650f15bf`."""
    lines = [f"sources {told}", f"program {sum_of(read(f'{home}/{PROGRAM}'))}", f"kit {kit}"]
    cache.write(f"{home}/{STAMP}", "".join(f"{it}\n" for it in lines).encode())


def note_of(home: str) -> dict[str, str]:
    """Returns what note_proof wrote, each line's text under its first word."""
    text = read(f"{home}/{STAMP}").decode(errors="replace")
    return {key: value for key, _, value in (line.partition(" ") for line in text.splitlines())}


def why_unproved(home: str, told: str) -> str:
    """Returns why the program in out/ isn't the proved one of the sources of that sum, or nothing where it is."""
    try:
        program, note = read(f"{home}/{PROGRAM}"), note_of(home)
    except OSError as error:
        return f"{os.path.relpath(error.filename, home)} isn't there"
    if note.get("sources") != told:
        return f"{PROGRAM} was proved of other sources than these"
    if note.get("program") != sum_of(program):
        return f"{PROGRAM} isn't the program that was proved"
    return "" if os.access(f"{home}/{PROGRAM}", os.X_OK) else f"{PROGRAM} can't be run"


def proved_program(home: str, told: str) -> str | None:
    """Returns the path of the program that was built by proof of the sources of that sum, if it is there."""
    if os.path.exists(f"{home}/{STAMP}") and not why_unproved(home, told):
        return f"{home}/{PROGRAM}"
    return None
