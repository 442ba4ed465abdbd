"""Writes what `./install` needs beside the files of the checkout, on standard output:

    python3 share/launcher/documents.py man | bash | zsh | fish | program

the man page and the completions, which are made from share/help.txt and docs/use/REFUSALS.md, and the program of
release/, held to its sum.
"""

from __future__ import annotations

import os
import sys
from typing import Callable, Dict, Sequence

import release
from completions import bash_completion, fish_completion, words_of, zsh_completion
from help import VERSION, help_words
from manual import help_of, man_page
from tables import read_tables, tables_path
from texts import bytes_of

HOME = os.path.dirname(os.path.dirname(os.path.dirname(os.path.realpath(__file__))))


def program_of_release() -> bytes:
    """Returns the program of release/; raises release.Damaged where there is none, or it isn't the one that it says."""
    said = release.manifest_of(HOME)
    if said is None:
        raise release.Damaged("there is no release")
    return release.program_bytes(HOME, said)


def main(asked: Sequence[str]) -> int:
    """Writes what is asked for; returns the status."""
    text, tables = help_of(help_words(HOME)), read_tables(tables_path(HOME))
    words = words_of(text, tables)
    made: Dict[str, Callable[[], bytes]] = {
        "man": lambda: bytes_of(man_page(text, tables, VERSION)),
        "bash": lambda: bytes_of(bash_completion(words)),
        "zsh": lambda: bytes_of(zsh_completion(words)),
        "fish": lambda: bytes_of(fish_completion(words)),
        "program": program_of_release,
    }
    if len(asked) != 1 or asked[0] not in made:
        print(f"usage: documents.py {' | '.join(made)}", file=sys.stderr)
        return 2
    try:
        sys.stdout.buffer.write(made[asked[0]]())
    except release.Damaged as damaged:
        print(f"caf: {damaged}", file=sys.stderr)
        return 1
    return 0


if __name__ == "__main__":
    sys.exit(main(sys.argv[1:]))
