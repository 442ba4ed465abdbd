"""What `caf --help` and `caf --version` say."""

import os
import re
from typing import List, Optional

from render_text import WIDTH, wrapped
from tables import Kind, read_tables, tables_path
from texts import read_file, text_of

VERSION = "0.2"

# What stands before the second column of a list: a term and blanks. The values of an option may leave it one blank.
_TERM = re.compile(r"    (?:--?[a-z-]+(?: [A-Z@]+(?= ))* +|\S+(?: \S+)*  +)")
# A line that goes on with the second column of the line before.
_GOES_ON = re.compile(r"\n {5,}")


def help_path(home: str) -> str:
    """Returns the file of the help text, whose lines have at most 100 columns."""
    return os.path.join(home, "share", "help.txt")


def help_words(home: str) -> str:
    """Returns the help text but for the statuses, each term of a list with what it means on one line."""
    return _GOES_ON.sub(" ", read_file(help_path(home)))


def help_lines(line: str) -> List[str]:
    """Returns a line of a list in lines of at most 100 columns: the second column goes on below itself."""
    found = _TERM.match(line)
    if not found or len(line) <= WIDTH:
        return [line]
    return wrapped(line[found.end() :], found[0], " " * found.end())


def help_text(home: str) -> str:
    """Returns the help text, with the statuses from the tables."""
    text = read_file(help_path(home)) + "Statuses:\n\n"
    for it in read_tables(tables_path(home)).entries:
        if it.kind is Kind.STATUS:
            front = f"    {int(it.key):2d} {it.name:<11} "
            text += "".join(f"{line}\n" for line in wrapped(it.meaning, front, " " * len(front)))
    return text


def version_text(home: str) -> str:
    """Returns the version; the kit; the commit of the checkout, where it is one; and what the release is of, where
    there is one."""
    from release import release_of  # here, since the help needs none

    kit = _said_by(["rt", "version"])
    lines = [f"caf {VERSION}\n", "no kit: rt isn't on the path\n" if kit is None else kit]
    if os.path.exists(os.path.join(home, ".git")):
        commit = _said_by(["git", "-C", home, "rev-parse", "--short=12", "HEAD"])
        changes = _said_by(["git", "-C", home, "status", "--porcelain"])
        if commit is not None:
            lines.append(f"commit {commit.strip()}{', with changes' if changes else ''}\n")
    release = release_of(home)
    if release is not None:
        lines.append(f"release of commit {release.commit[:12]}, by {release.kit} logic {release.logic}\n")
    return "".join(lines)


def _said_by(command: List[str]) -> Optional[str]:
    """Returns what a command writes, or nothing where it isn't there or fails."""
    import subprocess  # here, since most calls don't need it

    try:
        done = subprocess.run(command, stdin=subprocess.DEVNULL, stdout=subprocess.PIPE, stderr=subprocess.DEVNULL)
    except OSError:
        return None
    return text_of(done.stdout) if done.returncode == 0 else None
