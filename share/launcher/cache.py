"""The folder in which programs are kept between calls: $CAF_CACHE, else the user's ~/.cache/caf, else one in the
checkout's out/.

What stands there is written apart and then renamed, so no call meets half of it. Whoever builds holds locks that end
with its process, so a killed call leaves nothing that others would wait for, and the next build removes its room.
"""

from __future__ import annotations

import contextlib
import fcntl
import os
import stat
import time
from collections.abc import Callable, Iterator

from trouble import NoProgram

# So many programs of a kind are kept, those used last.
KEPT = 3
ROOM = "building-"
PART = "part-"


def can_hold(at: str) -> bool:
    """Returns whether programs can be kept in this folder, which is made where it isn't there: it is the user's own,
    nobody else may write to it, and what stands in it may be run."""
    try:
        os.makedirs(at, 0o700, exist_ok=True)
        told = os.stat(at)
        is_own = told.st_uid == os.geteuid() and not told.st_mode & (stat.S_IWGRP | stat.S_IWOTH)
        return is_own and os.access(at, os.W_OK | os.X_OK) and not os.statvfs(at).f_flag & os.ST_NOEXEC
    except OSError:
        return False


def folder(home: str) -> str:
    """Returns the folder of the cache, for the checkout or installed tree whose top is given."""
    named = os.environ.get("CAF_CACHE")
    if named:
        if not can_hold(os.path.abspath(named)):
            raise NoProgram(f"no program can be kept in {named}, which CAF_CACHE names")
        return os.path.abspath(named)
    of_user = os.environ.get("XDG_CACHE_HOME") or os.path.expanduser("~/.cache")
    for at in (f"{of_user}/caf", f"{home}/crates/caf/out/cache"):
        if os.path.isabs(at) and can_hold(at):
            return at
    raise NoProgram("no folder can be written to in which the program could be kept; CAF_CACHE names one")


def write(path: str, text: bytes, mode: int = 0o644) -> None:
    """Writes a file whole, or not at all."""
    import tempfile  # (most calls write nothing, and begin sooner without it)

    number, part = tempfile.mkstemp(prefix=PART, dir=os.path.dirname(path))
    try:
        with open(number, "wb") as made:
            made.write(text)
        os.chmod(part, mode)
        os.replace(part, path)
    except BaseException:
        with contextlib.suppress(OSError):
            os.remove(part)
        raise


def use(path: str) -> None:
    """Notes that a program of the cache is used: those used last are kept."""
    with contextlib.suppress(OSError):
        os.utime(path)


def keep_newest(at: str, prefix: str) -> None:
    """Removes the programs whose names begin so, but for the three used last."""
    with os.scandir(at) as entries:
        found = sorted((it.stat().st_mtime, it.path) for it in entries if it.name.startswith(prefix))
    for _, path in found[:-KEPT]:
        with contextlib.suppress(OSError):
            os.remove(path)


def take(path: str, may_wait: bool) -> int | None:
    """Takes the lock of a file and returns its descriptor, or None where another has it and it may not wait."""
    number = os.open(path, os.O_RDWR | os.O_CREAT | os.O_CLOEXEC, 0o600)
    try:
        fcntl.flock(number, fcntl.LOCK_EX | (0 if may_wait else fcntl.LOCK_NB))
    except BlockingIOError:
        os.close(number)
        return None
    except BaseException:
        os.close(number)
        raise
    return number


@contextlib.contextmanager
def alone(at: str, key: str, waits: Callable[[float], None]) -> Iterator[None]:
    """Holds the lock of a key. While another call has it, `waits` is called with the seconds so far, ten times a
    second."""
    path, begun = f"{at}/lock-{key}", time.monotonic()
    number = take(path, may_wait=False)
    while number is None or not is_same(number, path):
        if number is not None:
            os.close(number)
        waits(time.monotonic() - begun)
        time.sleep(0.1)
        number = take(path, may_wait=False)
    try:
        yield
    finally:
        with contextlib.suppress(OSError):
            os.remove(path)
        os.close(number)


def is_same(number: int, path: str) -> bool:
    """Returns whether the open file still stands under that name: whoever had its lock may have removed it."""
    try:
        return os.path.samestat(os.fstat(number), os.stat(path))
    except OSError:
        return False


@contextlib.contextmanager
def room(at: str) -> Iterator[str]:
    """Gives a folder of the cache to build in, which is removed at the end; what killed builds left goes before."""
    import shutil
    import tempfile

    remove_left(at)
    made = tempfile.mkdtemp(prefix=ROOM, dir=at)
    held = take(f"{made}/held", may_wait=False)
    try:
        yield made
    finally:
        shutil.rmtree(made, ignore_errors=True)
        if held is not None:
            os.close(held)


def remove_left(at: str) -> None:
    """Removes the rooms that nobody holds, and the parts of files that killed calls left."""
    import shutil

    for name in os.listdir(at):
        path = f"{at}/{name}"
        if name.startswith(ROOM) and is_left(path):
            shutil.rmtree(path, ignore_errors=True)
        elif name.startswith(PART) and is_old(path):
            with contextlib.suppress(OSError):
                os.remove(path)


def is_old(path: str) -> bool:
    """Returns whether the file was written more than a minute ago."""
    try:
        return time.time() - os.stat(path).st_mtime > 60
    except OSError:
        return False


def is_left(path: str) -> bool:
    """Returns whether nobody builds in that room. A room without its lock file was made a moment ago, or its owner was
    killed at once: after a minute it is left."""
    try:
        number = take(f"{path}/held", may_wait=False) if os.path.exists(f"{path}/held") else None
        if number is not None:
            os.close(number)
            return True
        return not os.path.exists(f"{path}/held") and is_old(path)
    except OSError:
        return False
