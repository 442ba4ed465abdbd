"""The program that a checkout or an installed tree brings with it: release/, which tools/release makes.

release/MANIFEST has lines `KEY VALUE`; release/caf-x86_64-linux.xz is the program, packed. It was built by proof of
the sources whose sum the manifest states, and a call runs it where these are the sources of the checkout. It is
unpacked once into the cache, and what runs is held to the sum of the program at each call.
"""

from __future__ import annotations

import contextlib
import hashlib
import os
import re
import sys
from typing import NamedTuple

import cache
from trouble import NoProgram

FOLDER = "release"
MANIFEST = "MANIFEST"
PACKED = "caf-x86_64-linux.xz"
UNPACKED = "caf-x86_64-linux"
SUM = "[0-9a-f]{64}"
NUMBER = "[1-9][0-9]{0,9}"
# Each key of the manifest, in order, and what stands behind it.
KEYS = {
    "sources": SUM,
    "kit": r"\S+",
    "logic": r"\S+",
    "commit": "[0-9a-f]{40}",
    "glibc": r"[0-9]{1,4}\.[0-9]{1,4}",
    "program": SUM,
    "program_bytes": NUMBER,
    "packed": SUM,
    "packed_bytes": NUMBER,
}


class Damaged(Exception):
    """What stands in release/ isn't whole; the text says what."""


class Release(NamedTuple):
    """What release/MANIFEST says: sums are sha256 in 64 hexadecimal digits, sizes are in bytes, `commit` is the one
    whose sources it was built of, `glibc` the oldest version of the C library under which the program runs."""

    sources: str
    kit: str
    logic: str
    commit: str
    glibc: str
    program: str
    program_bytes: int
    packed: str
    packed_bytes: int

    def text(self) -> str:
        """Returns the text of the manifest."""
        return "".join(f"{key} {getattr(self, key)}\n" for key in KEYS)


def sum_of(text: bytes) -> str:
    """Returns the sha256 of these bytes, in hexadecimal."""
    return hashlib.sha256(text).hexdigest()


def read(path: str) -> bytes:
    """Returns the bytes of a file."""
    with open(path, "rb") as it:
        return it.read()


def parse(text: str) -> Release:
    """Reads the text of a manifest."""
    lines = [line.partition(" ") for line in text.splitlines()]
    said = {key: value for key, _, value in lines}
    if [key for key, _, _ in lines] != list(KEYS):
        raise Damaged(f"{FOLDER}/{MANIFEST} hasn't the lines {', '.join(KEYS)}, in this order")
    wrong = [key for key, form in KEYS.items() if not re.fullmatch(form, said[key])]
    if wrong:
        raise Damaged(f"the line {wrong[0]} of {FOLDER}/{MANIFEST} can't be read")
    sizes = {key: int(value) for key, value in said.items() if key.endswith("_bytes")}
    return Release(**{**said, **sizes})  # type: ignore[arg-type]


def manifest_of(home: str) -> Release | None:
    """Returns what the release of a checkout or an installed tree says, or None where there is none."""
    try:
        return parse(read(f"{home}/{FOLDER}/{MANIFEST}").decode("ascii"))
    except FileNotFoundError:
        return None
    except (OSError, UnicodeDecodeError) as error:
        raise Damaged(f"{FOLDER}/{MANIFEST} can't be read: {error}") from error


def release_of(home: str) -> Release | None:
    """Returns what release/MANIFEST says, or None where there is none that can be read."""
    with contextlib.suppress(Damaged):
        return manifest_of(home)
    return None


def version_of(text: str) -> tuple[int, ...]:
    """Returns the numbers of a version such as `2.36`."""
    return tuple(int(it) for it in re.findall("[0-9]+", text))


def why_not_here(release: Release) -> str:
    """Returns why the packed program doesn't run on this machine, or nothing where it does."""
    if sys.platform != "linux" or os.uname().machine != "x86_64":
        return "the release is for Linux on x86-64"
    try:
        ours = os.confstr("CS_GNU_LIBC_VERSION") or ""
    except (OSError, ValueError):
        ours = ""
    is_glibc = ours.startswith("glibc ")
    if is_glibc and version_of(ours) >= version_of(release.glibc):
        return ""
    return f"the release needs glibc {release.glibc} or a later one"


def packed_bytes(home: str, release: Release) -> bytes:
    """Returns the packed program, once it is held to the manifest."""
    try:
        packed = read(f"{home}/{FOLDER}/{PACKED}")
    except OSError as error:
        raise Damaged(f"{FOLDER}/{PACKED} can't be read: {error.strerror}") from error
    if len(packed) != release.packed_bytes or sum_of(packed) != release.packed:
        raise Damaged(f"{FOLDER}/{PACKED} isn't the file whose sum stands in {FOLDER}/{MANIFEST}")
    return packed


def program_bytes(home: str, release: Release) -> bytes:
    """Returns the program of the release, once the packed file and it are held to the manifest."""
    import lzma  # (a call that runs what is unpacked already doesn't need it)

    packed = packed_bytes(home, release)
    try:
        unpacker = lzma.LZMADecompressor(format=lzma.FORMAT_XZ, memlimit=1 << 28)
        program = unpacker.decompress(packed, max_length=release.program_bytes + 1)
    except lzma.LZMAError as error:
        raise Damaged(f"{FOLDER}/{PACKED} can't be unpacked: {error}") from error
    if len(program) != release.program_bytes or sum_of(program) != release.program:
        raise Damaged(f"{FOLDER}/{PACKED} isn't of the program whose sum stands in {FOLDER}/{MANIFEST}")
    return program


def is_the_program(path: str, release: Release) -> bool:
    """Returns whether that file is the program of the release, and can be run."""
    try:
        return os.access(path, os.X_OK) and sum_of(read(path)) == release.program
    except OSError:
        return False


def unpacked(home: str, release: Release) -> str:
    """Returns the path of the program of the release, which is unpacked into the cache where it isn't there yet. An
    installed tree may have it unpacked beside the packed one."""
    beside = f"{home}/{FOLDER}/{UNPACKED}"
    if is_the_program(beside, release):
        return beside
    at = cache.folder(home)
    path = f"{at}/released-{release.program}"
    if not is_the_program(path, release):
        program = program_bytes(home, release)
        try:
            cache.write(path, program, 0o755)
        except OSError as error:
            raise NoProgram(f"the program can't be unpacked to {at}: {error.strerror}") from error
        cache.keep_newest(at, "released-")
    cache.use(path)
    return path
