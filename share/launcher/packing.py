"""Makes release/ of the program that the gate built, and compares it with what stands here: tools/release."""

from __future__ import annotations

import os
import re
import subprocess

import cache
import proof
import release
import sources
from release import Damaged, Release

OF_SOURCES = re.compile(r".. \"?(?:.* -> )?(crates\.txt|crates/[^/]+/(?:src|specs|proofs)/.*)")


class Refused(Exception):
    """No release can be made; the text says why."""


def packed(program: bytes) -> bytes:
    """Returns the program packed: the same bytes for the same program."""
    import lzma

    filters = [
        {"id": lzma.FILTER_X86},
        {"id": lzma.FILTER_LZMA2, "preset": 9 | lzma.PRESET_EXTREME, "dict_size": 1 << 22},
    ]
    return lzma.compress(program, format=lzma.FORMAT_XZ, check=lzma.CHECK_CRC64, filters=filters)


def glibc_of(program: bytes) -> str:
    """Returns the oldest version of glibc that has all that the program calls of it: the latest one that it names."""
    named = [(int(one), int(other)) for one, other in re.findall(rb"GLIBC_([0-9]+)\.([0-9]+)\b", program)]
    return "%d.%d" % max(named, default=(2, 0))


def git(home: str, *words: str) -> str:
    """Returns what a command of git says of the checkout."""
    try:
        how = {"cwd": home, "stdin": subprocess.DEVNULL, "stdout": subprocess.PIPE, "stderr": subprocess.PIPE}
        return subprocess.run(["git", *words], check=True, **how).stdout.decode("utf-8", "surrogateescape")
    except OSError as error:
        raise Refused(f"the commit isn't known: {error}") from error
    except subprocess.CalledProcessError as error:
        raise Refused(f"the commit isn't known: {error.stderr.decode(errors='replace').strip()}") from error


def commit_of(home: str) -> str:
    """Returns the commit whose sources stand in the checkout."""
    told = git(home, "status", "--porcelain", "--untracked-files=all", "--", "crates.txt", "crates")
    changed = [found[1] for found in map(OF_SOURCES.match, told.splitlines()) if found]
    if changed:
        raise Refused(f"{changed[0]} isn't as it was committed: commit the sources first")
    return git(home, "rev-parse", "HEAD").strip()


def pack(home: str) -> Release:
    """Makes release/ of crates/caf/out/caf. Refused where that isn't the program that was proved of these sources, or
    where these aren't the commit's."""
    told = sources.sum_of_sources(home)
    why = proof.why_unproved(home, told)
    if why:
        raise Refused(f"{why}: tools/prove, or ./test --proofs, comes first")
    kit = re.fullmatch(r"(\S+) logic (\S+)", proof.note_of(home).get("kit", ""))
    if not kit:
        raise Refused(f"{proof.STAMP} names no kit")
    program = release.read(f"{home}/{proof.PROGRAM}")
    small = packed(program)
    sums = {"glibc": glibc_of(program), "program": release.sum_of(program), "program_bytes": len(program)}
    sums.update({"packed": release.sum_of(small), "packed_bytes": len(small)})
    made = Release(sources=told, kit=kit[1], logic=kit[2], commit=commit_of(home), **sums)
    at = f"{home}/{release.FOLDER}"
    os.makedirs(at, exist_ok=True)
    cache.write(f"{at}/{release.PACKED}", small)
    cache.write(f"{at}/{release.MANIFEST}", made.text().encode("ascii"))
    return made


def check(home: str) -> Release:
    """Returns what the release says, where it is whole and of this checkout's sources; else raises Damaged."""
    made = release.manifest_of(home)
    if made is None:
        raise Damaged(f"there is no {release.FOLDER}/{release.MANIFEST}")
    if made.sources != sources.sum_of_sources(home):
        raise Damaged(f"{release.FOLDER}/ is of other sources than these, those of commit {made.commit[:12]}")
    release.program_bytes(home, made)
    return made


def compare(home: str) -> None:
    """Compares the release byte for byte with what was proved here; raises Damaged where they differ."""
    made = check(home)
    why = proof.why_unproved(home, made.sources)
    if why:
        raise Damaged(why)
    ours, theirs = release.read(f"{home}/{proof.PROGRAM}"), release.program_bytes(home, made)
    if ours != theirs:
        shorter = min(len(ours), len(theirs))
        place = next((at for at in range(shorter) if ours[at] != theirs[at]), shorter)
        raise Damaged(f"{proof.PROGRAM} and the release differ from byte {place} on, of {len(ours)} and {len(theirs)}")
