#!/usr/bin/env python3
"""Tells what a run of 256 images takes beside smaller ones: bench/images.py [TURNS]

Steps a second of an ordered run of 64 and of 256 images that assign and meet in SYNC ALL, and of such that only meet:
the time of a whole call less that of a call with one turn, the best of three. The most memory of runs that record the
16,777,216 words of a run on 1, 4, 64 and 256 images, and of 256 images with 65,536 cells each; and how a call ends that
may not have so much memory. The program is crates/caf/out/caf, or the one that CAF_PROGRAM names.
"""

import os
import resource
import subprocess
import sys
import tempfile
import time
from typing import List, NamedTuple, Optional

HOME = os.path.dirname(os.path.dirname(os.path.realpath(__file__)))
PROGRAM = os.environ.get("CAF_PROGRAM", f"{HOME}/crates/caf/out/caf")
LITTLE = 400 << 20

BOTH = "integer :: x[*], i\nx = 0\ndo i = 1, {}\nx = x + 1\nsync all\nend do\nend\n"
MEET = "integer :: i\ndo i = 1, {}\nsync all\nend do\nend\n"
WRITES = "integer :: x[*], k\ndo k = 1, 4000000\nx = k\nend do\nend\n"
CELLS = "integer :: x(65536)[*], y(65536)\nx(1) = 1\ny = 2\nif (this_image() == num_images()) print *, y(65536)\nend\n"


class Call(NamedTuple):
    """What a call took and how it ended."""

    seconds: float
    bytes: int
    status: int
    last: str


def call(source: str, images: int, room: Optional[int] = None) -> Call:
    """Runs a source by rotation, with so much room for addresses at most."""

    def begin() -> None:
        if room is not None:
            resource.setrlimit(resource.RLIMIT_AS, (room, room))

    with tempfile.TemporaryDirectory() as folder:
        path = f"{folder}/a.f90"
        with open(path, "w", encoding="ascii") as file:
            file.write(source)
        words = [PROGRAM, "run", "-n", str(images), "--order", "0", "--steps", "100000000", path]
        begun = time.monotonic()
        process = subprocess.Popen(words, stdout=subprocess.PIPE, stderr=subprocess.STDOUT, preexec_fn=begin)
        assert process.stdout is not None
        text = process.stdout.read()
        _, status, used = os.wait4(process.pid, 0)
        process.returncode = status >> 8
        took = time.monotonic() - begun
    lines = text.decode().splitlines() or [""]
    return Call(took, used.ru_maxrss << 10, status >> 8, lines[-1])


def seconds(form: str, images: int, turns: int) -> float:
    """The time of so many turns, the best of three."""
    many = min(call(form.format(turns + 1), images).seconds for _ in range(3))
    return max(many - min(call(form.format(1), images).seconds for _ in range(3)), 1e-6)


def tell(text: str, is_met: bool) -> None:
    print(f"{text}: {'OK' if is_met else 'NOT'}", flush=True)


def main(words: List[str]) -> None:
    turns = int(words[0]) if words else 100
    few, many = (4 * images * turns / seconds(BOTH, images, turns) for images in (64, 256))
    tell(f"steps a second, assignment and SYNC ALL: {few:.0f} on 64 images, {many:.0f} on 256", many >= few / 2)
    few, many = (1e6 * seconds(MEET, images, turns) / turns for images in (64, 256))
    print(f"a SYNC ALL of all images: {few:.0f} microseconds on 64 images, {many:.0f} on 256", flush=True)
    for images in (1, 4, 64, 256):
        done = call(WRITES, images)
        told = f"{done.bytes >> 20} MB, {done.seconds:.1f} s, status {done.status}: {done.last}"
        tell(f"the words of a run on {images} images: {told}", done.bytes < 1 << 30 and done.status == 7)
    done = call(CELLS, 256)
    told = f"{done.bytes >> 20} MB, {done.seconds:.1f} s, status {done.status}: {done.last}"
    tell(f"256 images with 65,536 cells each: {told}", done.bytes < 3 << 29 and done.status == 0)
    done = call(CELLS, 256, LITTLE)
    tell(f"the same with {LITTLE >> 20} MB of addresses: status {done.status}: {done.last}", done.status == 12)


if __name__ == "__main__":
    main(sys.argv[1:])
