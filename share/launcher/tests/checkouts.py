"""Small checkouts for the tests: a list of crates, their sources, a program."""

from __future__ import annotations

import os
import tempfile
import unittest

LIST = """# A list of crates; the last one isn't under the program.
caf_base: smallvec
caf_run may_wait=1: caf_base
caf: caf_base caf_run
base_tests: caf_base
"""
FILES = {
    "crates.txt": LIST,
    "crates/caf/src/main.rt": "fn main() {}\n",
    "crates/caf_base/src/lib.rt": "pub fn one() {}\n",
    "crates/caf_base/src/deep/more.rt": "pub fn two() {}\n",
    "crates/caf_base/specs/Base.antt": "Base\n",
    "crates/caf_run/src/lib.rt": "pub fn three() {}\n",
    "crates/caf_run/proofs/Run.antt": "Run\n",
    "crates/base_tests/src/lib.rt": "fn tests() {}\n",
}
LONG_AGO = 1_600_000_000


def put(path: str, text: str) -> None:
    """Writes a file, and the folders above it."""
    os.makedirs(os.path.dirname(path), exist_ok=True)
    with open(path, "w", encoding="utf-8") as it:
        it.write(text)


def make_checkout(home: str) -> None:
    """Writes the small checkout."""
    for name, text in FILES.items():
        put(f"{home}/{name}", text)


class WithCheckout(unittest.TestCase):
    """A test with a small checkout in `home`, and a cache of its own in `at`."""

    def setUp(self) -> None:
        room = tempfile.TemporaryDirectory(prefix="caf-test-")
        self.addCleanup(room.cleanup)
        self.room, self.home, self.at = room.name, f"{room.name}/home", f"{room.name}/cache"
        make_checkout(self.home)
        for name in ("CAF_CACHE", "CAF_PROGRAM"):
            self.addCleanup(self.restore, name, os.environ.pop(name, None))
        os.environ["CAF_CACHE"] = self.at

    def restore(self, name: str, earlier: str | None) -> None:
        """Sets a variable of the environment to what it was."""
        os.environ.pop(name, None)
        if earlier is not None:
            os.environ[name] = earlier
