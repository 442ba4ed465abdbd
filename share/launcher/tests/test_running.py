"""A run: what is kept of a text, and how the program's end is told."""

import os
import stat
import subprocess
import sys
import tempfile
import unittest
from typing import List

from running import EndLines

PACKAGE = os.path.dirname(os.path.dirname(os.path.abspath(__file__)))
# Runs a program with the words behind it, and prints how it ended on standard error.
RUNS = f"""import sys
sys.path.insert(0, {PACKAGE!r})
from running import run
outcome = run(sys.argv[1], sys.argv[2:], None)
print(outcome.status, outcome.lines, file=sys.stderr)
"""


def lines_of(*pieces: bytes) -> List[str]:
    """Returns what is kept of a text in these pieces."""
    kept = EndLines()
    for piece in pieces:
        kept.take(piece)
    return kept.all()


class EndLinesTest(unittest.TestCase):
    def test_what_is_kept(self) -> None:
        text = b"1: refused 3 at 1:1\nlimit image 1 line 2 words 9\n3 1 4 m1 read x:0 > 1\nvar 1 x = 3\nracer\n"
        self.assertEqual(lines_of(text), ["limit image 1 line 2 words 9"])

    def test_any_pieces(self) -> None:
        text = b"1: 4\nstuck image 1 line 2 leave\nstuck image 2 line 2 leave\n2: 5\nstuck image 3 line 1 lock"
        wanted = ["stuck image 1 line 2 leave", "stuck image 2 line 2 leave", "stuck image 3 line 1 lock"]
        for size in range(1, len(text) + 1):
            with self.subTest(size=size):
                self.assertEqual(lines_of(*(text[at : at + size] for at in range(0, len(text), size))), wanted)

    def test_the_first_line(self) -> None:
        self.assertEqual(lines_of(b"refused 7 at 1:1\n"), ["refused 7 at 1:1"])
        self.assertEqual(lines_of(b""), [])
        self.assertEqual(lines_of(b"usage: word 1"), ["usage: word 1"])


class RunTest(unittest.TestCase):
    def setUp(self) -> None:
        self.room = tempfile.TemporaryDirectory(prefix="caf-test-")
        self.addCleanup(self.room.cleanup)

    def run_of(self, text: str, *words: bytes) -> "subprocess.CompletedProcess[bytes]":
        """Runs a program in Python with these words."""
        path = f"{self.room.name}/program"
        with open(path, "w", encoding="utf-8") as file:
            file.write(f"#!{sys.executable}\n{text}")
        os.chmod(path, stat.S_IRWXU)
        return subprocess.run([sys.executable, "-B", "-c", RUNS, path, *words], capture_output=True, check=False)

    def test_text_and_status(self) -> None:
        done = self.run_of("import sys\nprint('1: 4')\nprint('fault image 1 line 1 Bounds')\nsys.exit(8)\n")
        self.assertEqual(done.stdout, b"1: 4\nfault image 1 line 1 Bounds\n")
        self.assertEqual(done.stderr, b"8 ['fault image 1 line 1 Bounds']\n")

    def test_all_bytes(self) -> None:
        done = self.run_of("import os\nos.write(1, bytes(range(256)) * 999)\n")
        self.assertEqual(done.stdout, bytes(range(256)) * 999)

    def test_a_killed_program(self) -> None:
        done = self.run_of("import os\nos.write(1, b'1: 4')\nos.kill(os.getpid(), 9)\n")
        self.assertEqual((done.stdout, done.stderr), (b"1: 4", b"137 []\n"))

    def test_the_words_are_handed_on(self) -> None:
        done = self.run_of("import os, sys\nprint([os.fsencode(it) for it in sys.argv[1:]])\n", b"run", b"", b"a b")
        self.assertEqual(done.stdout, b"[b'run', b'', b'a b']\n")

    def test_signals_end_the_program(self) -> None:
        done = self.run_of("import signal\nprint(*[signal.getsignal(it) is signal.SIG_DFL for it in (1, 15)])\n")
        self.assertEqual(done.stdout, b"True True\n")


if __name__ == "__main__":
    unittest.main()
