"""What `explore` makes of a program whose ends are known: a stand-in that ends by its words alone."""

import contextlib
import fcntl
import os
import signal
import subprocess
import sys
import tempfile
import time
import unittest
from typing import Iterator, List
from unittest import mock

import explore
import views
from captured import Captured
from ending import Caller
from many import Job, Runs, run_many
from programs import Kind, Program
from trace import read_run
from ways import Way, images, way_of

HOME = os.path.dirname(os.path.dirname(os.path.dirname(os.path.dirname(os.path.abspath(__file__)))))
# Its order says how it ends; a failure of image 2 in its step 1 stops the run; on workers it has always finished.
STAND_IN = f"""#!{sys.executable} -S
import sys
words = sys.argv[1:]
order = int(words[words.index("--order") + 1]) if "--order" in words else 1
if "--trace" in words:
    print("1 1 3 own print a > ok\\n1 2 3 m1 read x:0 > 4\\n2 2 4 board stop 0 > ok")
if "2@1" in words:
    print("error stop image 1 line 9 code 6001")
    sys.exit(4)
if order % 3 == 0:
    print(f"1: {{order}}\\nrace on x:0 of image 1: image 2 event 1 line 8, image 1 event 2 line 7")
    sys.exit(5)
if order % 3 == 2:
    print("stuck image 1 line 5 lock\\nstuck image 2 line 6 leave\\nstuck image 3 line 6 leave")
    sys.exit(6)
print("1: 20\\n2: 20")
"""

BY_SEEDS = """\
7 orders, SEED 0 to 6
  orders  end
       3  5 Race: x, lines 7 and 8
            with 3 different texts
            caf run -n 2 --order 0 FILE
       2  0 Finished
            | 1: 20
            | 2: 20
            caf run -n 2 --order 1 FILE
       2  6 Stuck: image 1 at line 5 (lock), images 2, 3 at line 6 (leave)
            caf run -n 2 --order 2 FILE
Other orders may end otherwise: nothing is said of them.
"""

BOTH = """\
4 orders, SEED 0 to 3, and 1 run on 1 to 4 workers
  orders  workers  end
       2        0  5 Race: x, lines 7 and 8
                     with 2 different texts
                     caf run --order 0 FILE
       1        1  0 Finished
                     | 1: 20
                     | 2: 20
                     caf run --order 1 FILE
       1        0  6 Stuck: image 1 at line 5 (lock), images 2, 3 at line 6 (leave)
                     caf run --order 2 FILE
Other orders may end otherwise: nothing is said of them.
"""

WITH_FAILURES = """\
each of the 3 single failures in order 1
failures  end
       1  4 ErrorStop: line 9, code 6001
            at 2@1
            caf run --order 1 --fail 2@1 FILE
       2  0 Finished
            | 1: 20
            | 2: 20
            at 1@1 2@2
            caf run --order 1 --fail 1@1 FILE
Other orders, and two failures at once, may end otherwise: nothing is said of them.
"""


@contextlib.contextmanager
def program(text: str) -> Iterator[str]:
    """Gives the path of a stand-in for the program."""
    with tempfile.TemporaryDirectory() as folder:
        path = os.path.join(folder, "program")
        with open(path, "w", encoding="ascii") as file:
            file.write(text)
        os.chmod(path, 0o755)
        yield path


class ExploreTest(unittest.TestCase):
    def call(self, *words: str) -> int:
        """Explores an empty source with these words, and returns the status; what is told stands in `answered`."""
        self.answered: List[str] = []
        with program(STAND_IN) as path, tempfile.NamedTemporaryFile(suffix=".f90") as file:
            with contextlib.ExitStack() as stack:
                found = Program(path, Kind.NAMED)
                stack.enter_context(mock.patch("programs.find_program", return_value=found))
                for module in (explore, views):
                    stack.enter_context(mock.patch.object(module, "answer", side_effect=self.answered.append))
                status = views.view(Caller(HOME, "caf"), "", ["explore", *words, file.name])
            self.answered = [it.replace(file.name, "FILE") for it in self.answered]
        return status

    def test_seeds(self) -> None:
        self.assertEqual(self.call("-n", "2", "--order", "0", "--runs", "7"), 5)
        self.assertEqual(self.answered, [BY_SEEDS])

    def test_the_status_is_that_of_the_first_run_that_has_one(self) -> None:
        self.assertEqual(self.call("--order", "1", "--runs", "1"), 0)
        self.assertEqual(self.call("--order", "1", "--runs", "3"), 6)

    def test_seeds_and_workers(self) -> None:
        self.call("--runs", "5")
        self.assertEqual(self.answered, [BOTH])

    def test_workers_alone(self) -> None:
        self.assertEqual(self.call("-w", "2", "--runs", "3"), 0)
        self.assertIn("3 runs on 2 workers\n", self.answered[0])
        self.assertIn("caf run -w 2 FILE, perhaps\n", self.answered[0])

    def test_failures(self) -> None:
        self.assertEqual(self.call("--order", "1", "--fails"), 4)
        self.assertEqual(self.answered, [WITH_FAILURES])
        self.call("--order", "1", "--fails", "--runs", "2")
        self.assertIn("2 of the 3 single failures in order 1\n", self.answered[0])

    def test_the_last_seed(self) -> None:
        self.call("--order", "2147483646", "--runs", "5")
        self.assertIn("2 orders, SEED 2147483646 to 2147483647\n", self.answered[0])


class WaysTest(unittest.TestCase):
    def test_what_is_told_apart(self) -> None:
        table = [
            (4, "1: 3\nerror stop image 3 line 9 code -1\n", "line 9, code -1"),
            (5, "race on x:3 of image 1: image 2 event 1 line 7, image 1 event 2 line 7\n", "x, line 7 with itself"),
            (7, "limit image 3 line 9 statements 1001\n", "line 9, statements"),
            (8, "fault image 3 line 9 Bounds\n", "line 9, Bounds"),
            (9, "clash image 3 line 9 against image 1 line 8\n", "line 9 against line 8"),
        ]
        for status, text, what in table:
            self.assertEqual(way_of(status, read_run(text)), Way(status, what))
        self.assertEqual(way_of(0, read_run("1: 3\nvar 1 x = 2\n")), Way(0, "", ("1: 3", "var 1 x = 2")))

    def test_images(self) -> None:
        self.assertEqual(images([2]), "image 2")
        self.assertEqual(images([8, 1, 3, 4, 5]), "images 1, 3 to 5, 8")


# Makes runs of a program that go on for long, and is killed, behind the process that keeps their group or alone.
KILLED = f"""
import os, signal, sys
sys.path.insert(0, {os.path.dirname(os.path.dirname(os.path.abspath(__file__)))!r})
import many
def begun():
    if os.path.getsize(sys.argv[2]) == 6:
        if sys.argv[3] == "both":
            os.kill(groups[0].number, signal.SIGKILL)
        os.kill(os.getpid(), signal.SIGKILL)
groups = []
make = many.Group
many.Group = lambda: groups.append(make()) or groups[0]
jobs = [many.Job(it, [sys.argv[2]]) for it in range(6)]
many.run_many(many.Runs(sys.argv[1], lambda: None, 3, lambda *_: None, begun), jobs)
"""
# Holds the file that it is told, writes two bytes to it, and waits.
LONG = f"""#!{sys.executable} -S
import fcntl, sys, time
file = open(sys.argv[1], "ab")
fcntl.flock(file, fcntl.LOCK_SH)
file.write(b"it")
file.flush()
time.sleep(60)
"""


def is_free(path: str) -> bool:
    """Tells whether no process holds a file."""
    with open(path, "rb") as file:
        try:
            fcntl.flock(file, fcntl.LOCK_EX | fcntl.LOCK_NB)
        except BlockingIOError:
            return False
    return True


class ManyTest(unittest.TestCase):
    def setUp(self) -> None:
        self.done: List[str] = []

    def end(self, job: Job, captured: Captured) -> None:
        """Notes an end; that of the one that says so ends all."""
        self.done.append(captured.text)
        if captured.text == "end\n":
            os.kill(os.getpid(), signal.SIGTERM)

    def test_all_are_made_and_a_signal_ends_all(self) -> None:
        text = "import sys, time\nprint(sys.argv[1], flush=True)\ntime.sleep(int(sys.argv[2]))\n"
        text = f"#!{sys.executable} -S\n{text}"
        with program(text) as path:
            runs = Runs(path, lambda: None, 2, self.end, lambda: None)
            self.assertEqual(explore._run(runs, [Job(it, [str(it), "0"]) for it in range(5)]), 0)
            self.assertEqual(sorted(self.done), [f"{it}\n" for it in range(5)])
            begun = time.monotonic()
            jobs = [Job(0, ["end", "0"]), Job(1, ["b", "60"]), Job(2, ["c", "60"])]
            self.assertEqual(explore._run(runs, jobs), signal.SIGTERM)
            self.assertLess(time.monotonic() - begun, 30)
        self.assertEqual(self.done[5:], ["end\n"])

    def test_no_run_outlives_the_launcher(self) -> None:
        for who in ("launcher", "both"):
            with program(LONG) as path, tempfile.NamedTemporaryFile() as noted:
                done = subprocess.run([sys.executable, "-c", KILLED, path, noted.name, who], timeout=60, check=False)
                self.assertEqual(done.returncode, -signal.SIGKILL)
                self.assertEqual(os.path.getsize(noted.name), 6)
                ended = time.monotonic() + 20
                while not is_free(noted.name) and time.monotonic() < ended:
                    time.sleep(0.02)
                self.assertTrue(is_free(noted.name), who)
