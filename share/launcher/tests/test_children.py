"""Processes that end with the one that began them."""

from __future__ import annotations

import os
import signal
import subprocess
import sys
import time
import unittest

import children

HERE = os.path.dirname(os.path.abspath(children.__file__))
PARENT = """import children, sys, time
begun = children.begin(["sleep", "60"], int(sys.argv[1]))
print(begun.pid, flush=True)
time.sleep(60)
"""


def is_running(number: int) -> bool:
    """Returns whether a process is there and hasn't ended."""
    try:
        with open(f"/proc/{number}/stat", encoding="ascii") as it:
            return it.read().rpartition(")")[2].split()[0] not in "ZX"
    except OSError:
        return False


class Ending(unittest.TestCase):
    def assert_ends(self, number: int) -> None:
        """Holds a process to end within ten seconds."""
        until = time.monotonic() + 10
        while is_running(number):
            self.assertLess(time.monotonic(), until, "it still runs")
            time.sleep(0.02)

    def test_a_child_ends_where_its_parent_is_killed(self) -> None:
        words = [sys.executable, "-Bc", PARENT, str(int(signal.SIGTERM))]
        with subprocess.Popen(words, cwd=HERE, stdout=subprocess.PIPE) as parent:
            number = int(parent.stdout.readline())
            self.assertTrue(is_running(number))
            parent.kill()
        self.assert_ends(number)

    def test_a_whole_group_is_ended(self) -> None:
        begun = children.begin(["sh", "-c", "sleep 60 & echo $!; wait"], stdout=subprocess.PIPE)
        number = int(begun.stdout.readline())
        children.end(begun)
        begun.stdout.close()
        self.assertEqual(begun.returncode, -signal.SIGKILL)
        self.assert_ends(number)

    def test_one_that_tidies_is_let_to(self) -> None:
        words = ["sh", "-c", "trap 'echo tidied; exit 3' TERM; echo on; while :; do sleep 0.05; done"]
        begun = children.begin(words, stdout=subprocess.PIPE)
        begun.stdout.readline()
        children.end(begun, signal.SIGTERM)
        self.assertEqual((begun.stdout.read(), begun.returncode), (b"tidied\n", 3))
        begun.stdout.close()


class Interrupting(unittest.TestCase):
    def test_a_signal_interrupts_and_what_was_set_is_set_again(self) -> None:
        earlier = signal.getsignal(signal.SIGTERM)
        with self.assertRaises(children.Interrupted) as raised, children.interruptible():
            os.kill(os.getpid(), signal.SIGTERM)
            time.sleep(5)
        self.assertEqual(raised.exception.number, signal.SIGTERM)
        self.assertIs(signal.getsignal(signal.SIGTERM), earlier)

    def test_one_that_is_ignored_stays_so(self) -> None:
        self.addCleanup(signal.signal, signal.SIGHUP, signal.signal(signal.SIGHUP, signal.SIG_IGN))
        with children.interruptible():
            os.kill(os.getpid(), signal.SIGHUP)


if __name__ == "__main__":
    unittest.main()
