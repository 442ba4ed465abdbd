"""The cache: which folder it is, locks, rooms, and what is kept."""

from __future__ import annotations

import fcntl
import os
import subprocess
import sys
import unittest

import cache
from trouble import NoProgram

from tests.checkouts import WithCheckout, put

HOLDER = """import sys, cache, time
with cache.alone(sys.argv[1], "key", print):
    print(flush=True)
    time.sleep(float(sys.argv[2]))
"""


class TheFolder(WithCheckout):
    def test_it_is_the_one_named(self) -> None:
        self.assertEqual(cache.folder(self.home), self.at)
        self.assertEqual(os.stat(self.at).st_mode & 0o777, 0o700)

    def test_one_that_others_may_write_to_is_refused(self) -> None:
        os.makedirs(self.at)
        os.chmod(self.at, 0o777)
        with self.assertRaisesRegex(NoProgram, f"no program can be kept in {self.at}, which CAF_CACHE names"):
            cache.folder(self.home)

    def test_without_a_name_it_is_the_users(self) -> None:
        del os.environ["CAF_CACHE"]
        self.addCleanup(self.restore, "XDG_CACHE_HOME", os.environ.get("XDG_CACHE_HOME"))
        os.environ["XDG_CACHE_HOME"] = f"{self.room}/user"
        self.assertEqual(cache.folder(self.home), f"{self.room}/user/caf")
        put(f"{self.room}/file", "")
        os.environ["XDG_CACHE_HOME"] = f"{self.room}/file"
        self.assertEqual(cache.folder(self.home), f"{self.home}/crates/caf/out/cache")


class Files(WithCheckout):
    def setUp(self) -> None:
        super().setUp()
        os.makedirs(self.at)

    def test_a_file_is_written_whole(self) -> None:
        cache.write(f"{self.at}/it", b"text", 0o755)
        self.assertEqual(os.listdir(self.at), ["it"])
        self.assertTrue(os.access(f"{self.at}/it", os.X_OK))

    def test_the_three_used_last_are_kept(self) -> None:
        for number in range(5):
            put(f"{self.at}/quick-{number}", "")
            os.utime(f"{self.at}/quick-{number}", (1000 + number, 1000 + number))
        put(f"{self.at}/released-0", "")
        cache.use(f"{self.at}/quick-1")
        cache.keep_newest(self.at, "quick-")
        self.assertEqual(sorted(os.listdir(self.at)), ["quick-1", "quick-3", "quick-4", "released-0"])

    def test_a_room_goes_at_the_end(self) -> None:
        with self.assertRaises(ValueError), cache.room(self.at) as room:
            put(f"{room}/part", "")
            raise ValueError
        self.assertEqual(os.listdir(self.at), [])

    def test_a_room_in_use_stays_and_one_that_was_left_goes(self) -> None:
        with cache.room(self.at) as room:
            left = f"{self.at}/{cache.ROOM}left"
            put(f"{left}/held", "")
            put(f"{self.at}/{cache.PART}left", "")
            os.utime(f"{self.at}/{cache.PART}left", (1000, 1000))
            with cache.room(self.at) as other:
                self.assertEqual(sorted(os.listdir(self.at)), sorted(map(os.path.basename, (room, other))))


class Locks(WithCheckout):
    def setUp(self) -> None:
        super().setUp()
        os.makedirs(self.at)

    def test_it_is_alone(self) -> None:
        with cache.alone(self.at, "key", self.fail):
            with open(f"{self.at}/lock-key", "w", encoding="ascii") as lock, self.assertRaises(BlockingIOError):
                fcntl.flock(lock, fcntl.LOCK_EX | fcntl.LOCK_NB)
        self.assertEqual(os.listdir(self.at), [])

    def begin_holder(self, seconds: float) -> subprocess.Popen[bytes]:
        """Begins a process that holds the lock for so long, and returns once it does."""
        begun = subprocess.Popen(
            [sys.executable, "-Bc", HOLDER, self.at, str(seconds)],
            stdout=subprocess.PIPE,
            cwd=os.path.dirname(cache.__file__),
        )
        self.addCleanup(begun.stdout.close)
        self.addCleanup(begun.wait)
        begun.stdout.readline()
        return begun

    def test_it_waits_for_another_process(self) -> None:
        self.begin_holder(0.5)
        waited: list[float] = []
        with cache.alone(self.at, "key", waited.append):
            self.assertTrue(waited)

    def test_a_killed_process_holds_nothing(self) -> None:
        begun = self.begin_holder(60)
        begun.kill()
        begun.wait()
        entered = []
        with cache.alone(self.at, "key", self.fail):
            entered.append(True)
        self.assertTrue(entered)


if __name__ == "__main__":
    unittest.main()
