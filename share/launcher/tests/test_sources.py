"""The sum of the sources: what has a part in it, and that a change is always seen."""

from __future__ import annotations

import hashlib
import os
import shutil
import time
import unittest
from unittest import mock

import sources
from trouble import NoProgram

from tests.checkouts import FILES, WithCheckout, make_checkout, put

UNDER = sorted(name for name in FILES if "/" in name and "base_tests" not in name)
# The lines of crates.txt of the crates under the program.
LINES = "caf_base: smallvec\ncaf_run may_wait=1: caf_base\ncaf: caf_base caf_run\n"


def expected(files: dict[str, str], lines: str = LINES) -> str:
    """The sum as its description says: each file's name, its size and what is in it; first crates.txt, with these
    lines."""
    whole = hashlib.sha256()
    for name in ["crates.txt", *UNDER]:
        text = (lines if name == "crates.txt" else files[name]).encode()
        whole.update(f"{name}\0{len(text)}\0".encode() + text)
    return whole.hexdigest()


class TheSum(WithCheckout):
    def test_it_is_of_the_files_under_the_program(self) -> None:
        self.assertEqual(sources.sum_of_sources(self.home), expected(FILES))

    def test_each_file_has_a_part_in_it(self) -> None:
        for name in UNDER:
            put(f"{self.home}/{name}", FILES[name] + "# more\n")
            self.assertEqual(sources.sum_of_sources(self.home), expected({**FILES, name: FILES[name] + "# more\n"}))
            put(f"{self.home}/{name}", FILES[name])
        self.assertEqual(sources.sum_of_sources(self.home), expected(FILES))

    def test_so_has_each_line_of_the_list(self) -> None:
        for line in LINES.splitlines():
            put(f"{self.home}/crates.txt", FILES["crates.txt"].replace(line, f"{line} itoa", 1))
            changed = LINES.replace(line, f"{line} itoa", 1)
            self.assertEqual(sources.sum_of_sources(self.home), expected(FILES, changed))

    def test_lines_of_crates_beside_have_none(self) -> None:
        put(f"{self.home}/crates.txt", "# other\n" + FILES["crates.txt"].replace("base_tests:", "more_tests:"))
        self.assertEqual(sources.sum_of_sources(self.home), expected(FILES))

    def test_files_beside_have_none(self) -> None:
        for name in ("README.md", "crates/caf/args", "crates/caf_base/must-fail/a.edit", "crates/base_tests/src/b.rt"):
            put(f"{self.home}/{name}", "other")
        self.assertEqual(sources.sum_of_sources(self.home), expected(FILES))

    def test_the_place_and_the_times_have_none(self) -> None:
        make_checkout(f"{self.room}/elsewhere")
        os.utime(f"{self.room}/elsewhere/crates/caf/src/main.rt", (1, 1))
        self.assertEqual(sources.sum_of_sources(f"{self.room}/elsewhere"), expected(FILES))

    def test_a_new_file_and_a_removed_one_are_seen(self) -> None:
        put(f"{self.home}/crates/caf_run/src/new.rt", "")
        self.assertNotEqual(sources.sum_of_sources(self.home), expected(FILES))
        os.remove(f"{self.home}/crates/caf_run/src/new.rt")
        os.remove(f"{self.home}/crates/caf_base/specs/Base.antt")
        self.assertNotEqual(sources.sum_of_sources(self.home), expected(FILES))

    def test_text_moved_from_one_file_to_the_next_is_seen(self) -> None:
        first, second = UNDER[0], UNDER[1]
        put(f"{self.home}/{first}", FILES[first] + FILES[second])
        put(f"{self.home}/{second}", "")
        self.assertNotEqual(sources.sum_of_sources(self.home), expected(FILES))

    def test_a_link_is_refused(self) -> None:
        os.symlink("main.rt", f"{self.home}/crates/caf/src/other.rt")
        with self.assertRaisesRegex(NoProgram, "crates/caf/src/other.rt is no plain file"):
            sources.sum_of_sources(self.home)

    def test_a_crate_that_is_lacking_is_told(self) -> None:
        shutil.rmtree(f"{self.home}/crates/caf_run")
        with self.assertRaisesRegex(NoProgram, "crates/caf_run/src"):
            sources.sum_of_sources(self.home)


class WhatIsKept(WithCheckout):
    def later(self) -> mock._patch:
        """Has the clock be some time on, when no source was just written."""
        return mock.patch("time.time_ns", return_value=time.time_ns() + 10 * sources.SETTLED)

    def kept(self) -> bool:
        return os.path.exists(f"{self.home}/crates/caf/out/sources.seen")

    def test_nothing_is_kept_of_files_just_written(self) -> None:
        sources.sum_of_sources(self.home)
        self.assertFalse(self.kept())

    def test_later_calls_read_no_source(self) -> None:
        with self.later():
            sources.sum_of_sources(self.home)
        self.assertTrue(self.kept())
        with mock.patch("sources.read_sum", side_effect=AssertionError):
            self.assertEqual(sources.sum_of_sources(self.home), expected(FILES))

    def test_a_change_of_the_same_size_and_time_is_seen(self) -> None:
        path = f"{self.home}/{UNDER[0]}"
        with self.later():
            sources.sum_of_sources(self.home)
        times = os.stat(path)
        put(path, FILES[UNDER[0]].swapcase())
        os.utime(path, ns=(times.st_atime_ns, times.st_mtime_ns))
        self.assertEqual(os.stat(path).st_mtime_ns, times.st_mtime_ns)
        changed = {**FILES, UNDER[0]: FILES[UNDER[0]].swapcase()}
        self.assertEqual(sources.sum_of_sources(self.home), expected(changed))

    def test_a_list_that_was_changed_is_seen(self) -> None:
        with self.later():
            sources.sum_of_sources(self.home)
        put(f"{self.home}/crates.txt", FILES["crates.txt"].replace("smallvec", "itoa"))
        self.assertEqual(sources.sum_of_sources(self.home), expected(FILES, LINES.replace("smallvec", "itoa")))

    def test_a_checkout_that_cant_be_written_keeps_it_in_the_cache(self) -> None:
        with self.later(), mock.patch("os.makedirs", side_effect=self.refuse_out(os.makedirs)):
            sources.sum_of_sources(self.home)
        self.assertFalse(self.kept())
        with mock.patch("sources.read_sum", side_effect=AssertionError):
            self.assertEqual(sources.sum_of_sources(self.home), expected(FILES))

    def refuse_out(self, make):
        """Has no folder be made in the checkout."""

        def refusing(path: str, *rest: object, **named: object) -> None:
            if path.startswith(self.home):
                raise PermissionError(13, "Permission denied", path)
            make(path, *rest, **named)

        return refusing

    def test_what_is_damaged_counts_for_nothing(self) -> None:
        put(f"{self.home}/crates/caf/out/sources.seen", "not two words of this")
        self.assertEqual(sources.sum_of_sources(self.home), expected(FILES))


if __name__ == "__main__":
    unittest.main()
