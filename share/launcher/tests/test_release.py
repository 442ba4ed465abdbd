"""The release: its manifest, what is damaged, unpacking, packing, and comparing."""

from __future__ import annotations

import os
import subprocess
import unittest
from unittest import mock

import packing
import programs
import proof
import release
import sources
from trouble import NoProgram

from tests.checkouts import WithCheckout, put

PROGRAM = "#!/bin/sh\necho released\n# GLIBC_2.2.5 GLIBC_2.14 GLIBC_2.4\n" + "# filled up\n" * 1000
KIT = "rattle-kit-13f logic dac8208d650f15bf"


class WithProof(WithCheckout):
    """A checkout under git whose program was proved of its sources."""

    def setUp(self) -> None:
        super().setUp()
        for words in (["init", "-q"], ["add", "crates", "crates.txt"], ["commit", "-qm", "one"]):
            self.git(*words)
        put(f"{self.home}/.git/info/exclude", "out/\n")
        put(f"{self.home}/{proof.PROGRAM}", PROGRAM)
        os.chmod(f"{self.home}/{proof.PROGRAM}", 0o755)
        proof.note_proof(self.home, sources.sum_of_sources(self.home), KIT)

    def git(self, *words: str) -> str:
        """Runs git in the checkout."""
        named = ["-c", "user.name=a", "-c", "user.email=a@b"]
        ran = subprocess.run(["git", *named, *words], cwd=self.home, check=True, stdout=subprocess.PIPE)
        return ran.stdout.decode().strip()

    def damage(self, name: str, old: bytes, new: bytes) -> None:
        """Replaces some bytes of a file of the release."""
        text = release.read(f"{self.home}/release/{name}")
        self.assertIn(old, text)
        with open(f"{self.home}/release/{name}", "wb") as it:
            it.write(text.replace(old, new, 1))


class Packing(WithProof):
    def test_the_manifest_says_what_was_packed(self) -> None:
        made = packing.pack(self.home)
        self.assertEqual(made.sources, sources.sum_of_sources(self.home))
        self.assertEqual((made.kit, made.logic), ("rattle-kit-13f", "dac8208d650f15bf"))
        self.assertEqual(made.commit, self.git("rev-parse", "HEAD"))
        self.assertEqual(made.glibc, "2.14")
        self.assertEqual(made.program, release.sum_of(PROGRAM.encode()))
        self.assertEqual(release.manifest_of(self.home), made)
        self.assertEqual(release.program_bytes(self.home, made), PROGRAM.encode())
        self.assertEqual(packing.check(self.home), made)
        packing.compare(self.home)

    def test_the_same_program_gives_the_same_file(self) -> None:
        first, again = (packing.packed(PROGRAM.encode()) for _ in range(2))
        self.assertEqual(first, again)

    def test_a_program_that_wasnt_proved_is_refused(self) -> None:
        os.remove(f"{self.home}/{proof.STAMP}")
        with self.assertRaisesRegex(packing.Refused, "crates/caf/out/caf.proved isn't there"):
            packing.pack(self.home)

    def test_another_program_than_the_proved_one_is_refused(self) -> None:
        put(f"{self.home}/{proof.PROGRAM}", PROGRAM + "# more\n")
        with self.assertRaisesRegex(packing.Refused, "isn't the program that was proved"):
            packing.pack(self.home)

    def test_a_proof_of_other_sources_is_refused(self) -> None:
        put(f"{self.home}/crates/caf_run/src/lib.rt", "pub fn other() {}\n")
        self.git("commit", "-qam", "two")
        with self.assertRaisesRegex(packing.Refused, "was proved of other sources than these"):
            packing.pack(self.home)

    def test_sources_that_arent_committed_are_refused(self) -> None:
        put(f"{self.home}/crates/caf_run/src/new.rt", "pub fn other() {}\n")
        proof.note_proof(self.home, sources.sum_of_sources(self.home), KIT)
        with self.assertRaisesRegex(packing.Refused, "crates/caf_run/src/new.rt isn't as it was committed"):
            packing.pack(self.home)

    def test_other_files_may_be_changed(self) -> None:
        put(f"{self.home}/crates/caf_run/must-fail/new.edit", "")
        put(f"{self.home}/README.md", "")
        packing.pack(self.home)


class Looking(WithProof):
    def setUp(self) -> None:
        super().setUp()
        self.made = packing.pack(self.home)

    def assert_damaged(self, why: str) -> None:
        """Holds the release to be damaged, and a call to run another program."""
        with self.assertRaisesRegex(release.Damaged, why):
            packing.check(self.home)
        os.remove(f"{self.home}/{proof.STAMP}")
        with mock.patch("quick.program_of", return_value="/quick"), mock.patch("programs.say"):
            self.assertEqual(programs.find_program(self.home).kind, programs.Kind.UNPROVED)

    def test_a_release_of_other_sources(self) -> None:
        put(f"{self.home}/crates/caf_run/src/lib.rt", "pub fn other() {}\n")
        self.assert_damaged("release/ is of other sources than these, those of commit " + self.made.commit[:12])

    def test_a_packed_file_that_was_changed(self) -> None:
        self.damage(release.PACKED, b"7zXZ", b"7zXz")
        self.assert_damaged("release/caf-x86_64-linux.xz isn't the file")

    def test_a_packed_file_that_is_lacking(self) -> None:
        os.remove(f"{self.home}/release/{release.PACKED}")
        self.assert_damaged("release/caf-x86_64-linux.xz can't be read: No such file")

    def test_another_sum_of_the_program(self) -> None:
        self.damage(release.MANIFEST, f"program {self.made.program}".encode(), b"program " + b"0" * 64)
        self.assert_damaged("isn't of the program whose sum")

    def test_another_size_of_the_program(self) -> None:
        size = self.made.program_bytes
        self.damage(release.MANIFEST, f"program_bytes {size}".encode(), f"program_bytes {size - 1}".encode())
        self.assert_damaged("isn't of the program whose sum")

    def test_a_line_that_cant_be_read(self) -> None:
        self.damage(release.MANIFEST, f"commit {self.made.commit}".encode(), b"commit none")
        self.assert_damaged("the line commit of release/MANIFEST can't be read")

    def test_a_line_that_is_lacking(self) -> None:
        self.damage(release.MANIFEST, b"kit rattle-kit-13f\n", b"")
        self.assert_damaged("release/MANIFEST hasn't the lines sources, kit")

    def test_no_release(self) -> None:
        os.remove(f"{self.home}/release/{release.MANIFEST}")
        self.assert_damaged("there is no release/MANIFEST")

    def test_a_program_of_other_bytes(self) -> None:
        put(f"{self.home}/{proof.PROGRAM}", PROGRAM.replace("released", "reLeased"))
        proof.note_proof(self.home, sources.sum_of_sources(self.home), KIT)
        place = PROGRAM.index("leased")
        with self.assertRaisesRegex(release.Damaged, f"differ from byte {place} on"):
            packing.compare(self.home)

    def test_a_program_that_is_longer(self) -> None:
        put(f"{self.home}/{proof.PROGRAM}", PROGRAM + "\n")
        proof.note_proof(self.home, sources.sum_of_sources(self.home), KIT)
        with self.assertRaisesRegex(release.Damaged, f"differ from byte {len(PROGRAM)} on"):
            packing.compare(self.home)


class Running(WithProof):
    def setUp(self) -> None:
        super().setUp()
        self.made = packing.pack(self.home)
        self.path = f"{self.at}/released-{self.made.program}"

    def test_it_is_unpacked_once(self) -> None:
        found = programs.find_program(self.home)
        self.assertEqual(found, programs.Program(self.path, programs.Kind.RELEASED))
        self.assertEqual(release.read(self.path), PROGRAM.encode())
        with mock.patch("release.program_bytes", side_effect=AssertionError):
            self.assertEqual(programs.find_program(self.home), found)
        self.assertEqual(programs.closing_words(found), "")

    def test_what_is_damaged_in_the_cache_is_unpacked_anew(self) -> None:
        programs.find_program(self.home)
        put(self.path, "half of it")
        programs.find_program(self.home)
        self.assertEqual(release.read(self.path), PROGRAM.encode())
        self.assertTrue(os.access(self.path, os.X_OK))

    def test_without_sources_the_manifest_decides(self) -> None:
        os.rename(f"{self.home}/release", f"{self.room}/release")
        self.assertEqual(programs.find_program(self.room).path, self.path)

    def test_without_sources_a_damaged_one_is_told(self) -> None:
        os.rename(f"{self.home}/release", f"{self.room}/release")
        os.remove(f"{self.room}/release/{release.PACKED}")
        with self.assertRaisesRegex(NoProgram, "no program can be run: release/caf-x86_64-linux.xz can't be read"):
            programs.find_program(self.room)

    def test_one_that_is_unpacked_beside_needs_no_cache(self) -> None:
        put(f"{self.home}/release/{release.UNPACKED}", PROGRAM)
        os.chmod(f"{self.home}/release/{release.UNPACKED}", 0o755)
        self.assertEqual(programs.find_program(self.home).path, f"{self.home}/release/{release.UNPACKED}")
        self.assertFalse(os.path.exists(self.path))

    def test_another_machine_takes_the_next_one(self) -> None:
        with mock.patch("sys.platform", "darwin"):
            self.assertEqual(programs.find_program(self.home).kind, programs.Kind.PROVED)

    def test_an_older_c_library_is_told(self) -> None:
        os.remove(f"{self.home}/{proof.STAMP}")
        for told, runs in (("glibc 2.13", False), ("glibc 2.9", False), ("glibc 2.14", True), ("", False)):
            with mock.patch("os.confstr", return_value=told), mock.patch("quick.program_of", return_value="/quick"):
                found = programs.find_program(self.home)
            self.assertEqual(found.why, "" if runs else "the release needs glibc 2.14 or a later one", told)
            self.assertEqual(found.kind is programs.Kind.RELEASED, runs)


if __name__ == "__main__":
    unittest.main()
