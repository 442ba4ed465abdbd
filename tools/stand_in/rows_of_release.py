"""Rows of tools/check-build: the release, its checks, and calls that run it."""

import os
import subprocess

from checkout import Checkout, put, text_of

MANIFEST = "release/MANIFEST"
PACKED = "release/caf-x86_64-linux.xz"


def commit(here: Checkout) -> None:
    """Commits the sources."""
    put(f"{here.home}/.gitignore", "out/\n")
    git = ["git", "-c", "user.name=a", "-c", "user.email=a@b"]
    for words in (["init", "-q"], ["add", "-A"], ["commit", "-qm", "one"]):
        subprocess.run([*git, *words], cwd=here.home, check=True)


def pack(here: Checkout) -> str:
    """Commits the sources, runs the gate, makes the release, takes away what was proved, and returns its text."""
    commit(here)
    here.call("tools/prove").has(0)
    here.call("tools/release").has(0)
    return text_of(f"{here.home}/crates/caf/out/caf")


def drop_proof(here: Checkout) -> None:
    """Takes away what was proved here."""
    subprocess.run(["rm", "-r", f"{here.home}/crates/caf/out"], check=True)


def quick_is_run(here: Checkout, *says: str) -> None:
    """Holds a call to run a program without proof, and to say why on standard error."""
    drop_proof(here)
    said = here.call("find").has(0, "building the program without proof", *says)
    assert said.out.startswith(f"{here.cache}/quick-"), said.out


def row_a_release_is_run_without_a_kit(here: Checkout) -> None:
    program = pack(here)
    drop_proof(here)
    said = here.call("find", has_kit=False).has(0)
    assert said.out.startswith(f"{here.cache}/released-") and said.err == "", said.err
    assert text_of(said.out.strip()) == program
    here.is_tidy()


def row_a_release_that_fits_passes_both_checks(here: Checkout) -> None:
    pack(here)
    for word in ("--check", "--compare"):
        said = here.call("tools/release", word).has(0)
        assert said.out + said.err == "", said.err
    here.call("tools/release", "--check", has_kit=False).has(0)


def row_a_release_of_other_sources(here: Checkout) -> None:
    pack(here)
    here.change()
    said = here.call("tools/release", "--check")
    said.has(1, "tools/release: release/ is of other sources than these, those of commit ")
    assert said.err.count("\n") == 1, said.err
    here.call("tools/release", "--compare").has(3, "of other sources")
    quick_is_run(here)


def row_a_damaged_file(here: Checkout) -> None:
    pack(here)
    with open(f"{here.home}/{PACKED}", "r+b") as it:
        it.seek(-9, os.SEEK_END)
        it.write(b"?")
    here.call("tools/release", "--check").has(1, "release/caf-x86_64-linux.xz isn't the file whose sum stands in")
    here.call("tools/release", "--compare").has(1)
    quick_is_run(here, "caf: release/caf-x86_64-linux.xz isn't the file whose sum stands in release/MANIFEST\n")


def row_a_wrong_sum_of_the_program(here: Checkout) -> None:
    pack(here)
    lines = text_of(f"{here.home}/{MANIFEST}").splitlines(True)
    changed = [f"program {'0' * 64}\n" if it.startswith("program ") else it for it in lines]
    put(f"{here.home}/{MANIFEST}", "".join(changed))
    here.call("tools/release", "--check").has(1, "isn't of the program whose sum stands in release/MANIFEST")
    quick_is_run(here, "isn't of the program whose sum")


def row_a_manifest_that_cant_be_read(here: Checkout) -> None:
    pack(here)
    put(f"{here.home}/{MANIFEST}", "sources none\n")
    here.call("tools/release", "--check").has(1, "release/MANIFEST hasn't the lines sources, kit, logic, commit")
    quick_is_run(here, "caf: release/MANIFEST hasn't the lines")


def row_a_program_of_other_bytes(here: Checkout) -> None:
    program = pack(here)
    put(f"{here.home}/crates/caf/out/caf", program + "# more\n", 0o755)
    here.call("tools/release", "--compare").has(1, "crates/caf/out/caf isn't the program that was proved")


def row_nothing_is_packed_without_the_gate(here: Checkout) -> None:
    commit(here)
    here.call("tools/release").has(1, "isn't there: tools/prove, or ./test --proofs, comes first")
    assert not os.path.exists(f"{here.home}/release")


def row_nothing_is_packed_of_other_sources(here: Checkout) -> None:
    pack(here)
    here.change()
    commit(here)
    here.call("tools/release").has(1, "crates/caf/out/caf was proved of other sources than these")


def row_nothing_is_packed_that_isnt_committed(here: Checkout) -> None:
    commit(here)
    here.change()
    here.call("tools/prove").has(0)
    here.call("tools/release").has(1, "crates/caf_run/src/lib.rt isn't as it was committed: commit the sources first")


def row_an_installed_tree_runs_its_release(here: Checkout) -> None:
    pack(here)
    for name in ("crates", "crates.txt"):
        os.rename(f"{here.home}/{name}", f"{here.steer}/{name}")
    said = here.call("find", has_kit=False).has(0)
    assert said.out.startswith(f"{here.cache}/released-"), said.out
    os.remove(f"{here.home}/{PACKED}")
    os.remove(said.out.strip())
    here.call("find").has(1, "caf: no program can be run: release/caf-x86_64-linux.xz can't be read: No such file")


def row_words_of_release(here: Checkout) -> None:
    here.call("tools/release", "--other").has(2, "tools/release --compare")
