"""The man page and the completions of a small help text, against what was written by hand."""

import subprocess
import unittest
from typing import List

import completions
import manual
from tables import Entry, Kind, Tables

TEXT = """\
caf runs programs, and says what happened.

    caf run OPTIONS FILE    run FILE
    caf check FILE          say ok
    caf make SEED SIZE      write a source

    -n N             so many images; 4 where it isn't given
    --made SEED SIZE in the place of FILE
    --trace          the trace: a line a step
    FILE             a source

Numbers have no sign
and no leading zero.

    caf --try WORDS       the same, with nothing proved
    caf --prove           prove all
    caf --prove WORDS     prove all, and the same then
    caf --explain WORD    what a word means
    caf --help            this text

Examples:

    caf run -n 4 a.f90
    caf check .b.f90
"""

TABLES = Tables(
    [
        Entry(Kind.STATUS, "0", "Finished", "the run has finished"),
        Entry(Kind.STATUS, "5", "Race", ".f90 files with a back\\slash"),
        Entry(Kind.REFUSAL, "32", "Assignment", "-"),
        Entry(Kind.FAULT, "Overflow", "Overflow", "-"),
        Entry(Kind.LIMIT, "not a word", "not a word", "-"),
    ],
    {},
    {"real": "integers"},
    [],
    {},
)

PAGE = """\
.TH CAF 1 "" "caf 1.5"
.SH NAME
caf \\- runs programs, and says what happened
.SH SYNOPSIS
.nf
.B caf run OPTIONS FILE
.B caf check FILE
.B caf make SEED SIZE
.fi
.SH DESCRIPTION
.TP
.B caf run OPTIONS FILE
run FILE
.TP
.B caf check FILE
say ok
.TP
.B caf make SEED SIZE
write a source
.SH OPTIONS
.TP
.B \\-n N
so many images; 4 where it isn't given
.TP
.B \\-\\-made SEED SIZE
in the place of FILE
.TP
.B \\-\\-trace
the trace: a line a step
.TP
.B FILE
a source
.PP
Numbers have no sign and no leading zero.
.TP
.B caf \\-\\-try WORDS
the same, with nothing proved
.TP
.B caf \\-\\-prove
prove all
.TP
.B caf \\-\\-prove WORDS
prove all, and the same then
.TP
.B caf \\-\\-explain WORD
what a word means
.TP
.B caf \\-\\-help
this text
.SH EXAMPLES
.PP
.nf
    caf run \\-n 4 a.f90
    caf check .b.f90
.fi
.SH EXIT STATUS
.TP
.B 0 Finished
the run has finished
.TP
.B 5 Race
\\&.f90 files with a back\\eslash
"""


WORDS = completions.words_of(manual.help_of(TEXT), TABLES)


def offered(*words: str) -> List[str]:
    """Returns what bash offers for the last of these words."""
    made = completions.bash_completion(WORDS)
    typed = " ".join(completions.quoted(word) for word in ("caf", *words))
    ask = f"COMP_WORDS=({typed})\nCOMP_CWORD={len(words)}\n_caf\nprintf '%s\\n' \"${{COMPREPLY[@]}}\"\n"
    bash = ["bash", "--norc"]
    ended = subprocess.run(bash, input=made + ask, cwd="/", stdout=subprocess.PIPE, check=True, encoding="utf-8")
    return ended.stdout.split()


class ManPage(unittest.TestCase):
    """The man page says what the help text and the tables say."""

    def test_page(self) -> None:
        self.assertEqual(manual.man_page(manual.help_of(TEXT), TABLES, "1.5"), PAGE)

    def test_term_as_long_as_its_column(self) -> None:
        made = manual.help_of(TEXT).lists()[1][1]
        self.assertEqual(made, manual.Item("--made SEED SIZE", "in the place of FILE"))

    def test_line_without_a_second_column(self) -> None:
        self.assertEqual(manual.help_of("    caf check a.f90").lists(), [(manual.Item("caf check a.f90", ""),)])


class Completions(unittest.TestCase):
    """What is offered where."""

    def test_what_is_known(self) -> None:
        self.assertEqual(WORDS.known, ("0", "Finished", "5", "Race", "32", "Assignment", "Overflow", "real"))
        self.assertEqual(WORDS.ahead, ("--try", "--prove"))
        self.assertEqual((WORDS.taking(1), WORDS.taking(2)), (["-n", "--made"], ["--made"]))

    def test_first_word(self) -> None:
        self.assertEqual(offered(""), ["run", "check", "make", "--try", "--prove", "--explain", "--help"])
        self.assertEqual(offered("ch"), ["check"])
        self.assertEqual(offered("--try", "ru"), ["run"])
        self.assertEqual(offered("--prove", "run", "--m"), ["--made"])

    def test_options_and_what_stands_behind_them(self) -> None:
        self.assertEqual(offered("run", "-"), ["-n", "--made", "--trace"])
        self.assertEqual(offered("run", "--trace", "--m"), ["--made"])
        self.assertEqual(offered("run", "-n", ""), [])
        self.assertEqual(offered("run", "--made", "1", ""), [])
        self.assertEqual(offered("check", "-"), [])
        self.assertEqual(offered("judge", "-"), ["-n"])
        self.assertEqual(offered("replay", "-n", "4", "-"), ["-n", "--trace"])

    def test_files(self) -> None:
        self.assertIn("usr", offered("run", "-n", "4", "us"))
        self.assertIn("usr", offered("check", "us"))
        self.assertIn("usr", offered("judge", "-n", "4", "us"))
        self.assertIn("usr", offered("replay", "a.trace", "us"))
        self.assertEqual(offered("make", "us"), [])

    def test_entries(self) -> None:
        self.assertEqual(offered("--explain", "A"), ["Assignment"])
        self.assertEqual(offered("--explain", "re"), ["real"])

    def test_zsh(self) -> None:
        made = completions.zsh_completion(WORDS)
        self.assertTrue(made.startswith("#compdef caf\n"))
        self.assertIn(" options=('-n:so many images; 4 where it isn'\\''t given' '--made:in the place of FILE'", made)
        self.assertIn(" if [[ ${words[CURRENT - 1]} == (-n|--made) || ${words[CURRENT - 2]} == (--made) ]]", made)

    def test_fish(self) -> None:
        made = completions.fish_completion(WORDS).splitlines()
        first = "complete -c caf -n __fish_use_subcommand"
        run = "complete -c caf -n '__fish_seen_subcommand_from run show picture explore'"
        traced = "complete -c caf -n '__fish_seen_subcommand_from run show picture explore judge replay'"
        replayed = "complete -c caf -n '__fish_seen_subcommand_from run show picture explore replay'"
        self.assertIn(f"{first} -a check -d 'say ok'", made)
        self.assertIn(f"{first} -l try -d 'the same, with nothing proved'", made)
        self.assertIn(f"{first} -l prove -d 'prove all'", made)
        self.assertIn(f"{first} -l help -d 'this text'", made)
        self.assertIn(f"{traced} -s n -x -d 'so many images; 4 where it isn'\\''t given'", made)
        self.assertIn(f"{replayed} -l trace -d 'the trace: a line a step'", made)
        self.assertIn(f"{run} -l made -x -d 'in the place of FILE'", made)


if __name__ == "__main__":
    unittest.main()
