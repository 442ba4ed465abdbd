"""Parts of messages: excerpts, tables, what is explained, why words are wrong, and files that are given."""

import os
import tempfile
import unittest
from typing import List, Optional

from ending import Caller
from excerpts import excerpt
from explain import explain
from given_file import MOST_BYTES, Asked, CannotRead, GivenFile, take_file
from sentences import Sentences, read_sentences
from tables import Kind, read_tables, tables_path
from texts import lower
from usage import read_help, usage_message

HOME = os.path.dirname(os.path.dirname(os.path.dirname(os.path.dirname(os.path.abspath(__file__)))))
PAGE = """# A page

| status | name | text | when |
|---|---|---|---|
| 9 | NotRead | - | not in a section |

## Statuses

| status | name | text on standard output | when |
|---|---|---|---|
| 0 | Finished | `ok` | it has `finished` |

Words below a table.

## What to do

| status | what to do |
|---|---|
| 0 | be glad |

## Refusals

| number | name | meaning | standard | example | place |
|---|---|---|---|---|---|
| 1 | NotAscii | a byte | 6.1 | `a = b` | 1:5 |
| 2 | TooLong | a line | a limit | a long line | 1:99 |
| 3 | NoProgram | nothing | 6.2 | - | - |

## What of Fortran isn't read

| words | instead |
|---|---|
| real double | `integers` do |
"""


BEHIND_SIZE = "nothing stands behind SIZE"


class TablesTest(unittest.TestCase):
    def setUp(self) -> None:
        with tempfile.TemporaryDirectory() as work:
            with open(f"{work}/page", "w", encoding="utf-8") as file:
                file.write(PAGE)
            self.tables = read_tables(f"{work}/page")

    def test_rows(self) -> None:
        found = [(it.kind, it.key) for it in self.tables.entries]
        self.assertEqual(found, [(Kind.STATUS, "0"), (Kind.REFUSAL, "1"), (Kind.REFUSAL, "2"), (Kind.REFUSAL, "3")])
        self.assertEqual(self.tables.meaning(Kind.STATUS, "0"), "it has finished")
        self.assertEqual(self.tables.name(Kind.REFUSAL, "9"), "")
        self.assertEqual(self.tables.left, {"real": "integers do", "double": "integers do"})

    def explained(self, word: str) -> Optional[str]:
        """Returns what is said of a word of the page, which has no sentences."""
        return explain(word, self.tables, Sentences({}))

    def test_explained(self) -> None:
        told = ["status 0 Finished", "    it has finished", "    standard output: ok", "    what to do: be glad", ""]
        self.assertEqual(self.explained("FINISHED"), "\n".join(told))
        told = ["refusal 1 NotAscii", "    a byte", "    ISO/IEC 1539-1:2018, 6.1", "    example, refused at 1:5:"]
        told += ["        1 | a = b", "          |     ^", ""]
        self.assertEqual(self.explained("1"), "\n".join(told))
        told = ["refusal 2 TooLong", "    a line", "    a limit", "    example: a long line, refused at 1:99", ""]
        self.assertEqual(self.explained("toolong"), "\n".join(told))
        self.assertEqual(self.explained("3"), "refusal 3 NoProgram\n    nothing\n    ISO/IEC 1539-1:2018, 6.2\n")
        self.assertEqual(self.explained("Double"), "in the place of DOUBLE\n    integers do\n")
        self.assertIsNone(self.explained("4"))
        self.assertIsNone(self.explained(""))

    def test_a_word_of_more_than_one_entry(self) -> None:
        told = explain("5", read_tables(tables_path(HOME)), read_sentences(HOME)) or ""
        heads = [part.split("\n")[0] for part in told.split("\n\n")]
        self.assertEqual(heads, ["status 5 Race", "refusal 5 BadCharacter"])

    def told_of(self, word: str, role: str) -> List[str]:
        """Returns the sentences of a role that are said of a word."""
        told = explain(word, read_tables(tables_path(HOME)), read_sentences(HOME)) or ""
        front = f"    {role}: "
        return [line[len(front) :] for line in told.split("\n") if line.startswith(front)]

    def test_sentences_of_an_entry(self) -> None:
        own = "image {image} executed ERROR STOP"
        stat = "STAT= would take the status, and the image would go on"
        waits = "image {image} waits for the CRITICAL construct, {holders}"
        limit = "the stamps of the steps of image {image} have come to {count}, the last one"
        table = [
            ("ErrorStop", "case", [f"{own}, with the code {{code}}", own]),
            ("ErrorStop", "help", []),
            ("6004", "help", [stat]),
            ("enter", "case", [waits]),
            ("wait", "note", ["image {image} posted it last here"]),
            ("stamp", "case", [limit]),
            ("stamp", "help", ["no option allows more"]),
            ("RunFault", "case", ["a run fault of image {image}"]),
        ]
        for word, role, wanted in table:
            with self.subTest(word=word, role=role):
                self.assertEqual(self.told_of(word, role), wanted)
        self.assertEqual(len(self.told_of("Race", "help")), 2)
        self.assertEqual(len(self.told_of("CoBounds", "case")), len(set(self.told_of("CoBounds", "case"))))

    def test_each_sentence_is_explained(self) -> None:
        tables, sentences = read_tables(tables_path(HOME)), read_sentences(HOME)
        found = {said.words for entry in tables.entries for said in sentences.of_entry(entry)}
        missing = [case for case, said in sentences.rows.items() if not any(it.endswith(said) for it in found)]
        of_no_entry = [case for case in sentences.rows if case[0] in ("ThisOrder", "Workers")]
        self.assertEqual(missing, of_no_entry)


class ExcerptTest(unittest.TestCase):
    def test_carets(self) -> None:
        self.assertEqual(excerpt("    1", "a = b", 5), ["    1 | a = b", "      |     ^"])
        self.assertEqual(excerpt("  ", "\ta", 2)[1], "   | \t^")
        self.assertEqual(excerpt("  ", "ab", 9)[1], "   |   ^")
        self.assertEqual(excerpt("  ", "", 0)[1], "   | ^")

    def test_a_long_line(self) -> None:
        self.assertEqual(excerpt("", "x" * 92, 80)[0], " | " + "x" * 92)
        self.assertEqual(excerpt("", "x" * 93, 1), [" | " + "x" * 90 + "..", " | ^"])
        self.assertEqual(excerpt("", "x" * 93, 93), [" | .." + "x" * 90, " | " + " " * 91 + "^"])
        self.assertEqual(excerpt("", "x" * 200, 100), [" | .." + "x" * 88 + "..", " | " + " " * 46 + "^"])

    def test_lengths(self) -> None:
        self.assertEqual(excerpt("", "a = b1 + c", 5, 2)[1], " |     ^~")
        self.assertEqual(excerpt("", "\xc3\xa9 b", 1, 2)[1], " | ^")
        self.assertEqual(excerpt("", "a", 1, 9)[1], " | ^")

    def test_small_letters(self) -> None:
        self.assertEqual(lower("AZ\xc4[\x9d"), "az\xc4[\x9d")


class UsageTest(unittest.TestCase):
    def told(self, words: str, number: int) -> str:
        """Returns the first line that is said of wrong words."""
        return usage_message(Caller(HOME, "caf"), words.split(), number).split("\n")[0]

    def test_reasons(self) -> None:
        table = [
            ("", 1, "word 1 is missing: the command is run or judge or replay or check or make or show or picture or"),
            ("run -n", 3, "word 3 is missing: it has to be the N of -n, 1 to 256"),
            ("run --made 1 4 5", 5, f"word 5 is wrong, 5: {BEHIND_SIZE}"),
            ("run --made 1", 4, "word 4 is missing: it has to be the SIZE of --made, 1 to 4096"),
            ("make 1 4 5", 4, "word 4 is wrong, 5: nothing stands behind SIZE"),
            ("make x 4", 2, "word 2 is wrong, x: it has to be the SEED of make, 0 to 2147483647"),
            ("run --trace --trace", 3, "word 3 is wrong, --trace: --trace stands twice"),
            ("run --fail 3", 3, "word 3 is wrong, 3: it has to be the I@K of --fail, I 1 to 256 and K 1 to 1000000"),
            ("run a b", 3, "word 3 is wrong, b: there is a FILE before it"),
            ("run a -n", 3, "word 3 is wrong, -n: no value stands behind it"),
            ("run a --step", 3, "word 3 is wrong, --step: there is no such option"),
            ("run a -", 3, "word 3 is wrong, -: there is a FILE before it"),
            ("judge", 2, "word 2 is missing: it has to be TRACE"),
            ("judge t", 3, "word 3 is missing: it has to be FILE"),
            ("judge t a b", 4, "word 4 is wrong, b: there is a FILE before it"),
            ("judge -n 2 t", 5, "word 5 is missing: it has to be FILE"),
            ("judge -w 2 t a", 2, "word 2 is wrong, -w: there is no such option of judge"),
            ("judge --trace t a", 2, "word 2 is wrong, --trace: there is no such option of judge"),
            ("judge -n 2 -n", 4, "word 4 is wrong, -n: -n stands twice"),
            ("judge t -n", 3, "word 3 is wrong, -n: no value stands behind it"),
            ("judge - -", 3, "word 3 is wrong, -: standard input is read once"),
            ("replay --order 0 t a", 2, "word 2 is wrong, --order: there is no such option of replay"),
            ("replay --steps t a", 3, "word 3 is wrong, t: it has to be the N of --steps, 1 to 100000000"),
        ]
        for words, number, wanted in table:
            with self.subTest(words=words):
                self.assertEqual(self.told(words, number), f"caf: {wanted}")
        got = usage_message(Caller(HOME, "caf"), ["check", ""], 2).split("\n")[0]
        self.assertEqual(got, "caf: word 2 is wrong, '': FILE is empty")
        got = usage_message(Caller(HOME, "caf"), ["judge", ""], 2).split("\n")[0]
        self.assertEqual(got, "caf: word 2 is wrong, '': TRACE is empty")
        got = usage_message(Caller(HOME, "caf"), ["judge", "t", ""], 3).split("\n")[0]
        self.assertEqual(got, "caf: word 3 is wrong, '': FILE is empty")

    def test_the_help_text(self) -> None:
        lines = ["    caf go A B   goes", "    -x N   x; not beside -y", "    FILE  f", "Standard output", "    -z   z"]
        told = read_help("\n".join(lines))
        self.assertEqual(told.commands["go"].values, ["A", "B"])
        self.assertEqual((told.options["-x"].values, told.options["-x"].rival), (["N"], "-y"))
        self.assertEqual(list(told.options), ["-x"])


class GivenFileTest(unittest.TestCase):
    def test_what_is_kept(self) -> None:
        with tempfile.TemporaryDirectory() as work:
            os.mkfifo(f"{work}/pipe")
            self.assertRaises(CannotRead, take_file, work)
            self.assertRaises(CannotRead, take_file, f"{work}/absent")
            self.assertRaises(CannotRead, take_file, "a\0b")
            with open(f"{work}/a.f90", "wb") as file:
                file.write(b"end \xff\n")
            given = take_file(f"{work}/a.f90")
            self.assertEqual((given.kept, given.word, given.source()), (None, f"{work}/a.f90", "end \xff\n"))
        given = take_file("/dev/zero")
        self.assertEqual((given.word, given.shown_name), ("/dev/stdin", "/dev/zero"))
        self.assertEqual(len(given.kept or b""), MOST_BYTES)

    def test_the_standard_input_of_the_program(self) -> None:
        asked = Asked(["check", "-"], 1, GivenFile("/dev/stdin", "<stdin>", b"end\n"))
        self.assertEqual(asked.words_for_program(), ["check", "/dev/stdin"])
        number = asked.standard_input()
        assert number is not None
        self.assertEqual(os.read(number, 100), b"end\n")
        os.close(number)
        self.assertIsNone(Asked(["check", "a"], 1, GivenFile("a", "a")).standard_input())

    def test_a_trace_and_a_source_that_are_both_kept(self) -> None:
        trace = GivenFile("/dev/stdin", "<stdin>", b"1 1 1 own memory > ok\n")
        file = GivenFile("/dev/stdin", "/dev/fd/63", b"end\n").by_another_name()
        asked = Asked(["judge", "-", "/dev/fd/63"], 2, file, 1, trace)
        _, first, second = asked.words_for_program()
        self.assertEqual((first, asked.source()), ("/dev/stdin", "end\n"))
        with open(second, "rb") as opened:
            self.assertEqual(opened.read(), b"end\n")
        number = asked.standard_input()
        assert number is not None
        self.assertEqual(os.read(number, 100), trace.kept)
        os.close(number)
        os.close(int(second.rpartition("/")[2]))

    def test_which_file_is_told(self) -> None:
        with tempfile.TemporaryDirectory() as work:
            long, short = f"{work}/a.trace", f"{work}/a.f90"
            for path, size in ((long, 67108865), (short, 1048577)):
                with open(path, "wb") as made:
                    made.truncate(size)
            trace, file = GivenFile(long, "t"), GivenFile(short, "a")
            self.assertEqual(Asked(["judge"], 2, file, 1, trace).too_long(), ("t", 67108864))
            os.truncate(long, 67108864)
            self.assertEqual(Asked(["judge"], 2, file, 1, trace).too_long(), ("a", 1048576))
            self.assertEqual(Asked(["judge"], 2, file, 1, trace).unread(), file)
            os.remove(long)
            self.assertEqual(Asked(["judge"], 2, file, 1, trace).unread(), trace)


if __name__ == "__main__":
    unittest.main()
