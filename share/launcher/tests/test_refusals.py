"""What is said of refused places: the tokens, names and expressions of a source, and the case that they lead to."""

import os
import unittest
from typing import List

from blocks import open_blocks
from ends import Place
from explain import explain
from lexing import Spot, spot_of, statements_of
from look import Look, near
from names_in_file import names_of
from refusals import Said, chosen, refusal_said
from sentences import Sentences
from tables import read_tables, tables_path
from typed import Typer, What

HOME = os.path.dirname(os.path.dirname(os.path.dirname(os.path.dirname(os.path.abspath(__file__)))))
TABLES = read_tables(tables_path(HOME))


def said(number: str, line: int, column: int, source: str) -> Said:
    """Returns what is said of a place."""
    return refusal_said(number, Place(line, column, ""), source.split("\n"), TABLES)


def case_of(number: str, line: int, column: int, source: str) -> str:
    """Returns the case that is chosen for a place."""
    found = chosen(Look(number, line, column, source.split("\n"), TABLES))
    return found.case if found else "-"


def texts(source: str) -> List[List[str]]:
    """Returns the texts of the tokens of each statement."""
    return [[token.text for token in statement] for statement in statements_of(source.split("\n"))]


class LexingTest(unittest.TestCase):
    def test_statements(self) -> None:
        self.assertEqual(texts("A = 1; b = 2 ! c = 3\n\n! d\n"), [["a", "=", "1"], ["b", "=", "2"]])
        self.assertEqual(texts("a = 1 + & ! c\n\n ! d\n  & 2"), [["a", "=", "1", "+", "2"]])
        literals = [["print", "*", ",", "'It''s; ! so'", ",", '"x"'], ["end"]]
        self.assertEqual(texts("print *, 'It''s; ! &\n  &so', \"x\"\nend"), literals)
        self.assertEqual(texts("a = 'open\nb = 1"), [["a", "=", "'open"], ["b", "=", "1"]])
        self.assertEqual(texts(";;\n &\n"), [])

    def test_tokens(self) -> None:
        self.assertEqual(texts("a::b(1::2)"), [["a", "::", "b", "(", "1", ":", ":", "2", ")"]])
        wanted = ["a", "==", "b", ".and.", "1_8", "**", "2", "/=", "(/", "3", "/)"]
        self.assertEqual(texts("a.eq.b.and.1_8**2/=(/3/)"), [wanted])
        self.assertEqual(texts("a&&b % c"), [["a", "&", "&", "b", "%", "c"]])

    def test_places(self) -> None:
        statements = statements_of(["a = b; c = &", "  & d"])
        self.assertEqual([(it.line, it.column, it.length) for it in statements[1]], [(1, 8, 1), (1, 10, 1), (2, 5, 1)])
        self.assertEqual(spot_of(statements, 1, 5), Spot(0, 2))
        self.assertEqual(spot_of(statements, 1, 6), Spot(0, 3))
        self.assertEqual(spot_of(statements, 2, 6), Spot(1, 3))
        self.assertIsNone(spot_of(statements, 1, 2))
        self.assertIsNone(spot_of(statements, 7, 1))


class NamesTest(unittest.TestCase):
    SOURCE = """\
program main
use iso_fortran_env, only: int64, lock_type
integer (int64), parameter :: n = 5
integer, allocatable :: x(:)[:], z
type (lock_type) :: l[*]
call s(n)
contains
recursive subroutine s(a)
integer, intent (in out) :: a
if (a > 1) then
end if
end subroutine
integer (8) function f(x) result(y)
end function
end program"""

    def test_scopes(self) -> None:
        names = names_of(statements_of(self.SOURCE.split("\n")))
        self.assertEqual([scope.word for scope in names.scopes], ["program", "subroutine", "function"])
        self.assertEqual([(scope.first, scope.last) for scope in names.scopes[1:]], [(7, 12), (12, 14)])
        self.assertEqual(names.scope_at(9).word, "subroutine")
        self.assertEqual(names.scope_at(5).word, "program")
        self.assertEqual(names.scopes[2].result, "y")
        self.assertEqual(names.used(), ["int64", "lock_type"])

    def test_declarations(self) -> None:
        names = names_of(statements_of(self.SOURCE.split("\n")))
        top = names.scopes[0]
        x, l, n = (names.find(top, it) for it in ("x", "l", "n"))
        assert x and l and n
        self.assertEqual((x.type, x.rank(), x.corank(), x.has("allocatable")), ("integer", 1, 1, True))
        self.assertEqual((l.type, l.rank(), l.corank()), ("lock_type", 0, 1))
        self.assertEqual((n.kind, names.value(n.value, top)), (8, 5))
        dummy = names.find(names.scopes[1], "a")
        assert dummy
        self.assertEqual((dummy.has("inout"), dummy.has("in")), (True, False))
        result = names.find(names.scopes[2], "y")
        assert result
        self.assertEqual((result.type, result.kind), ("integer", 8))
        self.assertIsNone(names.find(top, "main"))

    def test_blocks(self) -> None:
        statements = statements_of("do\nif (a) then\nb: do\nend do\nendif\nend if\nselect case (1)".split("\n"))
        self.assertEqual([block.word for block in open_blocks(statements, 3)], ["do", "if", "do"])
        self.assertEqual([block.word for block in open_blocks(statements, 7)], ["do", "select"])


class TypedTest(unittest.TestCase):
    def test_types(self) -> None:
        declared = "integer :: i, a(3)[*]\ninteger (8) :: k\nlogical :: p\ntype (lock_type) :: l[*]\n"
        table = [
            ("i + k", What("integer", 8, 0)),
            ("a(1:2)[i]", What("integer", 4, 1)),
            ("a(i)", What("integer", 4, 0)),
            ("i == 1 .and. p", What("logical", 4, 0)),
            (".not. p", What("logical", 4, 0)),
            ("[1_8, 2_8]", What("integer", 8, 1)),
            ("(l[1])", What("lock_type", 4, 0)),
            ("max(i, k)", What("integer", 8, 0)),
            ("failed_images()", What("integer", 4, 1)),
            ("unknown", What()),
        ]
        for text, what in table:
            with self.subTest(text=text):
                names = names_of(statements_of(f"{declared}i = {text}".split("\n")))
                self.assertEqual(Typer(names, names.scopes[0], names.statements[-1]).at(2).what, what)


class RefusalsTest(unittest.TestCase):
    def test_cases(self) -> None:
        table = [
            ("20", 2, 5, "integer :: counter\na = conter\nend", "undeclared"),
            ("20", 2, 5, "integer :: i\ni = foo(1)\nend", "no-array-or-function"),
            ("20", 1, 10, "print *, sum(x)\nend", "left"),
            ("20", 1, 1, "sum = 0\nend", "undeclared"),
            ("20", 1, 7, "type (lock_type) :: l[*]\nend", "not-used"),
            ("20", 2, 7, "use iso_fortran_env, only: int64\ntype (lock_type) :: l[*]\nend", "not-in-only"),
            ("23", 2, 5, "integer :: a\na = 3000000000\nend", "literal"),
            ("23", 2, 6, "integer :: a\na = -2147483648\nend", "negative"),
            ("31", 2, 18, "logical :: p\nif (.true. .and. 1 == p) stop\nend", "-"),
            ("31", 2, 23, "logical :: p\nif (.true. .and. 1 == p) stop\nend", "relation"),
            ("5", 1, 11, "if (a > 3 && b) stop", "operator"),
            ("5", 1, 6, "a = 1.5", "real"),
            ("5", 1, 2, "a.b = 3", "component-by-dot"),
            ("8", 1, 1, "do\nsync all", "construct"),
            ("8", 1, 1, "do\nend do", "program"),
        ]
        for number, line, column, source, case in table:
            with self.subTest(source=source):
                self.assertEqual(case_of(number, line, column, source), case)

    def test_patterns(self) -> None:
        table = [
            (2, 7, "integer :: a\nif (a = 3) stop\nend", "equals"),
            (2, 8, "integer :: a\na = 3 +\nend", "operand-behind"),
            (1, 11, "integer n = 3\nend", "colons-value"),
            (2, 9, "sync all\ninteger :: a\nend", "declaration-late"),
            (3, 5, "do\nif (.true.) then\nend do\nend", "end-missing"),
            (1, 7, "synch all\nend", "misspelt"),
            (1, 11, "write (6, *) 1\nend", "write-unit"),
            (2, 15, "integer :: a(3), i\nprint *, (a(i), i = 1, 3)\nend", "implied-do"),
            (2, 12, "integer :: read\nread = 3 + * 4\nend", "operand-between"),
            (2, 3, "integer :: read\nread\nend", "-"),
            (1, 1, "! nothing", "empty"),
            (1, 3, "a * b\nend", "-"),
        ]
        for line, column, source, case in table:
            with self.subTest(source=source):
                self.assertEqual(case_of("7", line, column, source), case)

    def test_no_help_where_no_pattern_fits(self) -> None:
        got = said("7", 1, 3, "a * b\nend")
        self.assertEqual(got, Said("no statement that may stand here goes on with `*`", [], [], 1))

    def test_suggestions(self) -> None:
        self.assertEqual(near("couter", ["total", "counter"]), "counter")
        self.assertEqual(near("b", ["counter"]), "")
        got = said("20", 2, 1, "integer :: counter\nCouter = 1\nend")
        self.assertEqual(got, Said("`couter` isn't declared", ["did you mean `counter`?"], [], 6))
        got = said("20", 1, 1, "b = 1\nend")
        self.assertEqual(got.helps, ["declare it, as in `integer :: b`"])

    def test_notes(self) -> None:
        got = said("21", 2, 12, "integer :: a\nlogical :: a\nend")
        self.assertEqual(got.notes, [(1, 12, "`a` is declared here first")])
        got = said("7", 3, 5, "do\nif (.true.) then\nend do\nend")
        self.assertEqual(got.notes, [(2, 1, "IF begins here")])

    def test_explained(self) -> None:
        wanted = [
            "    case, refused at 1:15: EXIT leaves the CRITICAL construct of line 1",
            "        1 | do; critical; exit; end critical; end do; end",
            "          |               ^",
            "          help: let the construct come to its end",
            "",
        ]
        self.assertEqual((explain("42", TABLES, Sentences({})) or "").split("\n")[3:], wanted)

    def test_what_remains(self) -> None:
        # The place is no operand at all, so no case can be told.
        got = said("31", 1, 1, "end")
        self.assertEqual(got.text, "this value isn't of a type that is taken here")

    def test_places_out_of_the_source(self) -> None:
        for number in [str(it) for it in range(1, 60) if it < 10 or it > 19]:
            for line, column in ((1, 1), (1, 4), (2, 1), (9, 9)):
                with self.subTest(number=number, line=line, column=column):
                    for source in ("", "end", "a = 1", "'"):
                        got = said(number, line, column, source)
                        self.assertTrue(got.text and got.length >= 1)
                        self.assertNotIn("{name}", got.text)

    def test_every_number_at_many_tokens(self) -> None:
        source = NamesTest.SOURCE + """
integer :: v(2:n, *)[3:2, *] = [1, .true.], 3
if (x(1:) + .not. l[1] == 3 = 4) exit v
call s(a = 1, failed_images()) ; lock (l, stat = 1, stat = 2)
do i = 1 ; case (3:) ; end select ; write (6) 'a' // b ; print
allocate (x(3), y[*]) ; error stop 'x' ; a%b = 1.5 .and c ; integer*8 q
"""
        places = [(token.line, token.column) for it in statements_of(source.split("\n")) for token in it]
        ends = [it[-1].end() for it in statements_of(source.split("\n"))]
        for number in [str(it) for it in range(1, 60) if it < 10 or it > 19]:
            for line, column in (places + ends)[int(number) % 13 :: 13]:
                with self.subTest(number=number, line=line, column=column):
                    self.assertTrue(said(number, line, column, source).text)

    def test_lengths(self) -> None:
        self.assertEqual(said("20", 2, 5, "integer :: a\na = value\nend").length, 5)
        self.assertEqual(said("7", 1, 5, "a = 'x\nend").length, 2)
        self.assertEqual(said("7", 1, 4, "a =\nend").length, 1)

    def test_deep_expressions(self) -> None:
        source = "logical :: p\n" + "p = " + "(" * 60 + "1" + ")" * 60 + " + .true.\nend"
        self.assertEqual(case_of("31", 2, 4 + 60 + 1 + 60 + 4, source), "arithmetic")
        self.assertEqual(case_of("7", 1, 301, "a = " + "-" * 300 + "1\nend"), "sign")


if __name__ == "__main__":
    unittest.main()
