"""What messages read of a source: statements, declarations, and the values of expressions."""

import unittest
from typing import Optional

from source_text import Source, references
from values import Where, bounds_of, spell_bounds, subscripts_at, value_of

TEXT = """\
integer, parameter :: n = 3, m = 2 * n
integer :: a(0:n, 2), x(5)[*], i = 7
integer(8), allocatable :: b(:)[:]
integer, dimension(4), codimension[*] :: q
if (x(1) == 2) if (i > 1) a(1, &  ! goes on
  & n) = x(2)[this_image() + 1]
integer j
print *, 'a(1) = ! no comment', a(2, 1)
call s
contains
subroutine s (a)
integer, intent (in) :: a
print *, a
end
"""


class SourceTest(unittest.TestCase):
    def setUp(self) -> None:
        self.source = Source(TEXT)
        self.where = Where(self.source, 9, 2, 4, {"i": [5], "q": [1, 2, 3, 4]})

    def value(self, text: str) -> Optional[int]:
        """Returns the value of an expression."""
        return value_of(text, self.where)

    def test_declarations(self) -> None:
        found = {name: self.source.declared(name, 9) for name in "n a x i b q j".split()}
        self.assertEqual([it.bounds for it in found.values()], ["", "0:n, 2", "5", "", ":", "4", ""])
        self.assertEqual([it.cobounds for it in found.values()], ["", "", "*", "", ":", "*", ""])
        self.assertEqual([it.kind for it in found.values()], [4, 4, 4, 4, 8, 4, 4])
        self.assertTrue(found["b"].is_allocatable)
        self.assertIsNone(self.source.declared("z", 9))

    def test_scopes(self) -> None:
        self.assertEqual(self.source.declared("a", 13).bounds, "")
        self.assertEqual((self.source.unit(9), self.source.unit(13)), ("", "s"))

    def test_actions(self) -> None:
        got = self.source.action(5)
        self.assertEqual((got.text, got.column), ("a(1,  n) = x(2)[this_image() + 1]", 27))
        names = [(it.name, it.subscripts, it.selector) for it in references(got.text)]
        self.assertEqual(names[0], ("a", ["1", "n"], None))
        self.assertEqual(names[2], ("x", ["2"], ["this_image() + 1"]))
        self.assertEqual([it.name for it in references(self.source.action(8).text)], ["print", "a"])

    def test_values(self) -> None:
        rows = [("3", 3), ("m", 6), ("-n + 1", -2), ("7 / 2", 3), ("-7 / 2", -3), ("2 ** 3", 8), ("3_8", 3)]
        rows += [("this_image() + 1", 3), ("num_images()", 4), ("mod(-7, 4)", -3), ("modulo(-7, 4)", 1), ("i", 5)]
        rows += [("q(2)", 2), ("max(1, i)", 5), ("q(9)", None), ("j", None), ("1 / 0", None), ("a(1, 1)", None)]
        rows += [("", None), ("f(1)", None), (".true.", None), ("2 ** 90", None), ("x[1]", None)]
        for text, wanted in rows:
            with self.subTest(text=text):
                self.assertEqual(self.value(text), wanted)

    def test_variables_of_the_main_program_have_no_value_in_a_procedure(self) -> None:
        self.assertIsNone(value_of("i", self.where._replace(line=13)))

    def test_bounds(self) -> None:
        bounds = bounds_of(self.source.declared("a", 9), self.where)
        self.assertEqual((bounds, spell_bounds(bounds)), ([(0, 3), (1, 2)], "0:3, 2"))
        self.assertEqual(subscripts_at(5, bounds), [1, 2])
        self.assertIsNone(subscripts_at(8, bounds))
        self.assertIsNone(bounds_of(self.source.declared("b", 9), self.where))


if __name__ == "__main__":
    unittest.main()
