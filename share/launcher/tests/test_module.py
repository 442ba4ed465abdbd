"""The plain module: what goes, what is put in place, what is the same, and where it is cut."""

from __future__ import annotations

import os
import unittest

import module
import sources

from tests.checkouts import WithCheckout, put

NOTHING = lambda: None  # noqa: E731
TEXT = """source_filename = "rattle"
@state = private global [1 x i8] zeroinitializer, align 1
@text = private unnamed_addr constant [3 x i8] c"yes", align 1
define i32 @main() #0 {
block0:
  call void @"rattle-llvm-checks::reached"(i64 1)
  call void @llvm.memset.p0.i64(ptr %r7, i8 -86, i64 8, i1 false)
  call void @llvm.memset.p0.i64(ptr %r7, i8 0, i64 8, i1 false)
  %r1 = call i32 @"caf_base::twice::<u8>"(ptr @text)
  %r2 = call i32 @"caf_base::twice::<i8>"(ptr @state)
  %r3 = call i32 @"caf_base::twice::<u64>"(ptr @text)
  %r4 = call i32 @"source_reader::read"(ptr @text)
  %r5 = call i32 @"source_reader::peek"(ptr @text)
  ret i32 %r1
}
define internal i32 @"caf_base::twice::<u8>"(ptr %a) #0 {
block0: ; preds = %one
  %r1 = call i32 @"caf_base::half::<u8>"(ptr %a)
  ret i32 %r1
}
define internal i32 @"caf_base::twice::<i8>"(ptr %a) #0 {
block0: ; preds = %one, %two
  %r1 = call i32 @"caf_base::half::<i8>"(ptr %a)
  ret i32 %r1
}
define internal i32 @"caf_base::twice::<u64>"(ptr %a) #0 {
block0:
  %r1 = call i32 @"caf_base::half::<u64>"(ptr %a)
  ret i32 %r1
}
define internal i32 @"caf_base::half::<u8>"(ptr %a) #0 {
  ret i32 8
}
define internal i32 @"caf_base::half::<i8>"(ptr %a) #0 {
  ret i32 8
}
define internal i32 @"caf_base::half::<u64>"(ptr %a) #0 {
  ret i32 64
}
define internal i32 @"caf_base::unused"() #0 {
  ret i32 1
}
define internal i32 @"source_reader::read"(ptr %a) #0 {
  %r1 = call i32 @"caf_base::half::<u64>"(ptr @state)
  ret i32 %r1
}
define internal i32 @"source_reader::peek"(ptr %a) #0 {
  ret i32 2
}
declare void @"rattle-llvm-checks::reached"(i64)
attributes #0 = { sanitize_address nounwind }
"""
READER = """/// Reads.
pub fn read() {}
#[inline(always)]
#[ensures(true)]
// (short)
pub(crate) fn peek() {}
"""


class Plain(WithCheckout):
    def setUp(self) -> None:
        super().setUp()
        crates = "caf_base:\nsource_reader: caf_base\nimage_core: caf_base\ncaf: source_reader\n"
        put(f"{self.home}/crates.txt", crates)
        put(f"{self.home}/crates/source_reader/src/lib.rt", READER)

    def read(self, text: str = TEXT) -> module.Module:
        """Reads the module, with the marks of the checkout."""
        return module.read_module(text.splitlines(True), module.functions_in_place(self.home), NOTHING)

    def test_marked_functions_are_found(self) -> None:
        self.assertEqual(module.functions_in_place(self.home), {("source_reader", "peek")})

    def test_checks_and_filling_go(self) -> None:
        body = "".join(self.read().bodies["main"])
        self.assertNotIn("rattle-llvm-checks", body)
        self.assertNotIn("i8 -86", body)
        self.assertIn("i8 0, i64 8", body)
        whole = TEXT[TEXT.index("define i32 @main") : TEXT.index("define internal")]
        self.assertEqual(body.count("\n"), whole.count("\n") - 2)

    def test_marked_functions_are_put_in_place_and_others_arent(self) -> None:
        bodies = self.read().bodies
        self.assertTrue(bodies['"source_reader::peek"'][0].endswith("#0 alwaysinline {\n"))
        self.assertTrue(bodies['"source_reader::read"'][0].endswith("(ptr %a) #0 {\n"))

    def test_no_address_is_watched(self) -> None:
        self.assertIn("attributes #0 = { nounwind }\n", self.read().outside)

    def test_a_text_without_main_or_end_is_none(self) -> None:
        for text in ("", TEXT.replace("@main", "@other"), TEXT[: TEXT.index("}\n")]):
            with self.assertRaises(module.NoModule):
                self.read(text)

    def test_what_nothing_leads_to_goes(self) -> None:
        whole = self.read()
        module.drop_unreached(whole)
        self.assertNotIn('"caf_base::unused"', whole.bodies)
        self.assertEqual(len(whole.bodies), 9)

    def test_what_does_the_same_is_one(self) -> None:
        whole = self.read()
        module.merge_alike(whole, lambda name: False, NOTHING)
        self.assertNotIn('"caf_base::twice::<u8>"', whole.bodies)
        self.assertNotIn('"caf_base::half::<u8>"', whole.bodies)
        self.assertIn('"caf_base::half::<u64>"', whole.bodies)
        self.assertIn('"caf_base::twice::<u64>"', whole.bodies)
        main = "".join(whole.bodies["main"])
        self.assertEqual(main.count('@"caf_base::twice::<i8>"'), 2)
        self.assertEqual(main.count('@"caf_base::twice::<u64>"'), 1)

    def test_each_part_has_what_it_needs_once(self) -> None:
        first, second = ("".join(it) for it in module.plain_parts(self.home, TEXT.splitlines(True), NOTHING))
        self.assertIn("define i32 @main()", first)
        self.assertNotIn("@main", second)
        self.assertIn('declare hidden i32 @"source_reader::read"(ptr %a)\n', first)
        self.assertIn('define hidden i32 @"source_reader::read"(ptr %a) #0 {\n', second)
        self.assertIn('define internal i32 @"caf_base::half::<u64>"', first)
        self.assertIn('define internal i32 @"caf_base::half::<u64>"', second)
        self.assertNotIn("twice", second)

    def test_what_is_put_in_place_is_known_in_full_where_it_is_called(self) -> None:
        first, _ = ("".join(it) for it in module.plain_parts(self.home, TEXT.splitlines(True), NOTHING))
        self.assertIn('define internal i32 @"source_reader::peek"(ptr %a) #0 alwaysinline {\n', first)

    def test_state_stands_in_one_part(self) -> None:
        first, second = ("".join(it) for it in module.plain_parts(self.home, TEXT.splitlines(True), NOTHING))
        self.assertIn("@state = hidden global [1 x i8] zeroinitializer, align 1\n", first)
        self.assertIn("@state = external hidden global [1 x i8], align 1\n", second)
        self.assertIn('@text = private unnamed_addr constant [3 x i8] c"yes", align 1\n', second)


class TheCut(unittest.TestCase):
    def test_its_crates_are_those_of_the_project(self) -> None:
        home = os.path.dirname(os.path.dirname(os.path.dirname(os.path.abspath(module.__file__))))
        listed = sources.crates_listed(home)
        self.assertEqual([it for it in (*module.READING, *module.RUNNING) if it not in listed], [])
        self.assertGreater(len(module.crates_of_reading(home)), 20)


if __name__ == "__main__":
    unittest.main()
