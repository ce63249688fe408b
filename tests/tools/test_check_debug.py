#!/usr/bin/env python3
"""Tests tools/gate/check-debug: it finds each type that holds octets and derives Debug, or whose Debug by hand nothing
tests, over small sources."""

import pathlib
import sys
import tempfile
import unittest

sys.dont_write_bytecode = True
from copies import TOP, script

tool = script("gate/check-debug")
DERIVED = "#[derive(Clone, Debug)]\n"
BY_HAND = "impl Debug for {name} {{\n{inside}    fn fmt<W: Write>(&self, f: &mut Formatter<W>) -> fmt::Result {{\n    }}\n}}\n"


class Debug(unittest.TestCase):
    def found(self, text, allowed="", tests=""):
        """What the script says of a source of one crate."""
        with tempfile.TemporaryDirectory() as work:
            top = pathlib.Path(work)
            for name, content in (("crates/a/src/deep/lib.rt", text), (f"{tool.TESTS}/lib.rt", tests), (tool.ALLOWED, allowed)):
                (top / name).parent.mkdir(parents=True, exist_ok=True)
                (top / name).write_text(content)
            return list(tool.wrong(top))

    def test_each_form_of_octets_is_found(self):
        for text in ("pub struct A {\n    pub text: String,\n}\n", "struct A {\n    held: Vec<u8>,\n}\n", "pub struct A<'a>(&'a [u8]);\n",
                     "pub(crate) struct A {\n    room: [u8; 8],\n}\n", "pub enum A<'a> {\n    None,\n    Came(&'a [u8]),\n}\n",
                     "pub enum A {\n    Said { text: &'static str },\n}\n", "struct A {\n    held: ArrayVec<u8, 15>,\n}\n",
                     "pub struct A<R> {\n    pub note: String,\n    pub verdict: Result<R, ()>,\n}\n"):
            with self.subTest(text):
                found = self.found(DERIVED + text)
                self.assertEqual([it.split(" ")[0] for it in found], ["a::A"])
                self.assertEqual(self.found("#[derive(Clone)]\n" + text), [])
                self.assertEqual(self.found("#[derive(Debug, Drop)]\n#[repr(C)]\n" + text), found)

    def test_what_holds_none_is_right(self):
        for text in ("pub struct A {\n    pub count: u8,\n}\n", "pub struct A {\n    pub octets: Octets,\n}\n", "pub struct A;\n",
                     "pub struct A {\n    // a String\n    pub count: usize,\n}\n", "pub enum A {\n    Ifs(u8),\n    Rest,\n}\n"):
            self.assertEqual(self.found(DERIVED + text), [])

    def test_a_row_allows_a_type(self):
        text = DERIVED + "pub struct A {\n    held: Vec<u8>,\n}\n"
        self.assertEqual(self.found(text, "# why\na::A: it is public\n"), [])
        self.assertEqual(len(self.found(text, "a::A:\n")), 1)
        self.assertIn("a::B", self.found(text, "a::A: so\na::B: so\n")[0])

    def test_debug_by_hand_needs_a_test_or_a_contract(self):
        text = "pub struct A {\n    held: Vec<u8>,\n}\n"
        plain, stated = (BY_HAND.format(name="A", inside=it) for it in ("", "    ghost debug_output = { λ a. Some (text a) };\n\n"))
        self.assertEqual(len(self.found(text + plain)), 1)
        self.assertEqual(self.found(text + stated), [])
        self.assertEqual(self.found(text + plain, tests='debugs(&a, "A { octets: 3 }")'), [])
        self.assertEqual(len(self.found(text + plain, tests='debugs(&a, "AB { octets: 3 }")')), 1)
        text = "pub enum A<'a> {\n    None,\n    Came(&'a [u8]),\n}\n"
        plain = BY_HAND.format(name="A<'_>", inside="")
        self.assertEqual(len(self.found(text + plain, tests='debugs(&a, "None")')), 1)
        self.assertEqual(self.found(text + plain, tests='debugs(&a, "Came(3 octets)")'), [])

    def test_the_types_of_the_repository_are_read(self):
        names = {it.name for crate, text in tool.sources(TOP) for it in tool.types_of(crate, text) if it.holds}
        for name in ("octet_core::Octets", "octet_core::Text", "judge_core::Arrival", "program_octets::Shown",
                     "program_octets::CheckedAnswer", "line_core::Framer", "exchange_core::Event", "tlv_core::Tag", "block_core::BlockRef"):
            self.assertIn(name, names)


if __name__ == "__main__":
    unittest.main()
