#!/usr/bin/env python3
"""Tests tools/gate/check-exports: it compares every export, notices each clause that an export loses or changes, and
tells names apart by their imports."""

import dataclasses
import sys
import unittest
import unittest.mock

sys.dont_write_bytecode = True
from copies import script

tool = script("gate/check-exports")

INNER = """ghost use A.b.{Fits, ask as asked};
ghost use A.c.Says;

pub fn take(held: &mut Held, octets: &[u8], count: usize) -> u8
    ensures first { result ≡ 0 → Fits held.old (record { a = octets.now; b = count }) }
    ensures after { held.new ≡ asked count }
    ensures { Says held.new
        octets.now }
{
    0
}

impl Held {
    pub fn kept(&self) -> u8
        ensures { result ≡ asked self.now }
    {
        0
    }
}
"""
OUTER = """ghost use A.b.{Fits, ask};
ghost use A.c.{Says};

use low::Held;

#[unsafe(no_mangle)]
pub extern "C" fn scard_take(state: &mut Held, piece: &[u8], most: usize) -> u8
    ensures one { result ≡ 0 →
        Fits state.old (record { a = piece.now; b = most }) }
    ensures after two { state.new ≡ ask most }
    ensures three { Says state.new piece.now }
    ensures more { ⊤ }
{
    low::part::take(state, piece, most)
}

pub extern "C" fn scard_kept(state: &Held) -> u8
    ensures { result ≡ ask state.now }
{
    state.kept()
}
"""


class Small(unittest.TestCase):
    def found(self, outer=OUTER, inner=INNER):
        """The clauses that each export lacks, or why it can't be compared."""
        with unittest.mock.patch.object(tool, "files_of", lambda _: [inner]):
            said = {}
            for export in tool.functions_of(outer, r"scard_\w+"):
                try:
                    said[export.name] = tool.lacking(export)
                except tool.Odd as why:
                    said[export.name] = str(why)
            return said

    def test_the_same_clauses(self):
        self.assertEqual(self.found(), {"scard_take": [], "scard_kept": []})

    def test_each_change_is_told(self):
        for old, new in (("result ≡ 0 →\n", "result ≡ 1 →\n"), ("b = most", "b = 1"), ("ensures after two", "ensures two"),
                         ("    ensures three { Says state.new piece.now }\n", ""), ("Says state.new", "Says state.old"),
                         ("A.b.{Fits, ask}", "A.d.{Fits, ask}"), ("Fits, ask}", "Fits, other as ask}"),
                         ("result ≡ ask state.now", "result ≡ ask state.new")):
            self.assertIn(old, OUTER)
            with self.subTest(new):
                self.assertTrue(any(self.found(OUTER.replace(old, new)).values()))

    def test_what_can_not_be_compared_is_told(self):
        for old, new in (("state.kept()", "state.lost()"), ("    state.kept()", "    let it = 0;\n    state.kept()"),
                         ("piece, most)", "piece, most + 1)"), ("low::part::take", "low::part::takes")):
            with self.subTest(new):
                self.assertTrue(any(isinstance(it, str) for it in self.found(OUTER.replace(old, new)).values()))


class Repository(unittest.TestCase):
    def exports(self):
        found = [it for crate in tool.CRATES for text in tool.files_of(crate) for it in tool.functions_of(text, r"scard_\w+")]
        self.assertEqual(len(found), 124)
        return found

    def test_each_clause_that_an_export_loses_is_told(self):
        for export in self.exports():
            inner, _ = tool.called(export)
            self.assertGreater(len(inner.clauses), 0, export.name)
            self.assertEqual(len(tool.lacking(dataclasses.replace(export, clauses=[]))), len(inner.clauses), export.name)


if __name__ == "__main__":
    unittest.main()
