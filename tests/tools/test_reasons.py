#!/usr/bin/env python3
"""Tests tools/gate/reasons: it finds a list that differs from an enum of reasons, and writes the rows of a new case."""

import re
import sys
import unittest

sys.dont_write_bytecode = True
from copies import TOP, OfTool, script

tool = script("gate/reasons")
FILES = sorted({it.file for codec in tool.CODECS for it in tool.lists_of(codec)} | {it.source for it in tool.CODECS})
# Each change lays out the lists of this definition again.
RELAID = "crates/c_lent/specs/Names.antt"
NEW = "    /// An octet that nobody sends: this is a test.\n    Unheard,\n"


class Reasons(OfTool):
    FILES, TOOL = FILES, tool

    def add(self, codec, before):
        """Adds a case to an enum, before another one."""
        docs = re.search(rf"(?:    ///[^\n]*\n)+    {before},\n", self.text(codec.source))[0]
        self.change(codec.source, docs, NEW + docs)

    def test_the_lists_of_the_repository_are_as_the_enums(self):
        self.assertEqual(self.said()[0], 0)

    def test_the_repository_needs_no_writing(self):
        self.assertEqual(self.said("--write")[0], 0)
        self.assertEqual(self.texts(), [(TOP / it).read_text() for it in FILES])

    def test_a_case_without_rows_is_named_for_each_list(self):
        for codec in tool.CODECS:
            first = tool.reasons_of(codec, self.text(codec.source), self.text("include/scard.h"))[0].name
            self.add(codec, first)
            status, said = self.said()
            lists = [it.file for it in tool.lists_of(codec)]
            self.assertEqual(status, 1)
            for file in lists:
                self.assertIn(f"reasons: {file}: the list of {codec.name} reasons isn't that of {codec.enum}\n", said)
            self.restore(codec.source)

    def test_a_new_case_gets_all_rows_and_the_next_number(self):
        tlv = next(it for it in tool.CODECS if it.name == "tlv")
        self.add(tlv, "TagLong")
        status, said = self.said("--write")
        self.assertEqual((status, said.count("\n")), (0, 1), said)
        header = self.text("include/scard.h")
        self.assertIn("    SCARD_TLV_TAG_LONG = 3,    /* the tag would need a fourth octet */\n", header)
        self.assertIn("    SCARD_TLV_TOO_LONG = 6,    /* the octets still needed pass", header)
        self.assertIn("    SCARD_TLV_UNHEARD = 7      /* an octet that nobody sends */\n};\n", header)
        self.assertIn('        7 => b"Unheard\\0",\n', self.text("crates/c_lent/src/names.rt"))
        self.assertIn("tlv.TagSecond ∷ tlv.Unheard ∷ tlv.TagLong", re.sub(r"\s+", " ", self.text(RELAID)))
        self.assertIn("tlv_reason Unheard = 7\n", self.text("crates/c_lent/specs/Tlv.antt"))
        self.assertIn("{TooDeep, TagSecond, Unheard, TagLong, ", self.text("crates/c_lent/specs/Tlv.antt"))
        page = self.text("docs/PROTOCOL.md")
        self.assertIn("all 0 |\n| `Unheard` | an octet that nobody sends |\n| `TagLong` |", page)
        rows = '    REASON(TLV, TOO_LONG, "TooLong");\n    REASON(TLV, UNHEARD, "Unheard");\n'
        self.assertIn(rows, self.text("tests/c/names.c"))
        rows = "TooLong = SCARD_TLV_TOO_LONG,\n        Unheard = SCARD_TLV_UNHEARD\n    });\n"
        self.assertIn(rows, self.text("rust/scard/src/error.rs"))
        said = '"an octet that nobody sends"'
        self.assertIn(f"            TlvReason::Unheard => {said},\n", self.text("crates/explainer/src/reason.rt"))
        self.assertIn(f"tlv_sentence tlv.Unheard = codes {said}\n", self.text("crates/explainer/specs/Sentences.antt"))
        said = "An octet that nobody sends."
        self.assertIn(f'        7 => b"{said}\\0",\n', self.text("crates/c_lent/src/sentence.rt"))
        self.assertIn(f'tlv_says tlv.Unheard = codes "{said}"\n', self.text("crates/c_lent/specs/Sentences.antt"))

    def test_a_comment_of_the_header_is_the_sentence_of_the_library_for_c(self):
        self.change("include/scard.h", "/* TCK is wrong */", "/* TCK is odd; `place` is its place */")
        status, said = self.said()
        self.assertEqual((status, said.count("c_lent/src/sentence.rt"), said.count("c_lent/specs/Sentences.antt")),
                         (1, 1, 1), said)
        self.assertEqual(self.said("--write")[0], 0)
        self.assertIn('        3 => b"TCK is odd.\\0",\n', self.text("crates/c_lent/src/sentence.rt"))
        self.assertIn('atr_says atr.BadTck = codes "TCK is odd."\n', self.text("crates/c_lent/specs/Sentences.antt"))

    def test_a_case_that_is_gone_takes_its_rows_with_it(self):
        for codec in tool.CODECS:
            last = tool.reasons_of(codec, self.text(codec.source), self.text("include/scard.h"))[-1].name
            self.add(codec, last)
            self.assertEqual(self.said("--write")[0], 0)
            self.change(codec.source, NEW, "")
            self.assertEqual(self.said("--write")[0], 0)
        for file in FILES:
            if file != RELAID:
                self.assertEqual(self.text(file), (TOP / file).read_text(), file)

    def test_a_row_with_another_number_or_name_is_found(self):
        changes = [
            ("include/scard.h", "SCARD_ATR_TOO_LONG = 2", "SCARD_ATR_TOO_LONG = 5"),
            ("include/scard.h", "SCARD_DOL_TAG_ZERO", "SCARD_DOL_TAG_NIL"),
            ("crates/c_lent/src/names.rt", '3 => b"OverIfs', '3 => b"BadIfs'),
            ("crates/c_lent/specs/Chain.antt", "chain_reason BadLen = 6", "chain_reason BadLen = 7"),
            ("crates/explainer/specs/Sentences.antt", "tlv_sentence tlv.TooDeep", "tlv_sentence tlv.Deep"),
            ("docs/PROTOCOL.md", "| 2 | `OverIfs` |", "| 2 | `BadIfs` |"),
            ("docs/PROTOCOL.md", "`Trailing`", "`Late`"),
            ("rust/scard/src/error.rs", "TagLong = SCARD_TLV_TAG_LONG", "TagLong = SCARD_TLV_TAG_SECOND"),
        ]
        for file, old, new in changes:
            self.change(file, old, new)
            self.assertEqual(self.said()[0], 1, (file, new))
            self.restore(file)


if __name__ == "__main__":
    unittest.main()
