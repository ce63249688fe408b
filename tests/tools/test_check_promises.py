#!/usr/bin/env python3
"""Tests tools/gate/check-promises and tools/common/promised.py: they name each type whose text no clause states, each
promise without rows, and each name of a row that isn't there."""

import sys
import unittest

sys.dont_write_bytecode = True
from copies import script

tool = script("gate/check-promises")

SAID = """
impl Display for Fault {
    ghost output = { fault_text };

    fn fmt<W: Write>(&self, f: &mut Formatter<W>) -> fmt::Result {
        f.write_str("fault")
    }
}
"""
UNSAID = SAID.replace("    ghost output = { fault_text };\n\n", "")


class Texts(unittest.TestCase):
    def told(self, source):
        """What the script names in a source."""
        return [*tool.texts_without_clause(source)]

    def test_a_text_that_a_clause_says_is_passed(self):
        self.assertEqual(self.told(SAID), [])

    def test_a_text_that_no_clause_says_is_told(self):
        said = ["Fault has no `ghost output` in its impl of Display"]
        self.assertEqual(self.told(UNSAID), said)
        self.assertEqual(self.told(UNSAID + SAID), said)
        self.assertEqual(self.told(UNSAID.replace("impl Display for Fault", "impl<R: Display> fmt::Display for Fault<R>")), said)

    def test_a_text_that_thiserror_writes_is_told(self):
        source = '#[derive(Debug, Error)]\npub enum Fault {\n    #[error("no memory")]\n    Memory,\n}\n'
        self.assertEqual(self.told(source), ["a type has its text from thiserror, and no clause says it"])

    def test_each_type_of_the_crates_has_a_clause(self):
        self.assertEqual([*tool.lost_texts()], [])


class Promises(unittest.TestCase):
    """Each promise of the page has rows, and each row a promise."""

    TWO = """\
## Octets

**[One verdict](reference/promises.md#one-verdict).** Every input has one.

## Both ends

**[In pieces](reference/promises.md#in-pieces).** The answer is the same.
"""
    ROWS = """\
# a remark
One verdict
  call block_core::decode: found,
    refused
In pieces
  edits block_core: length_ff_taken
"""

    def named(self, promises, rows):
        """What the script names in a page of promises and in rows."""
        return [*tool.unlike(promises, tool.promised.evidence(rows))]

    def test_promises_with_rows_are_passed(self):
        self.assertEqual(self.named(self.TWO, self.ROWS), [])

    def test_a_promise_without_rows_is_named(self):
        rows = self.ROWS.replace("In pieces\n", "In a piece\n")
        self.assertEqual(self.named(self.TWO, rows), ["the promise 'In pieces' has no rows",
                                                      "'In a piece' has rows and no promise"])

    def test_another_order_and_another_link_are_named(self):
        rows = "In pieces\n  test test\nOne verdict\n  test test\n"
        self.assertEqual(self.named(self.TWO, rows), ["the promises and their rows are in different orders"])
        self.assertEqual(self.named(self.TWO.replace("#in-pieces", "#pieces"), self.ROWS),
                         ["the link of the promise 'In pieces' is to #pieces"])

    def test_a_promise_has_the_heading_above_it(self):
        headings = [heading for _, _, heading in tool.promised.promises(self.TWO)]
        self.assertEqual(headings, ["Octets", "Both ends"])

    def test_a_line_that_is_no_row_is_refused(self):
        for line in ("  calls block_core::decode", "  call block_core::decode found", "  call"):
            with self.assertRaises(tool.promised.Unreadable):
                tool.promised.evidence(f"One verdict\n{line}\n")


class Rows(unittest.TestCase):
    """The names of each row are there."""

    PAGE = {"block_core.md": "# block_core\n\n## decode\n\n```rust\n# no heading\npub fn decode()\n    ensures found { x },\n```\n"}

    def named(self, row):
        """What the script names in a row."""
        return [*tool.lost_rows(tool.promised.evidence(f"One verdict\n  {row}\n"), self.PAGE)]

    def test_names_that_are_there_are_passed(self):
        for row in ("call block_core::decode: found", "defined t1_core/Terminal: terminal_turn",
                    "edits block_core: length_ff_taken", "test tests/c/wiped.c"):
            self.assertEqual(self.named(row), [])

    def test_names_that_are_missing_are_named(self):
        for row, named in {
                "call block_core::decode: foun": "block_core::decode has no clause foun",
                "call block_core::recode": "no call block_core::recode",
                "call no_core::decode": "no call no_core::decode",
                "defined t1_core/Terminal: terminal_tur": "t1_core/Terminal has no definition terminal_tur",
                "defined t1_core/Terminals: x": "no file of definitions t1_core/Terminals",
                "edits t1_core: length_ff_taken": "t1_core has no edit length_ff_taken",
                "edits no_core: length_ff_taken": "no_core has no edit length_ff_taken",
                "test tests/c/no.c": "no test tests/c/no.c"}.items():
            self.assertEqual(self.named(row), [named])

    def test_a_page_has_each_row(self):
        text = tool.promised.part_of("One verdict", tool.promised.evidence(Promises.ROWS)["One verdict"], "Octets", self.PAGE)
        self.assertEqual(text, """
## One verdict

The promise is below [Octets](../PROMISES.md#octets).

- [block_core](block_core.md): [decode](block_core.md#decode) (`found`, `refused`).
""")


if __name__ == "__main__":
    unittest.main()
