#!/usr/bin/env python3
"""Tests tools/gate/check-header: it names each difference between a header and the sources, such as two swapped
arguments or fields."""

import sys
import unittest
import unittest.mock

sys.dont_write_bytecode = True
from copies import TOP, script

tool = script("gate/check-header")
import header

HEADER = """struct scard_verdict {
    uint8_t status;
    scard_size place;
};
struct scard_lent_end {
    uint16_t count;
    uint8_t first, second;
    uint8_t kept[9];
    const char *text;
    scard_size size;
};
struct scard_verdict scard_cut(const uint8_t *octets, size_t count, size_t max, uint8_t *out, size_t room);
bool scard_is(const struct scard_lent_end *end, uint8_t first, uint8_t second);
void scard_opened(struct scard_lent_end *end);
"""
SOURCES = """
#[repr(C)]
#[derive(Clone, Copy)]
pub struct Verdict {
    pub status: u8,
    /// Where.
    pub place: usize,
}

pub const LONGEST: usize = 9;

#[repr(C)]
pub struct CEnd<'a> {
    count: u16,
    pub first: u8,
    pub second: u8,
    pub kept: [u8; LONGEST],
    pub octets: &'a [u8],
    alloc: Global,
    pub ghost engine: { Option AnyEngine },
}

pub extern "C" fn scard_cut(octets: &[u8], max: usize, out: &mut [u8]) -> Verdict
    ensures ok { result.status ≡ 0 }
{
}

pub extern "C" fn scard_is(end: &CEnd<'_>, first: u8, second: u8) -> bool
{
}

pub extern "C" fn scard_opened(
    alloc: Global,
    end: &mut CEnd,
)
    ensures { }
{
}
"""


class Differences(unittest.TestCase):
    def differ(self, changed=("", ""), sources=SOURCES):
        """The differences after a change of the header."""
        self.assertIn(changed[0], HEADER)
        structs, calls = header.read(HEADER.replace(*changed, 1))
        with unittest.mock.patch.object(tool, "OTHERS", {"octets": ["text"]}):
            known, numbers = tool.structs_of(sources)
            found = tool.calls_differ(calls, tool.exports_of(sources), numbers)
            return found + tool.structs_differ(structs, known, numbers)

    def test_nothing(self):
        self.assertEqual(self.differ(), [])

    def test_each_change_is_told(self):
        for changed in (("first, uint8_t second", "second, uint8_t first"), ("first, second", "second, first"),
                        ("size_t count, size_t max", "size_t max, size_t count"), ("uint16_t count", "uint32_t count"),
                        ("const uint8_t *octets", "uint8_t *octets"), ("kept[9]", "kept[8]"), ("bool ", "uint8_t "),
                        ("scard_cut", "scard_cuts"), ("struct scard_lent_end *end", "struct scard_verdict *end"),
                        ("    uint8_t status;\n", ""), ("scard_size size", "scard_size second"),
                        ("const char *text", "char *text"), ("uint8_t *out", "uint8_t *octets")):
            with self.subTest(changed):
                self.assertTrue(self.differ(changed))

    def test_an_export_without_a_prototype_is_told(self):
        more = SOURCES + 'pub extern "C" fn scard_more() -> u32\n{\n}\n'
        self.assertEqual(self.differ(sources=more), ["scard_more: the header has no prototype"])


class Guards(unittest.TestCase):
    """The calls that need memory, and no others, are between the guards."""

    BEGIN, END = "#ifndef SCARD_NO_HANDLES\n", "#endif /* SCARD_NO_HANDLES */\n"
    OPEN, NUMBER = "uint8_t scard_open(void);\n", "uint8_t scard_number(void);\n"

    def differ(self, text):
        return tool.guards_differ(text, {"scard_open"})

    def test_guards(self):
        self.assertEqual(self.differ(self.NUMBER + self.BEGIN + self.OPEN + self.END), [])
        self.assertEqual(self.differ(self.BEGIN + self.OPEN + self.END + self.NUMBER), [])

    def test_each_call_on_the_wrong_side_is_told(self):
        found = self.differ(self.OPEN + self.BEGIN + self.NUMBER + self.END)
        self.assertEqual([it.split(":")[0] for it in found], ["scard_open", "scard_number"])

    def test_the_header(self):
        self.assertEqual(tool.guards_differ((TOP / "include/scard.h").read_text(), self.owned()), [])
        self.assertEqual(len(self.owned()), 20)

    def owned(self):
        return set(tool.exports_of(tool.text_of("scard_owned")))


def swapped(row):
    """Copies of a row, each with another two neighbours swapped."""
    return [[*row[:at], row[at + 1], row[at], *row[at + 2 :]] for at in range(len(row) - 1)]


class Header(unittest.TestCase):
    def test_swapped_arguments_and_fields_of_the_header_are_told(self):
        """Swaps each two neighbouring arguments or fields of the header."""
        structs, calls = header.read((TOP / "include/scard.h").read_text())
        exports, (known, numbers) = tool.sources()
        for call in calls:
            one = {call.name: exports[call.name]}
            self.assertEqual(tool.calls_differ([call], one, numbers), [])
            for call.takes in swapped(call.takes):
                self.assertTrue(tool.calls_differ([call], one, numbers), call)
        for struct in structs.values():
            one = {struct.name: struct}
            self.assertEqual(tool.structs_differ(one, known, numbers), [])
            for struct.said in swapped(struct.said):
                self.assertTrue(tool.structs_differ(one, known, numbers), struct)


if __name__ == "__main__":
    unittest.main()
