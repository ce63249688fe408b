#!/usr/bin/env python3
"""Tests tools/common/plain_calls.py: each call of the library for C has one item of docs/calls.txt."""

import sys
import unittest

sys.dont_write_bytecode = True
from copies import TOP
import plain_calls

TEXT = """\
# a remark
c_one
  First words.

  - `scard_a`,
    `scard_b_*`: what they do, by `scard_c`.

c_two
  - `scard_d`: more.
"""


class PlainCalls(unittest.TestCase):
    def test_a_crate_has_its_text(self):
        self.assertEqual(plain_calls.texts(TEXT), {
            "c_one": "First words.\n\n- `scard_a`,\n  `scard_b_*`: what they do, by `scard_c`.", "c_two": "- `scard_d`: more."})

    def test_calls_and_items_are_compared(self):
        text = plain_calls.texts(TEXT)["c_one"]
        self.assertEqual([*plain_calls.unlike(text, ["scard_a", "scard_b_x", "scard_b_y"])], [])
        self.assertEqual([*plain_calls.unlike(text, ["scard_a", "scard_c"])], ["0 items name scard_c", "no call scard_b_*"])
        self.assertEqual([*plain_calls.unlike(text + "\n- `scard_*`: all.", ["scard_a", "scard_b_x"])],
                         ["2 items name scard_a", "2 items name scard_b_x"])

    def test_the_file_has_both_crates(self):
        self.assertEqual([*plain_calls.texts((TOP / "docs/calls.txt").read_text())], ["scard_lent", "scard_owned"])


if __name__ == "__main__":
    unittest.main()
