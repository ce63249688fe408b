#!/usr/bin/env python3
"""Tests the rows of crates.txt: tools/release/archive links a library for C over only the crates of its row. So the row
has to name each crate below it."""

import pathlib
import sys
import unittest

sys.dont_write_bytecode = True
TOP = pathlib.Path(__file__).resolve().parents[2]
sys.path.insert(0, str(TOP / "tools/common"))
from stack import below, crates


class Rows(unittest.TestCase):
    def test_a_library_for_c_names_all_crates_below_it(self):
        listed = crates()
        missing = {name: set(below(name, listed)) - set(uses) for name, (is_static, uses) in listed.items() if is_static}
        self.assertEqual(missing, {name: set() for name in missing})
        self.assertEqual(sorted(missing), ["scard_lent", "scard_owned"])


if __name__ == "__main__":
    unittest.main()
