#!/usr/bin/env python3
"""Tests tools/peers/against.py, over docs/PERFORMANCE.md and times.txt in this folder, the output of a run with the
ratios of that page."""

import pathlib
import sys
import unittest

sys.dont_write_bytecode = True
TOP = pathlib.Path(__file__).resolve().parents[2]
sys.path.insert(0, str(TOP / "tools/peers"))
from against import IN_RUN, ON_PAGE, named, rows_of

PAGE = """\
| an answer to reset | libccid, TCK unchecked | 15.9 ns | 17.9 ns | 1.00 |
| nested forest, 10,326 objects: check | OpenSC, a walk | 212.8 us | 8.4 us | 0.04 |
"""


def run(first, second):
    """The output of a run with these ratios."""
    head = f"{'work':42} {'peer':24} {'peer, ns':>12} {'ours, ns':>12} {'ratio':>8}\n"
    rows = [("an answer to reset", "libccid, TCK unchecked", first), ("nested forest, 10326 objects: check",
                                                                      "OpenSC, a walk", second)]
    return head + "".join(f"{work:42} {peer:24} {1.0:12.1f} {1.0:12.1f} {ratio:8.2f}\n" for work, peer, ratio in rows)


class Against(unittest.TestCase):
    def test_the_same_ratios(self):
        self.assertEqual([*named(PAGE, [run(1.00, 0.04)])], [])

    def test_a_row_that_is_worse_in_one_run_is_not_named(self):
        self.assertEqual([*named(PAGE, [run(1.20, 0.04), run(1.20, 0.04), run(1.08, 0.04)])], [])

    def test_a_row_that_is_worse_in_each_run_is_named(self):
        said = [*named(PAGE, [run(1.20, 0.04), run(1.10, 0.04), run(1.11, 0.04)])]
        self.assertEqual(said, ["an answer to reset, libccid, TCK unchecked: 1.20, 1.10, 1.11, and 1.00 on the page"])

    def test_rounding_alone_is_not_worse(self):
        self.assertEqual([*named(PAGE, [run(1.09, 0.05)] * 3)], [])
        self.assertEqual(len([*named(PAGE, [run(1.00, 0.06)] * 3)]), 1)

    def test_a_row_of_one_side(self):
        first, second = PAGE.splitlines(keepends=True)
        self.assertEqual([*named(first, [run(1.00, 0.04)])],
                         ["nested forest, 10326 objects: check, OpenSC, a walk: the page has no such row"])
        self.assertEqual([*named(PAGE + second.replace("check", "parts"), [run(1.00, 0.04)])],
                         ["nested forest, 10326 objects: parts, OpenSC, a walk: a run has no such row"])

    def test_the_page_and_a_run_have_the_same_rows(self):
        page = (TOP / "docs/PERFORMANCE.md").read_text(encoding="utf-8")
        stored = (pathlib.Path(__file__).parent / "times.txt").read_text(encoding="utf-8")
        self.assertEqual(rows_of(ON_PAGE, page).keys(), rows_of(IN_RUN, stored).keys())
        self.assertEqual(len(rows_of(IN_RUN, stored)), 15)


if __name__ == "__main__":
    unittest.main()
