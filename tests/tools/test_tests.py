#!/usr/bin/env python3
"""Tests docs/TESTS.md: each tool is in the table of tests, or has one row below the name of its folder. Each part of
tests/ and each crate of tests has a row too."""

import pathlib
import re
import unittest

TOP = pathlib.Path(__file__).resolve().parents[2]
PAGE = (TOP / "docs/TESTS.md").read_text()
KINDS, TOOLS = PAGE.split("\n## Tools\n")
ROW = re.compile(r"^\| (?!-)(.*?) \|", re.M)
CODE = re.compile(r"`([^`]+)`")
# A part of the page, with its heading, which names a folder of tools.
PART = re.compile(r"^### tools/(\w+): .*?(?=^### |\Z)", re.M | re.S)


def named_in(text):
    """The names in backticks in the first column of the tables of a text."""
    return [name for cell in ROW.findall(text) for name in CODE.findall(cell)]


def tried_in(folder):
    """The tools of a folder that the table of tests names."""
    return sorted(set(re.findall(rf"`tools/{folder}/([\w.-]+)", KINDS)))


def parts_of(folder):
    """The entries of a folder, without the files that Python leaves."""
    return sorted(it.name for it in (TOP / folder).iterdir() if it.name != "__pycache__")


def crates_of_the_gate():
    """The crates of the last group of crates.txt, which the gate runs."""
    group = (TOP / "crates.txt").read_text().split("\n# what the gate runs")[1]
    return re.findall(r"^(\w+):", group, re.M)


class Page(unittest.TestCase):
    def test_each_tool_is_there_once(self):
        named = {part[1]: sorted(named_in(part[0]) + tried_in(part[1])) for part in PART.finditer(TOOLS)}
        self.assertEqual(named, {folder: parts_of(f"tools/{folder}") for folder in named})
        others = [it for it in parts_of("tools") if f"`tools/{it}`" in KINDS]
        self.assertEqual(sorted([*named, *others]), parts_of("tools"))

    def test_each_part_of_tests_has_a_row(self):
        self.assertEqual([it for it in parts_of("tests") if f"`tests/{it}`" not in KINDS], [])

    def test_each_crate_of_tests_has_a_row(self):
        self.assertGreater(len(crates_of_the_gate()), 5)
        self.assertEqual([it for it in crates_of_the_gate() if f"`crates/{it}`" not in KINDS], [])


if __name__ == "__main__":
    unittest.main()
