#!/usr/bin/env python3
"""Tests tools/gate/version: it finds each place with another version, and writes a version into all of them."""

import re
import subprocess
import sys
import unittest

sys.dont_write_bytecode = True
from copies import TOP, OverCopies, printed, script

tool = script("gate/version")
NOW = (TOP / "VERSION").read_text().strip()
FILES = ["VERSION", tool.CHANGES, tool.SYMBOLS, *{*tool.PLACES, *tool.OBJECTS}]


class Versions(OverCopies):
    FILES = FILES

    def setUp(self):
        super().setUp()
        # An unfinished version may have its heading already.
        changes = self.text(tool.CHANGES)
        (self.top / tool.CHANGES).write_text(re.sub(r"^## Next\n.*?(?=^## )", "", changes, flags=re.M | re.S))

    def said(self, *words):
        """The status and the output of a call."""
        return printed(tool.main, [*words], self.top)

    def change(self, file, old, new):
        """Replaces a text that occurs once in a file."""
        self.assertEqual(self.text(file).count(old), 1, file)
        super().change(file, old, new)

    def test_the_repository_has_one_version(self):
        self.assertEqual(self.said()[0], 0)

    def test_each_place_with_another_version_is_named(self):
        for file, forms in tool.PLACES.items():
            for form in forms:
                self.change(file, tool.line_of(form, NOW) + "\n", tool.line_of(form, "7.8.9") + "\n")
                status, text = self.said()
                self.assertEqual((status, text.count("\n")), (1, 1), form)
                self.assertIn(f"version: {file}: ", text)
                self.change(file, tool.line_of(form, "7.8.9") + "\n", tool.line_of(form, NOW) + "\n")

    def test_a_place_without_its_line_is_named(self):
        self.change("docs/PROGRAM.md", f"`scard {NOW}` |", "a version |")
        self.assertEqual(self.said()[0], 1)

    def test_an_object_with_another_version_is_named(self):
        for file in tool.OBJECTS:
            text = self.text(file)
            (self.top / file).write_text(text.replace(f'"program":"scard {NOW}"', '"program":"scard 7.8.9"', 1))
            self.assertEqual(self.said(), (1, f"version: {file}: each object that names the program must have its "
                                              f"version, {NOW}\n"))
            (self.top / file).write_text(text)

    def test_a_heading_of_another_version_is_named(self):
        self.change(tool.CHANGES, f"## {NOW}\n", "## 0.0.1\n")
        self.assertEqual(self.said()[0], 1)

    def test_next_may_come_before_the_version(self):
        self.change(tool.CHANGES, f"## {NOW}\n", f"## Next\n\n- More.\n\n## {NOW}\n")
        self.assertEqual(self.said()[0], 0)
        self.assertEqual(self.said("12.0.345")[0], 0)
        self.assertIn("\n## 12.0.345\n\n- More.\n", self.text(tool.CHANGES))
        self.assertNotIn("Next", tool.HEADING.findall(self.text(tool.CHANGES)))

    def test_a_version_is_written_everywhere(self):
        self.assertEqual(self.said("12.0.345")[0], 0)
        self.assertEqual(self.text("VERSION"), "12.0.345\n")
        self.assertIn("\n    12_000_345\n", self.text("crates/c_lent/src/version.rt"))
        self.assertIn(" == 12000345);", self.text("tests/c/names.c"))
        self.assertEqual({it for file in tool.OBJECTS for it in tool.MEMBER.findall(self.text(file))}, {"12.0.345"})
        self.assertEqual(tool.HEADING.findall(self.text(tool.CHANGES))[:2], ["12.0.345", NOW])

    def test_each_call_has_the_version_in_which_it_came(self):
        line = "scard_version 1.0.0\n"
        for new, words in (("", "scard_version isn't there"), ("scard_version 99.0.0\n", "came in 99.0.0"), (2 * line, "twice"),
                           ("scard_version 1.0\n", "came in 1.0,"), (line + "scard_versions 1.0.0\n", "is no call")):
            self.change(tool.SYMBOLS, line, new)
            status, text = self.said()
            self.assertEqual(status, 1)
            self.assertIn(words, text)
            self.restore(tool.SYMBOLS)

    def test_the_next_version_is_written_for_its_calls(self):
        self.change(tool.SYMBOLS, "scard_version 1.0.0\n", "scard_version next\n")
        self.assertEqual(self.said()[0], 0)
        self.assertEqual(self.said("12.0.345")[0], 0)
        self.assertIn("scard_version 12.0.345\n", self.text(tool.SYMBOLS))
        self.assertIn("scard_lrc 1.0.0\n", self.text(tool.SYMBOLS))

    def test_the_same_version_changes_no_file(self):
        (self.top / tool.SYMBOLS).write_text(self.text(tool.SYMBOLS).replace(" next\n", f" {NOW}\n"))
        before = self.texts()
        self.assertEqual(self.said(NOW)[0], 0)
        self.assertEqual(self.texts(), before)

    def test_nothing_is_written_where_a_line_is_missing(self):
        self.change("docs/PROGRAM.md", f"`scard {NOW}` |", "a version |")
        before = self.texts()
        with self.assertRaises(ValueError):
            tool.main(["12.0.345"], self.top)
        self.assertEqual(self.texts(), before)

    def test_what_is_no_version_is_refused(self):
        for word in ("1.4", "1.4.0.0", "v1.4.0", "01.4.0", "1.1000.0", "--check"):
            ran = subprocess.run([TOP / "tools/gate/version", word], stderr=subprocess.DEVNULL, check=False)
            self.assertEqual(ran.returncode, 2)


if __name__ == "__main__":
    unittest.main()
