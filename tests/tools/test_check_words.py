#!/usr/bin/env python3
"""Tests tools/gate/check-words: it finds a phrase, even over the end of a line, and not in code."""

import sys
import unittest

sys.dont_write_bytecode = True
from copies import script

tool = script("gate/check-words")


class Words(unittest.TestCase):
    def found(self, text):
        """The lines and phrases that are found in a page."""
        return [(line, phrase) for line, phrase, _ in tool.found_in(tool.without_code(text))]

    def test_phrases_are_found(self):
        text = "The host is told of it.\nA text\nthat is\nnone.\n\nThat is dear, and wants much. None of these, given.\n"
        said = [(1, "is told"), (3, "that is none"), (6, "dear"), (6, "wants"), (6, "None of these")]
        self.assertEqual(self.found(text), said)

    def test_each_phrase_has_something_better(self):
        text = "It speaks of a block under\nway, but for one.\nOnly where it is spoilt, nothing but that.\n"
        said = [(1, "speaks of"), (1, "under way"), (2, "but for"), (3, "Only where"), (3, "spoilt"), (3, "nothing but")]
        self.assertEqual(self.found(text), said)

    def test_words_that_only_look_alike_pass(self):
        self.assertEqual(self.found("It unwanted, dearth, the untold. One of these reasons. Who is it?\n"), [])

    def test_code_is_left_out(self):
        self.assertEqual(self.found("`is told`\n\n    that is none\n\n```\ndear\n```\nA line.\n"), [])

    def test_long_lines_are_found_but_not_of_code_and_tables(self):
        long = "word " * 25
        page = tool.without_code(f"{long}\n\n    {long}\n\n| {long} |\n")
        self.assertEqual([*tool.wide_in(page)], [(1, 125)])

    def test_of_a_crate_only_comments_are_read(self):
        text = "/// It is told.\nfn told() {\n    // that\n    // is none\n    say(\"is dear\")\n}\n"
        said = tool.comments_of(text, tool.COMMENT[".rt"])
        self.assertEqual(self.found(said), [(1, "is told"), (3, "that is none")])

    def test_the_pages_have_none(self):
        self.assertEqual(tool.main([]), 0)


if __name__ == "__main__":
    unittest.main()
