#!/usr/bin/env python3
"""Tests tools/gate/check-session: it names whatever the header of sessions decides besides what is listed. Also tests
that the pages say in the same words what is assumed of a program that makes the steps."""

import sys
import unittest

sys.dont_write_bytecode = True
from copies import TOP, script

tool = script("gate/check-session")
HEADER = (TOP / "include/scard_session.h").read_text()
STEP = "        next = scard_lent_session_step("
ASSUMED = ("A wait may end later than the session said, but never earlier, and it counts from the last octet that was "
           "sent or received. Each octet is passed once, in the order in which the octets came. A block counts as sent "
           "once its last bit is on the line.")


class Differences(unittest.TestCase):
    def differ(self, old, new):
        """The differences after a change of the header."""
        self.assertEqual(HEADER.count(old), 1, old)
        return tool.differences(HEADER.replace(old, new))

    def refuses(self, statement, *wanted):
        """Whether a statement in the loop of a terminal is named, with what isn't listed in it."""
        found = self.differ(STEP, f"        {statement}\n{STEP}")
        for one in wanted:
            self.assertIn(f"scard_session_run: the {one} isn't listed", found)

    def test_header(self):
        self.assertEqual(tool.differences(HEADER), [])

    def test_lengths(self):
        self.refuses("if (next.count < 2) { return turn; }", "comparison `next.count < 2`", "number `2`")
        self.refuses("if (next.count) { return turn; }", "condition `next.count`")
        self.refuses("while (!next.count) { }", "condition `next.count`")
        self.refuses("for (;came.count;) { }", "condition `came.count`")
        self.refuses("switch (next.count) { }", "condition `switch next.count`")
        self.refuses("first = next.count ? next : turn;", "condition `next.count`")

    def test_times(self):
        self.refuses("next.wait = session->bwt * 3;", "operator `*`", "number `3`")
        self.refuses("next.wait = session->bwt * session->cwt;", "operator `*`")
        self.refuses("next.wait = session->bwt / 4;", "operator `/`", "number `4`")
        self.refuses("next.wait += session->cwt;", "operator `+=`")
        self.refuses("next.wait++;", "operator `++`")
        self.refuses("if (next.wait > session->bwt) { }", "comparison `next.wait > session->bwt`")

    def test_octets(self):
        self.refuses("if (came.octets[1] == 0xE0) { }", "operator `[`", "number `0xE0`",
                     "comparison `came.octets[1]== 0xE0`")
        self.refuses("if (*out & came.event) { }", "operator `&`")
        self.refuses("if (*out) { }", "condition `* out`")
        self.refuses("if (memcmp(out, came.octets, came.count) == 0) { }", "call `memcmp`")
        self.refuses("came.count = session->lent.line.framer.count;", "field `framer`")
        self.refuses("if (next.kind == SCARD_SEND && came.octets[0]) { }", "operator `[`", "condition `came.octets[0]`")

    def test_calls(self):
        self.refuses("scard_lent_line_begin(&session->lent.line, NULL);", "call `scard_lent_line_begin`")
        self.refuses("session->lent.terminal.wait = 0;", "field `terminal`")

    def test_comments_and_texts_are_left_out(self):
        for statement in ("/* next.count < 2 */", 'scard_turn_name("bwt / 4");'):
            self.assertEqual(self.differ(STEP, f"        {statement}\n{STEP}"), [])

    def test_functions_of_another_form(self):
        found = self.differ("/* ---- the terminal ---- */\n", "static int least(int a) {\n    return a / 4;\n}\n")
        self.assertTrue(any("isn't read" in it for it in found), found)
        found = self.differ("/* ---- the terminal ---- */\n", "#define SCARD_LEAST(bwt) ((bwt) / 4)\n\n")
        self.assertIn("SCARD_LEAST: the operator `/` isn't listed", found)

    def test_listed_and_not_there(self):
        found = self.differ("line->receive != NULL", "true")
        self.assertIn("the header has no comparison `line->receive != NULL`, which is listed", found)


class Assumed(unittest.TestCase):
    def test_words(self):
        for page in ("README.md", "include/scard.h", "docs/C.md", "docs/WIRING.md"):
            words = " ".join(it for it in (TOP / page).read_text().split() if it != "*")
            self.assertIn(ASSUMED, words, page)


if __name__ == "__main__":
    unittest.main()
