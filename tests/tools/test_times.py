#!/usr/bin/env python3
"""Tests tools/release/program-times: it measures commands and calls within node, and finds an output that differs."""

import shutil
import sys
import unittest

sys.dont_write_bytecode = True
from copies import TOP, printed, script

tool = script("release/program-times")
NODE = f"node {TOP}/dist/scard.mjs"
BLOCK = ("one block", ["check", "block", "00000500A4040000A5"], b"", False)
LINES = ("lines", ["check", "atr", "--stdin", "lines"], b"3B808131204555\n" * 9, True)


@unittest.skipUnless(shutil.which("node"), "there is no command node")
class Times(unittest.TestCase):
    def setUp(self):
        turns, tool.TURNS = tool.TURNS, 1
        self.addCleanup(setattr, tool, "TURNS", turns)

    def rows(self, work, commands, module):
        """Whether all outputs are the same, and the last words of each row."""
        is_same, text = printed(tool.measured, work, commands, module)
        self.assertEqual(text.count("of the memory"), len(text.splitlines()))
        return is_same, [line.partition("of the memory  ")[2] for line in text.splitlines()]

    def test_a_command_and_a_call_give_the_same(self):
        module = TOP / "dist/scard.wasm"
        self.assertEqual(self.rows(BLOCK, [NODE], module), (True, [NODE, "a call within node"]))
        # a long run has no row for calls
        self.assertEqual(self.rows(LINES, [NODE], module), (True, [NODE]))

    def test_an_output_or_a_status_that_differs(self):
        for other in ("echo", "sh -c 'echo ok 9 octets; exit 1'"):
            self.assertEqual(self.rows(BLOCK, [NODE, other], None), (False, [NODE, other]))

    def test_calls_are_made_from_the_beginning_of_the_input(self):
        command = ["node", tool.WITHIN, tool.RUNNER, TOP / "dist/scard.wasm", 3, *LINES[1]]
        with open(__file__, "rb") as given:
            took, room = tool.call_took(command, given)
        self.assertGreater(took, 0)
        # the memory has whole pages
        self.assertEqual(room % 65536, 0)

    def test_a_share_of_nothing(self):
        self.assertEqual([tool.share(3, 2), tool.share(3, 0)], ["  1.50", "     -"])


if __name__ == "__main__":
    unittest.main()
