#!/usr/bin/env python3
"""Tests the sessions of tools/gate/try-legal by the second reading of the rules, tools/common/t1_rules.py: it permits
each block of the legal ones, and the wrong step of each kind breaks a rule of that kind. No program runs here."""

import collections
import random
import re
import sys
import unittest

sys.dont_write_bytecode = True
from copies import TOP, script

from features import FEATURES
from illegal import changed
from kinds import KINDS, UNSEEN
from t1_rules import Line, clauses
from tapped import BUSY, QUIET, RESET, WAYS, trace
from tapped import Line as Tapped

tool = script("gate/try-legal")
IFSC = 32
SIDES = {"t": "terminal", "c": "card"}
# the rules about times, which the table of docs/JUDGE.md hasn't
TIMES = {"late", "early"}
SESSIONS, TRIES = 150, 3


def taken(line, rows):
    """A line after rows of a session. Raises ValueError if a block breaks a rule."""
    heard = None
    for row in rows:
        if row.word == RESET:
            line.reset()
        elif row.word == QUIET and heard is not None:
            line.ends["terminal"].hears(None)
        elif row.is_block():
            line.takes(SIDES[row.word], row.octets, row.came)
        heard = row.came if row.is_block() else None
    return line


class Legal(unittest.TestCase):
    def test_the_second_reading_permits_each_block(self):
        for number in range(SESSIONS):
            rows = Tapped(random.Random(number), BUSY).runs(40)
            taken(Line(IFSC), rows)

    def test_traces_are_the_same_in_each_run(self):
        for name in WAYS:
            first, again = (trace(random.Random(7), name, collections.Counter()) for _ in range(2))
            self.assertEqual(first, again)

    def test_what_is_counted_comes(self):
        made = collections.Counter()
        for name in WAYS:
            for number in range(16):
                trace(random.Random(f"{name} {number}"), name, made)
        self.assertEqual([way for ways in FEATURES.values() for way in ways if not made[way]], [])


class Wrong(unittest.TestCase):
    def lines(self, kind, is_told=True):
        """Some sessions that end by a kind of wrong step."""
        found = [changed(random.Random(f"{kind.name} {number}"), kind, is_told) for number in range(TRIES)]
        return [line for line in found if line is not None]

    def test_there_are_enough_kinds_and_each_comes(self):
        self.assertGreaterEqual(len(KINDS), 60)
        for kind in [*KINDS.values(), *UNSEEN.values()]:
            self.assertTrue(self.lines(kind), kind.name)

    def test_each_rule_of_the_page_has_a_kind(self):
        self.assertEqual({rule for kind in KINDS.values() for rule in kind.rules} - TIMES, clauses().keys())

    def test_a_wrong_step_breaks_a_rule_of_its_kind(self):
        """By the second reading, which knows no times, and names no silence. Up to the wrong step it permits all."""
        for kind in KINDS.values():
            for line in self.lines(kind):
                last = line.rows[-1]
                before = taken(Line(IFSC), line.rows[:-1])
                if last.word == QUIET or kind.is_timed:
                    continue
                self.assertIn(before.broken(SIDES[last.word], last.octets)[0], kind.rules, (kind.name, line.rows))

    def test_a_silence_is_that_of_a_card_that_got_a_block(self):
        for kind in (it for it in KINDS.values() if it.rules == ("no block",)):
            for line in self.lines(kind):
                block = line.rows[-2]
                self.assertEqual((block.word, block.came), ("t", block.octets), kind.name)

    def test_nobody_is_named_for_what_no_trace_shows(self):
        self.assertEqual(KINDS.keys() & UNSEEN.keys(), set())
        named = "block 3 card: sequence number, due I-block 0  (11.6.2.3 rule 2.1)"
        for kind in UNSEEN.values():
            self.assertTrue(kind.hidden and not kind.rules, kind.name)
            for line in self.lines(kind):
                for is_told in (True, False):
                    self.assertTrue(tool.is_named(line, ["ok 3 blocks"], is_told))
                    self.assertFalse(tool.is_named(line, [named, "3 blocks, 1 deviation"], is_told), kind.name)

    def test_a_kind_has_to_be_named_at_its_block_with_its_rule(self):
        line = self.lines(KINDS["RESYNCH of a card"])[0]
        blocks = sum(row.is_block() for row in line.rows)
        said = [f"block {blocks} card: request of the other end, due I-block 0  (CLAUSE)", "deviations"]
        self.assertTrue(tool.is_named(line, said, True))
        for old, new in ((f"block {blocks}", f"block {blocks + 1}"), ("card", "terminal"), ("request of", "request")):
            self.assertFalse(tool.is_named(line, [said[0].replace(old, new), said[1]], True))
        self.assertFalse(tool.is_named(line, [said[0], *said], True))
        self.assertFalse(tool.is_named(line, ["ok"], True))

    def test_a_wrong_check_octet_need_not_be_named_if_nobody_says_how_it_arrived(self):
        line = self.lines(KINDS["wrong check octet"])[0]
        self.assertEqual([tool.is_named(line, ["ok"], is_told) for is_told in (True, False)], [False, True])


class Page(unittest.TestCase):
    def test_the_page_has_the_number_of_kinds(self):
        page = (TOP / "docs/JUDGE.md").read_text(encoding="utf-8")
        self.assertEqual(re.findall(r"of\s+(\d+)\s+kinds", page), [str(len(KINDS))])


if __name__ == "__main__":
    unittest.main()
