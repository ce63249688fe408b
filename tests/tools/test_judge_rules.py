#!/usr/bin/env python3
"""Tests tools/common/t1_rules.py, the second reading of the rules of T=1, and that the file judge.next of the vectors
is its output. tools/gate/try-vectors tests that the program prints the same."""

import pathlib
import sys
import unittest

sys.dont_write_bytecode = True
TOP = pathlib.Path(__file__).resolve().parents[2]
sys.path.insert(0, str(TOP / "tools/common"))
from next_blocks import HISTORIES, IFSC, SIDES, Session, damaged, octets_of, receipt, rows, text
from t1_rules import End, Line, block_of, clauses

# the rule against a card that sends nothing, which no next block breaks
SILENCE = "no block"
# what can be due from an end
STATES = {"nothing", "message", "next", "acknowledgment", "repeat", "correction", "request", "response", "either",
          "message_or_correction"}


def broken(steps, word):
    """The rule that a block breaks after some steps, and what is due."""
    session = Session(steps)
    octets = octets_of(session.turn, word, session.address(session.turn))
    return session.line.broken(SIDES[session.turn], octets)


class Rules(unittest.TestCase):
    def test_the_file_is_what_the_rules_say(self):
        self.assertEqual((TOP / "vectors/judge.next").read_text(encoding="ascii"), text())

    def test_each_rule_of_the_page_is_broken_somewhere(self):
        clause = clauses()
        said = [line for _, steps in HISTORIES for _, lines in rows(steps, clause) for line in lines if ", due " in line]
        self.assertEqual({line.split(": ")[1].split(", due ")[0] for line in said}, clause.keys() - {SILENCE})

    def test_a_block_of_another_connection_is_not_judged(self):
        session = Session("t:I0 c:I0 t:I0~")
        for word, is_elsewhere, is_judged in (("I0", True, False), ("I0", False, True)):
            octets = octets_of("c", word, session.address("c", is_elsewhere))
            self.assertEqual(session.line.is_elsewhere("card", octets), not is_judged)

    def test_a_block_in_order(self):
        self.assertEqual(broken("t:I0 c:I0", "I1"), (None, "I-block 1"))
        self.assertEqual(broken("t:I0 c:I0", "I0"), ("sequence number", "I-block 1"))
        self.assertEqual(broken("t:I0+", "R1.1"), ("error code", "R-block 1"))

    def test_a_correction_names_the_block_that_is_expected(self):
        self.assertEqual(broken("t:I0 c:I0!", "R0.1"), (None, "R-block 0"))
        self.assertEqual(broken("t:I0 c:I0!", "R1.1"), ("sequence number", "R-block 0"))

    def test_an_i_block_within_its_own_chain_is_none_that_an_end_can_use(self):
        self.assertEqual(broken("t:I0+ c:R1 t:ABORT c:abort t:I1+? t:R0 c:I0", "R0.2"), (None, "R-block 0"))

    def test_refusals_count_as_corrections(self):
        self.assertEqual(broken("t:I0 c:I0 t:R0.2 c:I0 t:R0.2 c:I0", "R0.2")[0], None)
        self.assertEqual(broken("t:I0 c:I0 t:R0.2 c:I0 t:R0.2 c:I0 t:R0.2 c:I0", "R0.2")[0], "no I-block")

    def test_a_response_ends_a_row_of_repeats(self):
        repeated = "t:I0! c:R0.1 t:I0! c:R0.1 t:I0! c:R0.1 t:I0 "
        self.assertEqual(broken(repeated + "c:R0.2", "I0")[0], "too many repeats")
        for asked in ("c:WTX t:wtx", "c:IFS t:ifs"):
            self.assertEqual(broken(f"{repeated}{asked} c:R0.2", "I0")[0], None)
            self.assertEqual(broken(f"{repeated}{asked} c:R0.2", "RESYNCH")[0], None)

    def test_repeats_and_corrections_count_apart(self):
        corrected = "t:I0! c:R0.1 t:I0 c:I0! t:R0.1 c:I0! t:R0.1 c:I0!"
        self.assertEqual(broken(corrected, "R0.1")[0], None)
        self.assertEqual(broken(f"{corrected} t:R0.1 c:I0!", "R0.1")[0], "too many repeats")

    def test_a_hand_over_may_be_a_correction(self):
        handed = "t:I0 c:I0+ t:ABORT c:abort t:R1"
        for word in ("I1", "R1.0", "R1.1", "R1.2"):
            self.assertEqual(broken(handed, word), (None, "I-block 1 or R-block 1"))

    def test_a_block_may_be_refused_after_a_request(self):
        for asked in ("c:WTX t:wtx", "c:IFS t:ifs"):
            self.assertEqual(broken(f"t:I0 {asked}", "R0.2")[0], None)
            self.assertEqual(broken(f"t:I0 {asked}", "R0.1")[0], "no I-block")
            self.assertEqual(broken(f"t:I0+ {asked}", "R0.2")[0], None)
        self.assertEqual(broken("t:I0 c:I0 t:IFS c:ifs", "R0.2")[0], "no I-block")

    def test_each_state_of_an_end_is_in_some_history(self):
        sessions = [Session(steps) for _, steps in HISTORIES]
        owed = {(session.turn, session.line.ends[SIDES[session.turn]].owed) for session in sessions}
        self.assertTrue(all(hasattr(End, f"breaks_{state}") for state in STATES - {"nothing"}))
        self.assertEqual({state for _, state in owed}, STATES)

    def test_a_session_goes_on_only_by_what_is_permitted(self):
        line = Line(IFSC)
        with self.assertRaises(ValueError):
            line.takes("terminal", receipt(0, 0, 0), None)

    def test_damage_is_no_block(self):
        octets = receipt(0, 1, 0)
        self.assertEqual((block_of(octets).number, block_of(damaged(octets))), (1, None))


if __name__ == "__main__":
    unittest.main()
