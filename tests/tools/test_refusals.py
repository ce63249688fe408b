#!/usr/bin/env python3
"""Tests tools/common/refusals.py: lines of the checker about an edit, and the verdict on the edit."""

import pathlib
import sys
import unittest

sys.dont_write_bytecode = True
sys.path.insert(0, str(pathlib.Path(__file__).resolve().parents[2] / "tools/common"))
from edits import Function
from refusals import only_name, verdict_on

WHOLE = Function("src/stage.rt", "whole", "", 137, 152)
# A function of an impl that isn't in the file of its type.
FAULT = Function("src/reason.rt", "fault_of_len", "Pcb", 59, 75)
IN_WHOLE = "note: src/stage.rt:149:9: it is not proved that what the function ensures holds when it returns (`returns`)"
GONE_GOAL = ("./proofs/stage/whole/Answers.antt:6:43: error: `returns-then-sum-ne0`: `goal.returns-then-sum-ne0`: "
             "module `Rattle.block_core.proofs.stage.whole.Goals` has no `returns-then-sum-ne0` that can be named")
GONE_FIELD = ("./proofs/stage/whole/Answers.antt:18:63: error: `returns-clause-on`: record `In-After-unwrap-block` has "
              "no field `if-sum-ne0` (nearest: .if-sum-eq255)")
GONE_LEMMA = ("./proofs/stage/whole/Answers.antt:1:5: error: `Rattle.block_core.proofs.Stages` has declarations that "
              "were not admitted, so this file is not accepted")
OTHER_VALUE = ("./proofs/stage/whole/Answers.antt:6:5: error: `returns-clause-on`: computed as far as they go, the two "
               "types differ only where one has `c.index + 1` (expected) and the other has `c.index` (found)")
SEARCHED = ("fn block_core::pcb::Pcb::fault_of_len: no proof: expected answers in "
            "./proofs/pcb/Pcb/fault_of_len/Answers.antt; `search` did not prove `returns-in-Info-clause-none`")
ENDS = "only=2 proved=1"


class Refused(unittest.TestCase):
    """An edit is refused if a goal of its function isn't proved."""

    def refused(self, function, *lines):
        verdict = verdict_on([function], [*lines, ENDS])
        self.assertTrue(verdict.is_refused, verdict.said)
        return verdict.said

    def test_a_goal_without_an_answer(self):
        self.assertEqual(self.refused(WHOLE, "fn block_core::stage::other: proved", IN_WHOLE), IN_WHOLE)

    def test_an_answer_that_is_not_one_of_its_goal(self):
        self.assertEqual(self.refused(WHOLE, OTHER_VALUE), OTHER_VALUE)

    def test_an_answer_that_is_not_one_beside_one_that_names_what_is_gone(self):
        self.assertEqual(self.refused(WHOLE, GONE_FIELD, OTHER_VALUE), OTHER_VALUE)

    def test_a_goal_of_an_impl_in_another_file(self):
        self.assertEqual(self.refused(FAULT, SEARCHED), SEARCHED)

    def test_a_function_that_calls_itself(self):
        self.refused(WHOLE, OTHER_VALUE.replace("stage/whole", "stage/+whole"))

    def test_an_edit_outside_of_any_function(self):
        verdict = verdict_on([None], [IN_WHOLE, "logic=not-proved"])
        self.assertTrue(verdict.is_refused, verdict.said)


class NotRefused(unittest.TestCase):
    """If no goal of its function is named as not proved, an edit isn't refused, and the script says why."""

    def says(self, why, *lines):
        verdict = verdict_on([WHOLE], list(lines))
        self.assertFalse(verdict.is_refused, verdict.said)
        self.assertIn(why, verdict.said)

    def test_a_goal_that_is_gone(self):
        self.says("names what is gone", GONE_GOAL, ENDS)

    def test_a_goal_that_is_gone_and_is_there_under_another_name(self):
        self.says("names what is gone", GONE_GOAL, GONE_FIELD, IN_WHOLE, ENDS)

    def test_a_field_that_is_gone_by_a_line_that_goes_on(self):
        head = "./proofs/stage/whole/Answers.antt:33:65: error: `returns-clause-on`: record `In-1` (nearest: .in-Err)"
        self.says("names what is gone", head, "  has no field `stop-in-Err`", ENDS)

    def test_a_lemma_that_is_gone(self):
        self.says("names what is gone", GONE_LEMMA, ENDS)

    def test_a_text_that_is_not_read(self):
        for said in ("expected `;`", "`returns`: `sum` is not in scope", "`on`: an operand is missing"):
            self.says("can't read", f"src/stage.rt:149:9: error: {said}", IN_WHOLE, ENDS)

    def test_a_check_that_did_not_end(self):
        self.says("did not reach the prover", "error[E0308]: mismatched types")
        self.says("did not reach the prover")

    def test_a_function_that_is_proved(self):
        self.says("still proved", "fn block_core::stage::whole: proved", "only=1 proved=1")
        self.says("still proved", "logic=proved functions=9")

    def test_a_goal_of_another_function(self):
        for other in (SEARCHED, IN_WHOLE.replace(":149:", ":154:"), IN_WHOLE.replace("stage.rt", "reason.rt"),
                      OTHER_VALUE.replace("whole", "whole_block")):
            self.says("no goal of its function", other, ENDS)


class Names(unittest.TestCase):
    """The name of a function for the checker's word --only."""

    def test_names(self):
        self.assertEqual(only_name(WHOLE), "stage::whole")
        self.assertEqual(only_name(FAULT), "Pcb::fault_of_len")
        self.assertEqual(only_name(Function("src/lib.rt", "lrc", "", 1, 2)), "lrc")


if __name__ == "__main__":
    unittest.main()
