#!/usr/bin/env python3
"""Tests tools/gate/facts: it names each list that differs from its source, and what the list lacks."""

import sys
import unittest

sys.dont_write_bytecode = True
from copies import TOP, OfTool, script

tool = script("gate/facts")
# a name of each fact, and the file of each list that repeats it
REPEATED = [
    (tool.RULE, '"no repeat"', '"none again"', [tool.JUDGE, tool.SCHEMA]),
    (tool.RULE, '"11.3.4"', '"11.3.5"', [tool.JUDGE]),
    (tool.RULE, "    Unasked,\n", "    Unwanted,\n", [tool.HEADER, tool.RUST_JUDGE]),
    (tool.RULE, "    Unasked,\n", "    Unasked,\n    Unwanted,\n", [tool.COUNTS, tool.COUNTED]),
    (tool.STATE, '"any block"', '"all"', [tool.JUDGE, tool.SCHEMA, tool.STATES_IN_C]),
    (tool.HEADER, "SCARD_OWED_ANY_BLOCK = 13", "SCARD_OWED_ALL = 13", [tool.RUST_JUDGE, tool.STATES_IN_C]),
    ("crates/program_octets/src/block.rt", '"WTX"', '"WAIT"',
     [tool.SAYING, tool.SCHEMA, tool.HEADER, tool.SECOND, tool.RUST_BLOCK]),
    ("crates/program_words/src/words.rt", '"dol" => Ok', '"list" => Ok',
     [tool.OBJECT, tool.SCHEMA, tool.ANSWERS, tool.PROGRAM, tool.BASH, tool.PAGE, *tool.KINDS_OF]),
    (tool.FORMS, '"draw", &DRAW', '"paint", &DRAW', [tool.BASH, tool.WRONG, tool.TRIED, tool.SCHEMA, tool.PAGE]),
    (tool.FORM, '"dump" => Ok', '"lump" => Ok',
     [tool.BASH, tool.PROGRAM, tool.WRONG, tool.BUILT, f"{tool.PAGE}, form", f"{tool.PAGE}, tidied"]),
    (tool.WORD, '"given-up"', '"ended"', [tool.RECORDED]),
    (tool.FAULT, '{ .. } => "Falls"', '{ .. } => "Sinks"', [tool.RECORDED]),
    (tool.UNFIT, '=> "Midway"', '=> "Within"', [tool.RECORDED]),
    (tool.UNFIT, '=> "Silence"', '=> "Quiet"', [tool.RECORDED]),
    (tool.ATR_FAULT, '=> "BadAtr"', '=> "NoAtr"', [f"{tool.RECORDED}, replay", f"{tool.RECORDED}, simulate"]),
    (tool.PARAM_FAULT, '=> "Crc"', '=> "Sum"',
     [f"{tool.RECORDED}, replay", f"{tool.RECORDED}, simulate", tool.PROTOCOL]),
    (tool.WAITS, "(state More", "(state Rest", [tool.SESSION]),
    (tool.WAITS, "(state Host", "(state Owed", [tool.SESSION]),
    (tool.CAPTURES, '"usbmon": "a', '"usbcap": "a', [tool.BENCH]),
    (tool.SCENARIO, '"wtx", "chained', '"time", "chained', [tool.BENCH]),
    (tool.PLAN, '"extend"}', '"lengthen"}', [tool.PCSC]),
    (tool.PLAN, 'strcmp(word, "seed")', 'strcmp(word, "start")', [tool.PCSC]),
    (tool.HEADER, "SCARD_EVENT_SILENT = 3", "SCARD_EVENT_STILL = 3", [tool.WIRING]),
    (tool.HEADER, "SCARD_SESSION_USED_UP = 65", "SCARD_SESSION_SPENT = 65", [tool.LIBRARY, tool.WIRING]),
    (tool.STEPS, "mostBlocks = 0,", "blocks = 0,", [tool.JAVASCRIPT]),
    (tool.ROOMS, "commandRoom = LONGEST_COMMAND", "room = LONGEST_COMMAND", [tool.JAVASCRIPT]),
    (tool.IN_PYTHON, "class InUse(", "class Busy(", [tool.PYTHON, tool.FRONT_PYTHON]),
    (tool.IN_JAVASCRIPT, "class InUse extends", "class Busy extends",
     [tool.JAVASCRIPT, tool.FRONT_JAVASCRIPT, tool.TYPES]),
    ("python/src/codecs.c", "FUNCTION(lrc)", "FUNCTION(sum)", [tool.STUB]),
]
PAGES = {tool.JUDGE, tool.ANSWERS, tool.PROGRAM, tool.RECORDED, tool.PROTOCOL, tool.SESSION, tool.BENCH, tool.PCSC,
         tool.LIBRARY, tool.WIRING, tool.PYTHON, tool.JAVASCRIPT}
MODULE = [str(it.relative_to(TOP)) for it in TOP.glob("python/src/*.c")]
OTHERS = (tool.STATE, tool.PCB, tool.KIND, tool.FORM, tool.SAYING, tool.OBJECT, tool.SCHEMA, tool.HEADER, tool.BASH,
          tool.SECOND, tool.WRONG, tool.BUILT, tool.PAGE, tool.RUST_BLOCK, tool.RUST_JUDGE, tool.STATES_IN_C,
          tool.COUNTS, tool.COUNTED, tool.TRIED, tool.FRONT_PYTHON, tool.FRONT_JAVASCRIPT, tool.TYPES, tool.STUB)
FILES = sorted({*OTHERS, *tool.KINDS_OF, *MODULE, *PAGES, *(it[0] for it in REPEATED)})


class Facts(OfTool):
    FILES, TOOL = FILES, tool

    def test_the_lists_of_the_repository_are_as_their_sources(self):
        self.assertEqual(self.said()[0], 0)

    def test_each_list_without_a_new_name_is_named(self):
        for source, old, new, lists in REPEATED:
            self.change(source, old, new)
            status, said = self.said()
            self.assertEqual(status, 1)
            for file in lists:
                self.assertRegex(said, rf"facts: .*: {file}.* lacks \[", (source, old))
            self.restore(source)

    def test_another_order_is_named(self):
        self.change(tool.SCHEMA, '"RESYNCH", "IFS"', '"IFS", "RESYNCH"')
        self.assertEqual(self.said()[0], 1)
        self.assertIn("has another order", self.said()[1])


if __name__ == "__main__":
    unittest.main()
