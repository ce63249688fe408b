#!/usr/bin/env python3
"""Tests the schema of the program's JSON objects, docs/answers.schema.json: each object of the vectors fits it, and
objects with mistakes don't. Without Python's package jsonschema it tests only that the schema is JSON."""

import copy
import json
import pathlib
import re
import sys
import unittest

TOP = pathlib.Path(__file__).resolve().parents[2]
SCHEMA = json.loads((TOP / "docs" / "answers.schema.json").read_text(encoding="utf-8"))
try:
    import jsonschema
except ImportError:
    jsonschema = None
    print("test_schema: Python's package jsonschema isn't installed, so no object is compared", file=sys.stderr)


def answers():
    """The objects of the vectors: each line of a text of words with --json."""
    for path in sorted((TOP / "vectors").glob("*")):
        for line in path.read_text(encoding="ascii").split("\n"):
            fields = line.split("\t")
            if line.startswith("#") or len(fields) != 4 or "--json" not in fields[0].split(" "):
                continue
            for one in fields[3].split("\\n"):
                if one.startswith("{"):
                    text = re.sub(r"\\x(..)", lambda found: chr(int(found[1], 16)), one.replace("\\s", " "))
                    yield fields[0], json.loads(text)


@unittest.skipUnless(jsonschema, "no package jsonschema")
class Schema(unittest.TestCase):
    def setUp(self):
        self.validator = jsonschema.Draft202012Validator(SCHEMA)

    def test_each_object_of_the_vectors_fits(self):
        found = list(answers())
        self.assertGreater(len(found), 60)
        for words, answer in found:
            errors = [error.message for error in self.validator.iter_errors(answer)]
            self.assertEqual((words, errors[:1]), (words, []))

    def test_mistakes_do_not_fit(self):
        block = {
            "version": 1, "kind": "block", "verdict": "ok", "octets": 9, "nad": "00",
            "pcb": {"kind": "I", "number": 0, "more": 0}, "inf": "00A4040000", "lrc": "A5",
            "places": [[0, 1], [1, 2], [3, 8], [8, 9]],
        }
        self.assertTrue(self.validator.is_valid(block))
        for name, value in (
            ("version", 2), ("kind", "atr"), ("verdict", "refused"), ("octets", "9"), ("nad", "0"), ("lrc", None),
            ("pcb", {"kind": "I", "number": 0}), ("inf", "00a4"), ("places", [[0]]), ("places", []), ("other", []),
        ):
            wrong = copy.deepcopy(block)
            wrong[name] = value
            self.assertFalse(self.validator.is_valid(wrong), name)
        for name in block:
            wrong = copy.deepcopy(block)
            del wrong[name]
            self.assertFalse(self.validator.is_valid(wrong), name)

    def test_mistakes_in_a_judgment_do_not_fit(self):
        found = {
            "kind": "deviation", "block": 2, "end": "card", "rule": "no I-block", "due": "I-block 0",
            "clause": "11.6.2.3 rule 2.1", "line": 2, "octets": "00900090",
        }
        judged = {
            "version": 1, "kind": "judge", "verdict": "deviates", "atr": "3B00", "program": "scard 1.5.0",
            "blocks": 2, "deviations": 1, "terminal": 0, "card": 1, "unseen": 0, "told": [found],
        }
        self.assertTrue(self.validator.is_valid(judged))
        for name, value in (
            ("verdict", "ok"), ("verdict", "unsure"), ("deviations", 0), ("late", 0), ("card_damaged", 0), ("told", {}),
            ("atr", "3"), ("program", "scard"), ("other", 1),
        ):
            self.assertFalse(self.validator.is_valid({**judged, name: value}), name)
        unsure = {**judged, "verdict": "unsure", "unseen": 1, "told": []}
        for name in ("deviations", "terminal", "card"):
            del unsure[name]
        self.assertTrue(self.validator.is_valid(unsure))
        self.assertFalse(self.validator.is_valid({**unsure, "verdict": "ok"}))
        del unsure["unseen"]
        self.assertFalse(self.validator.is_valid(unsure))
        self.assertTrue(self.validator.is_valid({**unsure, "not_judged": 1}))
        self.assertFalse(self.validator.is_valid({**unsure, "not_judged": 1, "verdict": "ok"}))
        for name, value in (
            ("kind", "late"), ("block", 0), ("end", "reader"), ("rule", "no block at all"), ("due", "I-block 2"),
            ("clause", "2.1"), ("before", 1), ("line", 0), ("octets", "0"), ("moment", -1),
        ):
            self.assertFalse(self.validator.is_valid({**judged, "told": [{**found, name: value}]}), name)
        for name in found:
            wrong = {member: value for member, value in found.items() if member != name}
            self.assertFalse(self.validator.is_valid({**judged, "told": [wrong]}), name)


class Names(unittest.TestCase):
    def test_the_schema_has_the_names_of_all_rules_and_states(self):
        for name, page in (("rule", "Rules"), ("state", "States")):
            text = (TOP / "crates" / "judge_core" / "specs" / f"{page}.antt").read_text(encoding="utf-8")
            names = re.findall(rf'^{name}_name {name}\.\w+ = codes "(.*)"$', text, re.MULTILINE)
            self.assertEqual(SCHEMA["$defs"][name]["enum"], names)


if __name__ == "__main__":
    unittest.main()
