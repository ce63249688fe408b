#!/usr/bin/env python3
"""Tests tools/gate/try-vectors over a few lines and a program that answers them: it fails if a status, a text, an
object, a line or the list of the files is wrong. It also tests tools/common/answers.py and tools/common/cases.py, and
compares the table of docs/VECTORS.md with tests/vectors.txt."""

import os
import pathlib
import re
import sys
import tempfile
import unittest

sys.dont_write_bytecode = True
from copies import TOP, printed, script

tool = script("gate/try-vectors")
from answers import are_placed, text_of
from cases import case_of, field_of, octets

# It gives each octet of standard input as its text if one read gets it.
PROGRAM = """\
#!/bin/sh
case "$*" in
'check atr 3B00') echo 'ok 2 octets' ;;
'check atr 3B00 --json') echo '{"verdict":"ok","octets":2}' ;;
'check atr 3C') echo 'refused at 0: TS'; exit 1 ;;
'check atr 3C --json') echo '{"verdict":"refused","at":0,"reason":"TS"}'; exit 1 ;;
'show hex') cat ;;
'show hex --json') sed 's/.*/{"lines":["&"]}/' ;;
*) exit 2 ;;
esac
"""
VECTORS = {
    "atr": r"""# a remark

check atr 3B00	-	0	ok 2 octets\n
check atr 3C	-	1	refused at 0: TS\n
show hex	0A\n	0	0A\n
-	-	2	-
""",
    "atr.changes": "check atr 3B00\t-\t0\tok 2 octets\\n\n" * 12,
}
LIST = "atr: 4 lines\natr.changes: 12 lines\n"
# a row of the table of the files in docs/VECTORS.md
ROW = re.compile(r"^\| (`.*?) \| ([\d, ]+) \|", re.M)


class Vectors(unittest.TestCase):
    def setUp(self):
        room = tempfile.TemporaryDirectory()
        self.addCleanup(room.cleanup)
        self.top = pathlib.Path(room.name)
        for folder in ("vectors", "tests"):
            (self.top / folder).mkdir()
        for name, text in VECTORS.items():
            (self.top / "vectors" / name).write_text(text)
        (self.top / tool.LIST).write_text(LIST)
        self.answer(PROGRAM)

    def answer(self, text):
        """Writes the program."""
        (self.top / "program").write_text(text)
        os.chmod(self.top / "program", 0o755)

    def said(self, *words):
        """The status and the lines of a run of the script."""
        status, text = printed(tool.main, [*words, str(self.top / "program")], self.top)
        return status, text.splitlines()

    def fails(self, *lines):
        """Whether a run fails with these lines."""
        self.assertEqual(self.said(), (1, [*(f"try-vectors: {it}" for it in lines[:-1]), lines[-1]]))

    def test_right_answers(self):
        self.assertEqual(self.said(), (0, ["16 passed, 0 failed"]))
        self.assertEqual(self.said("--few"), (0, ["6 passed, 0 failed"]))

    def test_a_wrong_status(self):
        self.answer(PROGRAM.replace("TS'; exit 1", "TS'; exit 0"))
        self.fails(r"atr: line 4 gives status 0 and the text refused at 0: TS\n", "15 passed, 1 failed")

    def test_a_wrong_text(self):
        self.answer(PROGRAM.replace("echo 'ok 2 octets'", "printf 'ok 2 octets'"))
        status, lines = self.said()
        self.assertEqual((status, lines[0], lines[-1]), (
            1, "try-vectors: atr: line 3 gives status 0 and the text ok 2 octets", "3 passed, 13 failed"))
        self.assertEqual(len(lines), tool.FIRST + 1)

    def test_a_wrong_object(self):
        for old, new in (('"octets":2', '"octets":3'), ('{"verdict":"ok","octets":2}', "{"), ('"octets":2}', '"at":2}'),
                         ('{"verdict":"ok","octets":2}', "[]")):
            self.answer(PROGRAM.replace(old, new))
            status, lines = self.said()
            self.assertEqual((status, lines[-1]), (1, "15 passed, 1 failed"), new)
            self.assertIn("atr: line 3 gives with --json status 0 and the text ", lines[0])

    def test_a_wrong_status_beside_an_object(self):
        self.answer(PROGRAM.replace("""TS"}'; exit 1""", """TS"}'"""))
        self.assertIn("atr: line 4 gives with --json status 0 and the text ", self.said()[1][0])

    def test_a_program_that_reads_once(self):
        self.answer(PROGRAM.replace("cat ;;", "dd bs=8192 count=1 2>/dev/null ;;"))
        self.fails("atr: line 5 gives in pieces status 0 and the text 0", "15 passed, 1 failed")

    def test_a_program_that_is_not_there(self):
        (self.top / "program").unlink()
        self.assertEqual(self.said()[1][-1], "0 passed, 16 failed")

    def test_a_line_that_is_not_of_the_format(self):
        with open(self.top / "vectors/atr", "a", encoding="ascii") as file:
            file.write("check atr 3B00\t-\t0\n")
        (self.top / tool.LIST).write_text(LIST.replace("4", "5"))
        self.fails("atr: line 7 isn't of the format", "16 passed, 1 failed")

    def test_another_number_of_lines(self):
        (self.top / tool.LIST).write_text(LIST.replace("12", "13"))
        self.fails("atr.changes: 12 lines, and 13 in tests/vectors.txt", "16 passed, 1 failed")

    def test_a_file_that_is_not_listed(self):
        (self.top / "vectors/more").write_text("")
        self.fails("more: this file isn't in tests/vectors.txt", "16 passed, 1 failed")

    def test_a_file_that_is_not_there(self):
        (self.top / "vectors/atr").unlink()
        self.fails("atr: 0 lines, and 4 in tests/vectors.txt", "12 passed, 1 failed")


class Format(unittest.TestCase):
    def test_the_fields_of_a_line(self):
        self.assertEqual(case_of(rb"a \x5C\e-	x\s\t\n\xFF	2	-"), ([b"a", b"\\-"], b"x \t\n\xff", 2, b""))
        self.assertEqual(case_of(b"a \\e\t-\t0\t\\x2D")[:2], ([b"a", b""], b""))

    def test_a_field_stands_for_its_octets(self):
        self.assertEqual(field_of(b"a b\\\n\t\x00\xff"), r"a b\x5C\n\t\x00\xFF")
        self.assertEqual(octets(field_of(bytes(range(256))).encode()), bytes(range(256)))
        self.assertEqual(field_of(b""), "-")

    def test_lines_that_are_not_of_the_format(self):
        for line in (b"a\t-\t0", b"a\t-\t0\t-\t-", b"a\t-\t3\t-", b"a\t-\t\t-", b"a\\\t-\t0\t-", b"a\t\\x5c\t0\t-",
                     b"a\t-\t0\t\\q", b"\\xFF\t-\t0\t-", b"a\t-\t0\t\xc3\xa4"):
            with self.assertRaises(ValueError, msg=line):
                case_of(line)


class Answers(unittest.TestCase):
    def test_values(self):
        block = {"verdict": "ok", "octets": 5, "nad": "00", "pcb": {"kind": "I", "number": 0, "more": 1}, "inf": ""}
        self.assertEqual(text_of(block), "nad 00\npcb I number 0 more 1\ninf none\n")
        forest = {"verdict": "ok", "count": 2, "objects": [
            {"tag": "70", "length": 2, "value": None}, {"depth": 2, "tag": "5A", "length": 0, "value": ""}]}
        self.assertEqual(text_of(forest), "objects 2\n70 2 constructed\n  5A 0 none\n")
        noted = {"verdict": "ok", "status": "9000", "class": "normal", "notes": [
            {"line": "status 9000 normal", "note": "ended"}]}
        self.assertEqual(text_of(noted), "status 9000 normal  # ended\n")
        command = {"verdict": "ok", "case": 2, "length": "short", "le": None, "blocks": [1, 2]}
        self.assertEqual(text_of(command), "blocks 1,2\ncase 2 short\nle none\n")

    def test_places(self):
        chain = {"verdict": "ok", "octets": 9, "blocks": 2, "message": "AB", "places": [[0, 9], [3, 3, 7, 8]]}
        self.assertTrue(are_placed(chain))
        for wrong in ([[0, 9]], [[0, 9], []], [[0, 9], [3, 3, 7]], [[0, 10], [3, 4]], [[0, 9], [4, 3]]):
            self.assertFalse(are_placed({**chain, "places": wrong}), wrong)
        checked = {"verdict": "ok", "octets": 9}
        self.assertTrue(are_placed(checked))
        self.assertFalse(are_placed({**checked, "places": []}))

    def test_verdicts(self):
        self.assertEqual(text_of({"verdict": "ok", "lines": 3}), "ok 3 lines\n")
        self.assertEqual(text_of({"verdict": "ok", "lines": ["a", "b"]}), "a\nb\n")
        self.assertEqual(text_of({"verdict": "fault", "line": 2, "fault": "a"}), "fault: line 2: a\n")
        ends = {"terminal": {"verdict": "ok", "lines": 3}, "card": {"verdict": "differs", "line": 2, "gives": "c 00"}}
        self.assertEqual(text_of(ends), "terminal: ok 3 lines\ncard: line 2: engine gives c 00\n")

    def test_judgments(self):
        answer = {"verdict": "ok", "blocks": 1, "told": []}
        self.assertEqual(text_of(answer), "ok 1 block\n")
        answer = {"verdict": "unsure", "blocks": 2, "unseen": 1, "card_damaged": 3, "told": []}
        self.assertEqual(text_of(answer), "unsure 2 blocks, unseen 1, damaged terminal 0 card 3\n")
        answer = {"verdict": "refused", "blocks": 2, "deviations": 1, "terminal": 0, "card": 1, "unseen": 0, "told": [
            {"block": 2, "end": "card", "kind": "broken", "rule": "a rule", "due": "nothing", "clause": "11.6"}]}
        said = "block 2 card: a rule, due nothing  (11.6)\n2 blocks, 1 deviation: terminal 0, card 1, unseen 0\n"
        self.assertEqual(text_of(answer), said)


class Page(unittest.TestCase):
    def test_the_page_has_the_numbers_of_lines(self):
        counts = {name: count for name, count, _ in map(str.split, (TOP / tool.LIST).read_text().splitlines())}
        counts = {name.rstrip(":"): int(count) for name, count in counts.items()}
        named = {}
        for names, numbers in ROW.findall((TOP / "docs/VECTORS.md").read_text()):
            numbers = [int(it.replace(",", "")) for it in numbers.split(", ")]
            named.update(zip(re.findall(r"`([\w.]+)`", names), numbers))
        changes = [it for it in counts if it.endswith(".changes") and it not in named]
        counts["KIND.changes"] = sum(counts.pop(it) for it in changes)
        self.assertEqual(named, counts)


if __name__ == "__main__":
    unittest.main()
