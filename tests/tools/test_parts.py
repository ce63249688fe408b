#!/usr/bin/env python3
"""Tests how ./test counts and reports its parts, with parts that pass, fail, stop early and leave something out."""

import pathlib
import subprocess
import tempfile
import unittest

TOP = pathlib.Path(__file__).resolve().parents[2]


def reported(script):
    """What a script over tools/common/parts.sh prints, as lines, and its status."""
    with tempfile.TemporaryDirectory() as work:
        text = f'. tools/common/parts.sh\nparts_begin "{work}"\n{script}\nreport'
        ran = subprocess.run(["sh", "-c", text], cwd=TOP, check=False, stdout=subprocess.PIPE, text=True)
    return ran.stdout.splitlines(), ran.returncode


def part(*lines, status=0):
    """The words of a part that prints lines and ends with a status."""
    said = "\\n".join(lines)
    return f"sh -c \"printf '{said}\\n'; exit {status}\""


class Counts(unittest.TestCase):
    def ends(self, script, last, status):
        lines, ended = reported(script)
        self.assertEqual((lines[-1], ended), (last, status), "\n".join(lines))
        return lines

    def test_what_passes(self):
        lines = self.ends(f"one true\nmany {part('a', '4 passed, 0 failed')}", "5 passed, 0 failed", 0)
        self.assertEqual(lines, ["a", "4 passed, 0 failed", "5 passed, 0 failed"])

    def test_one_check_fails_by_its_status(self):
        lines = self.ends(f"one {part('why', status=3)}", "0 passed, 1 failed", 1)
        self.assertRegex(lines[-3], "^---- sh -c .* ended with status 3$")
        self.assertEqual(lines[-2], "why")

    def test_counts_of_a_part_are_added(self):
        lines = self.ends(f"many {part('x is wrong', '4 passed, 2 failed', status=1)}", "4 passed, 2 failed", 1)
        self.assertIn("has 2 failed", lines[-4])
        self.assertEqual(lines[-3:-1], ["x is wrong", "4 passed, 2 failed"])

    def test_a_part_without_counts_failed_by_name(self):
        for words in (part("browser: Chrome", status=1), part("9 passed, 0 failed", "more"), part("it has 3 passed, 0 failed"),
                      part("")):
            lines = self.ends(f"many {words}", "0 passed, 1 failed", 1)
            self.assertTrue(any("stopped before its counts" in it for it in lines))

    def test_a_part_whose_counts_hide_its_status_failed(self):
        self.ends(f"many {part('2 passed, 0 failed', status=1)}", "2 passed, 1 failed", 1)
        self.ends(f"many {part('0 passed, 0 failed', status=1)}", "0 passed, 1 failed", 1)

    def test_a_part_says_whether_it_failed(self):
        one, other = part("1 passed, 0 failed"), part("0 passed, 1 failed", status=1)
        self.ends(f"one false\nmany {one} && one true", "2 passed, 1 failed", 1)
        self.ends(f"many {other} || one true", "1 passed, 1 failed", 1)

    def test_a_part_beside_the_others(self):
        script = f'f=$parts/beside\nbeside "$f" {part("a", "b", "3 passed, 0 failed", status=0)} &\nwait\njoined "$f" b 1'
        self.assertEqual(self.ends(script, "3 passed, 0 failed", 0)[:-1], ["3 passed, 0 failed"])
        script = f'f=$parts/beside\nbeside "$f" {part("a", "3 passed, 0 failed", status=2)} &\nwait\njoined "$f" name'
        self.assertIn("---- name ended with status 2", self.ends(script, "3 passed, 1 failed", 1))

    def test_what_is_left_out_is_said_at_the_end(self):
        script = f"many {part('t: c: left out: no cc', '1 passed, 0 failed')}\nleft_out page 'no node'\none true"
        lines = self.ends(script, "2 passed, 0 failed", 0)
        self.assertEqual(lines[-4:-1], ["==== left out", "t: c: left out: no cc", "test: page: left out: no node"])

    def test_the_last_lines_of_each_failure_follow(self):
        script = "\n".join(f"one {part(*(f'{name}{at}' for at in range(30)), status=1)}" for name in "ab")
        lines = self.ends(script, "0 passed, 2 failed", 1)
        after = lines[lines.index("==== failed, each with its last lines") :]
        self.assertEqual([it for it in after if it[0] == "a"], [f"a{at}" for at in range(10, 30)])
        self.assertEqual([it for it in after if it[0] == "b"], [f"b{at}" for at in range(10, 30)])


class LastLines(unittest.TestCase):
    def said(self, *lines):
        with tempfile.NamedTemporaryFile("w") as file:
            file.write("\n".join(lines) + "\n")
            file.flush()
            ran = subprocess.run([TOP / "tools/gate/last-lines", file.name], check=True, stdout=subprocess.PIPE, text=True)
        return ran.stdout.splitlines()

    FILLED = [f"more {at}" for at in range(40)]

    def test_a_crate_that_is_not_proved(self):
        own = ["== a", *(f"a {at}" for at in range(30)), "a NOT PROVED"]
        said = self.said(*own, "== b", "b proved", *self.FILLED, "0 passed, 1 failed")
        self.assertEqual(said, ["..", *own[-20:], "..", *self.FILLED[-19:], "0 passed, 1 failed"])
        said = self.said("== b", "b proved", "== a", "why", "a NOT PROVED", *self.FILLED)
        self.assertEqual(said[:4], ["..", "== a", "why", "a NOT PROVED"])

    def test_a_check_that_failed(self):
        said = self.said("ok", "c: x failed", "why", "c: y failed", *(f"y {at}" for at in range(30)), "1 passed, 2 failed")
        self.assertEqual(said, ["..", "c: x failed", "why", "c: y failed", "..", *(f"y {at}" for at in range(10, 30)),
                                "1 passed, 2 failed"])

    def test_a_short_file_is_printed_once(self):
        self.assertEqual(self.said("a", "b FAILED", "why"), ["a", "b FAILED", "why"])


if __name__ == "__main__":
    unittest.main()
