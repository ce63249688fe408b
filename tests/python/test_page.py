"""Runs the examples of docs/PYTHON.md and python/README.md, and the programs of examples/python."""
import doctest
import os
import pathlib
import subprocess
import sys
import unittest

import scard

TOP = pathlib.Path(__file__).resolve().parents[2]
EXAMPLES = TOP / "examples/python"
PATH = str(pathlib.Path(scard.__file__).parents[1])
TRACE = "t 00000500A4040000A5\nc 000002900092\nt 00000500A4040000A5\nc 00920092\n"


def ran(name, *words, given=""):
    """What an example prints, and its status."""
    done = subprocess.run([sys.executable, "-B", str(EXAMPLES / name), *words], input=given, text=True, check=False,
                          stdout=subprocess.PIPE, stderr=subprocess.STDOUT,
                          env={**os.environ, "PYTHONPATH": PATH})
    return done.stdout, done.returncode


class Pages(unittest.TestCase):
    def test_examples(self):
        for page, least in (("docs/PYTHON.md", 10), ("python/README.md", 1)):
            failed, tried = doctest.testfile(str(TOP / page), module_relative=False)
            self.assertEqual(failed, 0, page)
            self.assertGreater(tried, least, page)


class Programs(unittest.TestCase):
    def test_judge_trace(self):
        said, status = ran("judge_trace.py", "3B808131204555", given=TRACE)
        self.assertEqual(said, "block 3 terminal: sequence number, due NEW_MESSAGE 1"
                               "  (11.6.2.3 rule 2.1, 11.6.3.2 rule 7.1)\n4 blocks, 1 deviation\n")
        self.assertEqual(status, 1)
        self.assertEqual(ran("judge_trace.py", "3B808131204555", given=TRACE[:36]), ("2 blocks, 0 deviations\n", 0))

    def test_objects(self):
        said, status = ran("objects.py", "6F07A5059F650201025F2001AA")
        self.assertEqual(said, "  0  6F\n  2    A5\n  4      9F65  0102\n  9  5F20  AA\n")
        self.assertEqual(status, 0)
        self.assertEqual(ran("objects.py", "6F03500241"), ("refused at 3: Overrun\n", 1))


    def test_two_cards(self):
        self.assertEqual(ran("two_cards.py", "3"), ("6 exchanges, 6 right\n", 0))

    def test_terminal_on_a_pseudo_terminal(self):
        self.assertEqual(ran("terminal_pty.py", "00A4040000"), ("00A40400009000\n", 0))


if __name__ == "__main__":
    unittest.main(verbosity=0)
