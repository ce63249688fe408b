#!/usr/bin/env python3
"""Tests that each script of the repository refuses a word that begins with a dash and isn't one of its options: it
prints its usage, which begins with its path, and ends with status 2, before it does anything. ./scard is left out,
since it passes its words to the program."""

import pathlib
import re
import subprocess
import tempfile
import unittest

TOP = pathlib.Path(__file__).resolve().parents[2]


def scripts():
    """The scripts that people call: the executable files at the top and in the folders of tools. A file with a suffix
    is part of another script."""
    files = [*sorted(TOP.iterdir()), *sorted((TOP / "tools").glob("*/*"))]
    return [it for it in files if it.is_file() and it.stat().st_mode & 0o100 and not it.suffix and it.name != "scard"]


class Options(unittest.TestCase):
    def refused(self, script, word):
        """What a script prints about a word. It has to refuse it, in an empty folder that it leaves empty."""
        with tempfile.TemporaryDirectory() as room:
            how = {"stdin": subprocess.DEVNULL, "stdout": subprocess.PIPE, "stderr": subprocess.PIPE, "text": True}
            ran = subprocess.run([script, word], cwd=room, check=False, timeout=60, **how)
            self.assertEqual(list(pathlib.Path(room).iterdir()), [])
        self.assertEqual((ran.returncode, ran.stdout), (2, ""), ran.stderr)
        return ran.stderr

    def test_each_script_refuses_a_word_that_is_no_option(self):
        for script in scripts():
            path = script.relative_to(TOP)
            called = path.as_posix() if path.parts[1:] else f"./{path}"
            for word in ("--help", "-x"):
                with self.subTest(script=called, word=word):
                    self.assertRegex(self.refused(script, word), rf"\Ausage: {re.escape(called)}\s")


if __name__ == "__main__":
    unittest.main()
