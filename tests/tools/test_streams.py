#!/usr/bin/env python3
"""Tests tools/gate/try-streams over a program that copies its input: it fails if the program goes on after a call that
failed, has another status or another text, or reads too much."""

import shutil
import subprocess
import sys
import tempfile
import unittest

sys.dont_write_bytecode = True
from copies import script

tool = script("gate/try-streams")

# It copies standard input. The names AGAIN, ON and STATUS make it wrong.
PROGRAM = """\
#include <unistd.h>
#ifndef STATUS
#define STATUS 2
#endif
int main(void)
{
    char octets[16];
    ssize_t got, sent = 0, more;
    while ((got = read(0, octets, sizeof octets)) > 0)
        for (sent = 0; sent < got; sent += more)
            if ((more = write(1, octets + sent, (size_t)(got - sent))) <= 0) {
#ifdef AGAIN
                if ((more = write(1, octets + sent, (size_t)(got - sent))) > 0)
                    continue;
#endif
                return STATUS;
            }
#ifdef ON
    if (got < 0)
        got = read(0, octets, 1) - 1;
#endif
    return got < 0 ? write(1, "fault: read\\n", 12) - 10 : 0;
}
"""
TEXT = b"a text of more than sixteen octets"


class Streams(unittest.TestCase):
    @classmethod
    def setUpClass(cls):
        room = tempfile.TemporaryDirectory()
        cls.addClassCleanup(room.cleanup)
        cls.room, cls.failing = room.name, tool.preloaded(tool.FAILING, room.name)

    def over(self, *words):
        """Runs of the program, compiled with these words."""
        subprocess.run(["cc", "-w", *words, "-x", "c", "-", "-o", f"{self.room}/program"], input=PROGRAM.encode(),
                       check=True)
        return tool.Runs(f"{self.room}/program", self.failing, False)

    def counts(self, runs, call=None, cases=()):
        """How many cases pass, and how many fail."""
        runs.each(call, cases)
        wrong = len(runs.wrong())
        return len(runs.ended) - wrong, wrong

    def writers(self, *words):
        """The counts of a writer of each kind that fails at each place."""
        tool.SESSION, kept = TEXT, tool.SESSION
        self.addCleanup(setattr, tool, "SESSION", kept)
        cases = [("copy", TEXT, place, writer) for place in range(len(TEXT)) for writer in tool.WRITERS]
        return self.counts(self.over(*words), tool.cut_short, cases)

    def readers(self, *words):
        """The counts of a reader of each kind that fails after each number of octets."""
        cases = [("copy", TEXT, place, TEXT[:place] + b"fault: read\n", reader) for place in range(len(TEXT))
                 for reader in tool.READERS]
        return self.counts(self.over(*words), tool.ended, cases)

    def test_writers(self):
        each = len(TEXT)
        self.assertEqual(self.writers(), (5 * each, 0))
        self.assertEqual(self.writers("-DSTATUS=0"), (0, 5 * each))
        self.assertEqual(self.writers("-DAGAIN"), (4 * each, each))

    def test_readers(self):
        each = len(TEXT)
        self.assertEqual(self.readers(), (3 * each, 0))
        self.assertEqual(self.readers("-DON"), (0, 3 * each))

    def test_a_text_and_a_status(self):
        runs = self.over()
        runs.says("copy", b"abc", 0, "abc")
        self.assertEqual(self.counts(runs), (1, 0))
        runs.says("copy", b"abc", 0, "ab")
        runs.says("copy", b"abc", 1, "abc")
        self.assertEqual(self.counts(runs), (1, 2))

    def test_a_program_that_reads_too_much(self):
        limit = tool.LARGEST + 1
        runs = self.over()
        self.assertEqual(runs.run("copy", b"0" * (limit + 9))[2], limit + 9)
        self.assertEqual(self.counts(runs, tool.too_large, [("migrate", b"0" * (limit + 9))]), (0, 1))


if __name__ == "__main__":
    if not shutil.which("cc"):
        print("test_streams: there is no command cc: left out")
        sys.exit(0)
    unittest.main()
