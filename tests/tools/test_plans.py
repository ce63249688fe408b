#!/usr/bin/env python3
"""Tests what examples/pcsc/plan.c does to blocks with empty=damaged, and which words it takes for that."""

import pathlib
import shutil
import subprocess
import tempfile
import unittest

PCSC = pathlib.Path(__file__).resolve().parents[2] / "examples/pcsc"
# It prints what arrives of each block, after a plan.
PROGRAM = """#include "plan.h"

#include <stdio.h>
#include <string.h>

static void passes(struct plan *plan, const char *digits)
{
    uint8_t octets[MOST_ARRIVING];
    size_t count = strlen(digits) / 2, at;
    for (at = 0; at < count; at++) {
        unsigned octet = 0;
        (void)!sscanf(digits + 2 * at, "%2x", &octet);
        octets[at] = (uint8_t)octet;
    }
    count = plan_next(plan, octets, count);
    for (at = 0; at < count; at++) {
        printf("%02X", octets[at]);
    }
    printf("\\n");
}

int main(int count, char **words)
{
    struct plan plan;
    int at;
    if (!plan_read(&plan, words[1])) {
        return 2;
    }
    for (at = 2; at < count; at++) {
        passes(&plan, words[at]);
    }
    return 0;
}
"""
EMPTY = ["00000000", "00400040", "00200020", "00600060"]
OTHERS = ["0000019091", "00800080", "00900090", "00C000C0", "00E000E0", "00C10120E0"]


class Plans(unittest.TestCase):
    @classmethod
    def setUpClass(cls):
        if not shutil.which("cc"):
            print("test_plans: what a plan does to empty blocks: left out: there is no command cc")
            raise unittest.SkipTest("there is no command cc")
        work = tempfile.TemporaryDirectory()
        cls.addClassCleanup(work.cleanup)
        source, cls.program = pathlib.Path(work.name) / "plans.c", pathlib.Path(work.name) / "plans"
        source.write_text(PROGRAM)
        words = ["-std=c99", "-D_POSIX_C_SOURCE=200809L", "-Wall", "-Wextra", "-pedantic", "-Werror", f"-I{PCSC}"]
        subprocess.run(["cc", *words, str(source), str(PCSC / "plan.c"), "-o", str(cls.program)], check=True)

    def arrives(self, plan, blocks):
        """What arrives of each block, or None if the text isn't a plan."""
        done = subprocess.run([str(self.program), plan, *blocks], check=False, stdout=subprocess.PIPE, text=True)
        return done.stdout.splitlines() if done.returncode == 0 else None

    def test_without_the_word_every_block_arrives(self):
        self.assertEqual(self.arrives("", EMPTY + OTHERS), EMPTY + OTHERS)

    def test_empty_i_blocks_get_another_check_octet(self):
        for seed in range(1, 50):
            found = self.arrives(f"seed={seed} empty=damaged", EMPTY)
            self.assertEqual([it[:6] for it in found], [it[:6] for it in EMPTY])
            self.assertEqual([it for it, sent in zip(found, EMPTY) if it[6:] == sent[6:] or len(it) != 8], [])

    def test_other_blocks_arrive_as_they_are(self):
        self.assertEqual(self.arrives("empty=damaged", OTHERS), OTHERS)

    def test_a_fault_that_is_listed_stays(self):
        self.assertEqual(self.arrives("lose=1 spoil=2 empty=damaged", EMPTY[:2]), ["", "01400041"])

    def test_no_other_value_is_taken(self):
        for word in ("empty", "empty=", "empty=taken", "empty=damage", "empty=damaged,1"):
            self.assertIsNone(self.arrives(word, []), word)


if __name__ == "__main__":
    unittest.main()
