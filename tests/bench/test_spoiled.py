"""Some hundred spoiled samples, and the one line and status 2 of the command."""
import pathlib
import subprocess
import sys
import tempfile
import unittest

import spoil
from samples import FORMATS, TOP, octets_of


class Spoiled(unittest.TestCase):
    def test_each_is_read_or_refused_in_one_line(self):
        counts, others = spoil.tries(300, "gate")
        self.assertEqual(others, [])
        self.assertGreater(min(counts.values()), 50)

    def test_the_command_writes_one_line_and_ends_with_2(self):
        with tempfile.TemporaryDirectory() as work:
            for name, kind in FORMATS.items():
                with self.subTest(name):
                    file = pathlib.Path(work) / name
                    file.write_bytes(b"\xff\x00" + octets_of(name)[:60])
                    ran = subprocess.run([sys.executable, TOP / "bench/scard-bench", "import", kind, file], check=False,
                                         stdout=subprocess.PIPE, stderr=subprocess.PIPE, text=True)
                    self.assertEqual((ran.returncode, ran.stdout, ran.stderr.count("\n")), (2, "", 1), ran.stderr)
                    self.assertTrue(ran.stderr.startswith(f"scard-bench: {file}: "))


if __name__ == "__main__":
    unittest.main()
