"""Tests the types of the bench by mypy, if it is there."""
import shutil
import subprocess
import unittest

from samples import TOP


class Types(unittest.TestCase):
    @unittest.skipUnless(shutil.which("mypy"), "there is no command mypy")
    def test_they_fit(self):
        words = ["mypy", "--strict", "--python-version", "3.9", "--cache-dir=/dev/null", "scard_bench",
                 "devices/application.py"]
        ran = subprocess.run(words, cwd=TOP / "bench", check=False, stdout=subprocess.PIPE, text=True)
        self.assertEqual(ran.returncode, 0, ran.stdout)


if __name__ == "__main__":
    unittest.main()
