"""Runs round_trips.py, over values that hypothesis makes, by an interpreter that has hypothesis (Debian's
python3-hypothesis) and can import the package."""
import os
import pathlib
import subprocess
import sys
import unittest

import scard

HERE = pathlib.Path(__file__).resolve().parent
ENVIRONMENT = {**os.environ, "PYTHONPATH": str(pathlib.Path(scard.__file__).parents[1]), "PYTHONDONTWRITEBYTECODE": "1"}


def with_hypothesis():
    """An interpreter that has hypothesis and can import the package, or None."""
    for python in dict.fromkeys((sys.executable, "/usr/bin/python3")):
        words = [python, "-c", "import hypothesis, scard"]
        if pathlib.Path(python).exists() and subprocess.run(words, env=ENVIRONMENT, check=False,
                                                            stderr=subprocess.DEVNULL).returncode == 0:
            return python
    return None


class RoundTrips(unittest.TestCase):
    def test_round_trips_of_values_that_hypothesis_makes(self):
        python = with_hypothesis()
        if python is None:
            print("python: round trips by hypothesis: left out: no interpreter has Debian's python3-hypothesis")
            return
        done = subprocess.run([python, str(HERE / "round_trips.py")], env=ENVIRONMENT, check=False, text=True,
                              stdout=subprocess.PIPE, stderr=subprocess.STDOUT)
        self.assertEqual(done.returncode, 0, done.stdout[-4000:])


if __name__ == "__main__":
    unittest.main(verbosity=0)
