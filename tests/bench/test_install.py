"""Tests `scard-bench` where tools/release/bench puts it, and that its completion and its page have its options."""
import pathlib
import re
import subprocess
import sys
import tempfile
import unittest

from samples import PROGRAM, TOP
from scard_bench import cli
from suites import plain

HEAD = re.compile(r"--[a-z]+")


def options(*words):
    """The options of a subcommand, by its help."""
    ran = subprocess.run([sys.executable, "-B", TOP / "bench/scard-bench", *words, "--help"], check=True, text=True,
                         stdout=subprocess.PIPE)
    return set(HEAD.findall(ran.stdout))


def completed(*words):
    """The options that the completion gives."""
    ran = subprocess.run(["bash", TOP / "bench/scard-bench.bash", "scard-bench", *words, "--"], check=True, text=True,
                         stdout=subprocess.PIPE)
    return set(ran.stdout.split())


class Installed(unittest.TestCase):
    def test_it_runs_from_its_place(self):
        with tempfile.TemporaryDirectory() as room:
            for _ in range(2):
                subprocess.run([TOP / "tools/release/bench", room], check=True)
            command = pathlib.Path(room) / "bin/scard-bench"
            words = ["--scard", PROGRAM.path, "suite", "--role", "card", "--only", "c-plain", "--", *plain("card")]
            said = subprocess.run([command, *words], cwd="/", check=False, text=True, stdout=subprocess.PIPE)
            self.assertEqual(said.returncode, 0, said.stdout)
            devices = pathlib.Path(room) / "share/scard-bench/devices"
            self.assertTrue((devices / "card.json").exists() and (devices / "callback.c").exists())

    def test_it_finds_the_program_beside_it(self):
        with tempfile.TemporaryDirectory() as room:
            subprocess.run([TOP / "tools/release/bench", room], check=True)
            folder = pathlib.Path(room) / "bin"
            (folder / "scard").symlink_to(PROGRAM.path)
            words = [folder / "scard-bench", "import", "ccid-log", TOP / "bench/samples/ccid.log", "--atr"]
            said = subprocess.run(words, cwd="/", env={"PATH": "/usr/bin:/bin"}, check=False, text=True,
                                  stdout=subprocess.PIPE)
            self.assertRegex(said.stdout, "^3[BF]")


class Words(unittest.TestCase):
    def test_the_completion_has_each_option(self):
        self.assertEqual(completed(), options())
        for name in cli.RUNS:
            self.assertEqual(completed(name), options(name), name)

    def test_the_page_has_each_option(self):
        page = (TOP / "docs/BENCH.md").read_text()
        for name in ("import", "report", "suite"):
            self.assertEqual(sorted(it for it in options(name) - {"--help"} if it not in page), [])


if __name__ == "__main__":
    unittest.main(verbosity=0)
