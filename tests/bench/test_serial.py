"""Tests `scard-bench suite --serial` with cards behind a pseudo-terminal."""
import json
import pathlib
import shutil
import subprocess
import sys
import tempfile
import unittest

from peer import Peer
from samples import PROGRAM, TOP
from suites import in_c, plain

BENCH = TOP / "bench/scard-bench"
QUICK = ("c-plain", "c-numbers", "c-time-answers", "c-time-repeat", "c-time-size", "c-time-reset")


def tried(peer, *words, only=("c-plain",)):
    """How the command ends with a card, and the object of its report."""
    peer.start()
    try:
        with tempfile.NamedTemporaryFile(suffix=".json") as file:
            ran = subprocess.run([sys.executable, "-B", BENCH, "--scard", PROGRAM.path, "suite", "--role", "card",
                                  "--serial", peer.path, "--json", file.name, *words,
                                  *(f"--only={it}" for it in only)], check=False, text=True, stdout=subprocess.PIPE,
                                 stderr=subprocess.STDOUT)
            text = pathlib.Path(file.name).read_text()
            return ran.returncode, ran.stdout, json.loads(text) if text else None
    finally:
        peer.ends()


class Ports(unittest.TestCase):
    def passes(self, command, *words, **how):
        status, said, found = tried(Peer(command, **how), *words, only=QUICK)
        self.assertEqual((status, found["verdicts"]["pass"]), (0, len(QUICK)), said)
        return found

    def test_a_plain_card_passes_and_its_times_are_in_the_report(self):
        found = self.passes(plain("card"), "--tolerance", "15000")
        self.assertRegex(found["notes"][0], r"^/dev/\S+, 9600 baud, without parity: blocks began \d+ to \d+ "
                         r"microseconds after the terminal's, with a tolerance of 15000$")

    @unittest.skipUnless(shutil.which("cc"), "there is no C compiler")
    def test_our_card_passes(self):
        self.passes([f"{in_c()}/card"])

    def test_an_adapter_that_sends_back_what_it_gets(self):
        self.passes(plain("card"), is_echo=True)

    def test_a_card_that_is_too_late(self):
        status, said, _ = tried(Peer(plain("card"), late=2.5))
        self.assertEqual(status, 1)
        self.assertRegex(said, r"^fail +c-plain .*\n +block 2 card: late, 2\d{6} microseconds after block 1, ")

    def test_one_that_is_late_by_less_than_the_tolerance(self):
        status, said, _ = tried(Peer(plain("card"), late=2.5), "--tolerance=3000000")
        self.assertEqual(status, 1)
        self.assertRegex(said, r"^inconclusive +c-plain .*\n +block 2 card: late")

    def test_a_card_that_answers_too_early(self):
        status, said, _ = tried(Peer(plain("card"), is_early=True))
        self.assertEqual(status, 1)
        self.assertRegex(said, r"its block began \d+ microseconds before the terminal's had ended")

    def test_a_card_that_sends_unasked(self):
        status, said, _ = tried(Peer(plain("card"), is_double=True), only=("c-numbers",))
        self.assertEqual(status, 1, said)

    def test_a_card_that_is_silent(self):
        status, said, _ = tried(Peer(plain("card"), late=1.5), "--limit=0.5")
        self.assertEqual(status, 1, said)

    def test_a_peer_that_hangs_up(self):
        status, said, _ = tried(Peer(plain("card"), hangs_up=True))
        self.assertEqual((status, "the port hung up" in said), (1, True), said)


class Words(unittest.TestCase):
    def test_faults_are_status_2(self):
        for words in (["--serial", "/no/such"], ["--serial", "/dev/null"], ["--serial", "/no/such", "--baud=9601"],
                      ["--serial", "/no/such", "--", "true"], ["--serial", "/no/such", "--only", "c-wtx-lost"]):
            ran = subprocess.run([sys.executable, "-B", BENCH, "suite", "--role", "card", *words], check=False,
                                 stdout=subprocess.PIPE, stderr=subprocess.PIPE, text=True)
            self.assertEqual((ran.returncode, ran.stdout, ran.stderr.count("\n")), (2, "", 1), (words, ran.stderr))


if __name__ == "__main__":
    unittest.main()
