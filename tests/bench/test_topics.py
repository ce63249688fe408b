"""Tests the topics of the scenarios: how many each has, the table of the page, and a wrong device for each."""
import collections
import json
import pathlib
import re
import subprocess
import sys
import tempfile
import unittest
from unittest import mock

from samples import PROGRAM, TOP, Wrong
from scard_bench.suite import scenario
from suites import load, tried

# the fewest scenarios of a card and of a terminal for each topic
LEAST = {
    "node address": (6, 4), "rules 1 and 2.1": (14, 8), "chains": (12, 10), "WTX": (8, 8), "IFS": (12, 10),
    "RESYNCH": (10, 8), "rule 7.1": (18, 16), "rule 7.2": (12, 8), "rule 7.3": (10, 8), "rule 7.4": (6, 8),
    "ABORT": (10, 8), "times": (10, 8),
}
ROW = re.compile(r"^\| ([^|]+) \| (\d+) \| (\d+) \|$", re.MULTILINE)
OF_TOPICS = load("changes", TOP / "tests/bench/wrong/changes.py").OF_TOPICS


def counts(role):
    """How many scenarios of the profile iso each topic has."""
    return collections.Counter(it.topic for it in scenario.scenarios(role, "iso"))


class Numbers(unittest.TestCase):
    def test_each_topic_has_enough(self):
        self.assertEqual(tuple(LEAST), scenario.TOPICS)
        for at, role in enumerate(scenario.ROLES):
            found = counts(role)
            self.assertEqual([it for it in LEAST if found[it] < LEAST[it][at]], [])

    def test_the_page_has_the_numbers(self):
        cards, terminals = (counts(role) for role in scenario.ROLES)
        expected = [(it, str(cards[it]), str(terminals[it])) for it in scenario.TOPICS]
        expected.append(("all", str(sum(cards.values())), str(sum(terminals.values()))))
        self.assertEqual(ROW.findall((TOP / "docs/BENCH.md").read_text()), expected)

    def test_the_command_prints_them(self):
        for role in scenario.ROLES:
            ran = subprocess.run([sys.executable, "-B", TOP / "bench/scard-bench", "suite", "--role", role, "--topics"],
                                 check=True, stdout=subprocess.PIPE, text=True)
            *lines, last = ran.stdout.splitlines()
            self.assertEqual({" ".join(it.split()[:-1]): int(it.split()[-1]) for it in lines}, counts(role))
            self.assertEqual(last.split(), ["all", str(sum(counts(role).values()))])

    def test_an_unknown_topic_is_refused(self):
        with tempfile.TemporaryDirectory() as work:
            for topic in ({"topic": "x"}, {}):
                one = {"id": "c-x", "clause": "11.3", "title": "x", "steps": [], **topic}
                pathlib.Path(work, "card.json").write_text(json.dumps({"scenarios": [one]}))
                with mock.patch.object(scenario, "FOLDER", pathlib.Path(work)):
                    self.assertRaisesRegex(Wrong, "scenario c-x: unknown: ", scenario.scenarios, "card", "iso")


class Devices(unittest.TestCase):
    def test_a_wrong_device_fails_each_topic(self):
        for role in scenario.ROLES:
            found = scenario.scenarios(role, "iso")
            self.assertEqual(tuple(OF_TOPICS[role]), scenario.TOPICS)
            for topic, name in OF_TOPICS[role].items():
                with self.subTest(role, topic=topic):
                    its = [it for it in found if it.topic == topic]
                    fails = tried.failed(PROGRAM, role, name, [*found[:1], *its])
                    self.assertEqual([it.scenario.topic for it in fails], [topic])


if __name__ == "__main__":
    unittest.main()
