"""Tests `scard-bench suite`: our devices pass, each wrong one fails by its scenario, and what hangs is named."""
import json
import os
import pathlib
import re
import shutil
import subprocess
import sys
import sysconfig
import tempfile
import unittest
import xml.dom.minidom

from samples import PROGRAM, TOP
from scard_bench.report import as_json, junit, page
from scard_bench.suite import scenario, verdict
from suites import in_c, plain, run, tried, verdicts

FAILED_BY = json.loads((TOP / "tests/bench/wrong/failed_by.json").read_text())
BENCH = TOP / "bench/scard-bench"
LEAST = {"card": 155, "terminal": 136}


class Devices(unittest.TestCase):
    def test_plain_devices_pass(self):
        for role in scenario.ROLES:
            with self.subTest(role):
                done = run(role, plain(role), has_all=True)
                self.assertEqual(verdicts(done, "fail", "inconclusive", "not applicable"), [])
                self.assertGreaterEqual(len(verdicts(done, "pass")), LEAST[role])
                self.assertEqual(done.status, 0)

    def test_a_run_is_twice_the_same(self):
        only = [it.identity for it in scenario.scenarios("card", "iso")][:12]
        texts = {as_json.text_of(run("card", plain("card"), only=only)) for _ in range(2)}
        self.assertEqual(len(texts), 1)

    def test_the_profile_of_emv_has_its_own_scenarios(self):
        for role in scenario.ROLES:
            iso, emv = ({it.identity for it in scenario.scenarios(role, name)} for name in scenario.PROFILES)
            self.assertEqual(emv - iso, {f"{role[0]}-emv-ifsd"})
            self.assertIn(f"{role[0]}-abort" if role == "terminal" else "c-addresses", iso - emv)
        wrong = run("terminal", plain("terminal"), "emv", ["t-emv-ifsd"])
        self.assertEqual(verdicts(wrong, "fail"), [("t-emv-ifsd", ("its first block was -, expected 00C101FE3E",))])

    @unittest.skipUnless(shutil.which("cc") and (pathlib.Path(sysconfig.get_path("include")) / "Python.h").exists(),
                         "there is no C compiler, or there are no headers of Python")
    def test_ends_of_the_package_pass_or_are_declared(self):
        with tempfile.TemporaryDirectory() as work:
            subprocess.run([sys.executable, "-B", TOP / "python/backend.py", work], check=True,
                           stdout=subprocess.DEVNULL, env={**os.environ, "CFLAGS": "-O0"})
            for role in scenario.ROLES:
                command = ["env", f"PYTHONPATH={work}", sys.executable, "-B", str(TOP / f"bench/devices/{role}.py")]
                self.assertEqual(verdicts(run(role, command), "fail", "inconclusive"), [])
            emv = run("terminal", [*command, "254"], "emv")
            self.assertEqual(verdicts(emv, "fail", "inconclusive"), [])

    @unittest.skipUnless(shutil.which("cc"), "there is no C compiler")
    def test_devices_in_c_pass_or_are_declared(self):
        for role in scenario.ROLES:
            self.assertEqual(verdicts(run(role, [f"{in_c()}/{role}"]), "fail", "inconclusive"), [])

    def test_devices_as_firmware_pass_or_are_declared(self):
        lacks = [it for it in ("arm-none-eabi-gcc", "qemu-system-arm") if not shutil.which(it)]
        if lacks:
            print(f"bench: the devices as firmware: left out: there is no command {lacks[0]}")
            return
        with tempfile.TemporaryDirectory() as work:
            subprocess.run([TOP / "bench/devices/make", work, "firmware"], check=True)
            for role in scenario.ROLES:
                done = run(role, [str(TOP / "bench/devices/emulated"), f"{work}/{role}.elf"])
                self.assertEqual(verdicts(done, "fail", "inconclusive"), [])


class WrongDevices(unittest.TestCase):
    def test_the_table_has_all_of_them(self):
        for role, changes in tried.CHANGES.items():
            self.assertEqual(sorted(FAILED_BY[role]), sorted(changes))
            self.assertGreaterEqual(len(changes), 30)

    def test_each_is_failed_by_its_scenario(self):
        for role in scenario.ROLES:
            found = {it.identity: it for it in scenario.scenarios(role, "iso")}
            for name, identity in FAILED_BY[role].items():
                with self.subTest(role, name=name):
                    fails = tried.failed(PROGRAM, role, name, [found[identity]])
                    self.assertEqual([it.scenario.identity for it in fails], [identity])


class Broken(unittest.TestCase):
    """Devices that don't talk as they should fail by name, and the suite goes on."""

    def reasons(self, text, limit):
        """The reasons of two scenarios with a card of this text."""
        done = run("card", [sys.executable, "-c", text], only=["c-plain", "c-numbers"], limit=limit)
        self.assertEqual((len(done.results), done.status), (2, 1))
        return [it.reasons for it in done.results]

    def test_each_way(self):
        ways = {"import time; time.sleep(60)": "it said nothing within 1 seconds", "pass": "it ended",
                "print('hello', flush=True); input()": "is no line of the form",
                "while True: print('wait 1', flush=True)": "in a row",
                "print('x' * 3000000, flush=True)": "its line has no end"}
        for text, expected in ways.items():
            with self.subTest(text):
                for reasons in self.reasons(text, 1.0 if "sleep" in text else 30.0):
                    self.assertIn(expected, "; ".join(reasons))

    def test_a_command_that_isn_t_there_is_one_line(self):
        ran = subprocess.run([sys.executable, BENCH, "suite", "--role", "card", "--", "/no/such"], check=False,
                             stdout=subprocess.PIPE, stderr=subprocess.PIPE, text=True)
        self.assertEqual((ran.returncode, ran.stdout, ran.stderr),
                         (2, "", "scard-bench: /no/such: No such file or directory\n"))


class LeftOpen(unittest.TestCase):
    def test_the_scenario_says_what_answers_the_tester_in_another_connection(self):
        of = "block {} {}: another logical connection, not judged  (11.3.2.1)".format
        tester, device = of(3, "terminal"), of(4, "card")
        for lines, last in (((tester,), "unsure 4 blocks, not judged 1"), ((), "ok 4 blocks"),
                            ((tester,), "unsure 4 blocks, not judged 1, damaged terminal 1 card 0")):
            self.assertEqual(verdict.left_open("card", verdict.Judged(lines, last, (), ())), [])
        last = "unsure 4 blocks, not judged 2"
        self.assertEqual(verdict.left_open("card", verdict.Judged((tester, device), last, (), ())), [device, last])
        last = "unsure 4 blocks, unseen 1, not judged 1"
        self.assertEqual(verdict.left_open("card", verdict.Judged((tester,), last, (), ())), [last])


class Reports(unittest.TestCase):
    def setUp(self):
        self.run = run("card", plain("card"), only=["c-plain", "c-wtx", "c-addresses"])
        with tempfile.TemporaryDirectory() as work:
            file = pathlib.Path(work) / "wrong.py"
            file.write_text(tried.changed("card", "its check octet is wrong"))
            self.wrong = run("card", [sys.executable, "-B", str(file)], only=["c-plain", "c-wtx"])

    def test_junit(self):
        found = xml.dom.minidom.parseString(junit.text_of(self.wrong)).documentElement
        self.assertEqual((found.getAttribute("tests"), found.getAttribute("failures")), ("2", "2"))
        found = xml.dom.minidom.parseString(junit.text_of(self.run)).documentElement
        self.assertEqual((found.getAttribute("failures"), found.getAttribute("skipped")), ("0", "1"))

    def test_json(self):
        found = json.loads(as_json.text_of(self.run))
        self.assertEqual(found["verdicts"], {"pass": 2, "fail": 0, "inconclusive": 0, "not applicable": 1})
        self.assertEqual([it["blocks"] for it in found["scenarios"] if it["id"] == "c-plain"], [2])
        self.assertEqual(json.loads(as_json.text_of(run("card", plain("card"), only=["c-wtx"], has_all=True)))["waits"],
                         [2000, 2000])

    def test_the_page_loads_nothing(self):
        text = page.text_of(PROGRAM, [self.run, self.wrong])
        self.assertEqual(re.findall(r"(?:src|href)=|@import|url\(|<script|<link", text), [])
        self.assertIn("<svg", text)
        self.assertNotIn("arrives 0000", text)
        self.assertLess(text.index("not applicable"), text.index("<svg"))

    def test_captures(self):
        with tempfile.TemporaryDirectory() as work:
            files = {name: pathlib.Path(work) / name for name in ("junit", "json", "html")}
            ran = subprocess.run([sys.executable, BENCH, "report", "ccid-log", TOP / "bench/samples/ccid.log",
                                  *(f"--{name}={path}" for name, path in files.items())], check=False,
                                 stdout=subprocess.PIPE, text=True)
            self.assertEqual((ran.returncode, ran.stdout.startswith("ok: ")), (0, True))
            self.assertEqual(len(json.loads(files["json"].read_text())["captures"][0]["exchanges"]), 3)
            xml.dom.minidom.parse(str(files["junit"]))
            self.assertIn("<svg", files["html"].read_text())


class Data(unittest.TestCase):
    def test_each_scenario_is_well_formed(self):
        commands = scenario.declaration(None).commands
        for role in scenario.ROLES:
            found = [it for profile in scenario.PROFILES for it in scenario.scenarios(role, profile)]
            self.assertGreaterEqual(len({it.identity for it in found}), LEAST[role])
            for it in found:
                names = [step[key] for step in it.steps for key in ("exchange", "send") if key in step]
                self.assertEqual([name for name in names if name not in commands], [])
                self.assertRegex(it.clause, r"^11\.[\d.]+( rule [\d.]+)?$")

    def test_a_terminal_that_waits_longer_than_until_says(self):
        text = "for line in iter(input, ''): print('-' if line[:5] == 'reset' else 'wait 2000\\n00000500A4040000A5' " \
            "if line[:4] == 'send' else 'wait 99999999999\\n00800080', flush=True)"
        done = run("terminal", [sys.executable, "-c", text], only=["t-time-silent"], has_all=True)
        self.assertIn("it said `wait 99999999999` to `until 10000000`", done.results[0].reasons)

    def test_a_wrong_declaration_is_one_line(self):
        with tempfile.NamedTemporaryFile("w", suffix=".json") as file:
            for text in ("{", "[]", '{"without": ["x"]}', '{"commands": {"short": ["0G", ""]}}', '{"other": 1}',
                         '{"with": ["abort"]}', '{"longest wait": 0}', '{"longest wait": "x"}'):
                file.seek(0)
                file.truncate()
                file.write(text)
                file.flush()
                ran = subprocess.run([sys.executable, BENCH, "suite", "--role", "card", "--declare", file.name, "--",
                                      "true"], check=False, stdout=subprocess.PIPE, stderr=subprocess.PIPE, text=True)
                self.assertEqual((ran.returncode, ran.stderr.count("\n")), (2, 1), ran.stderr)


if __name__ == "__main__":
    unittest.main()
