"""Tests reports of several devices or captures side by side."""
import json
import pathlib
import shlex
import subprocess
import sys
import tempfile
import unittest
import xml.dom.minidom

from samples import PROGRAM, TOP
from suites import plain, tried

BENCH = TOP / "bench/scard-bench"
LOG = TOP / "bench/samples/ccid.log"
ATR, T, C = "3B808131204555", "00000500A4040000A5", "0000026A82EA"


def ran(*words):
    """How the command ends, and the files of its report."""
    with tempfile.TemporaryDirectory() as work:
        files = {name: pathlib.Path(work) / name for name in ("junit", "json", "html")}
        said = subprocess.run([sys.executable, "-B", BENCH, "--scard", PROGRAM.path, *words,
                               *(f"--{name}={path}" for name, path in files.items())], check=False, text=True,
                              stdout=subprocess.PIPE, stderr=subprocess.PIPE)
        return said, {name: path.read_text() for name, path in files.items() if path.exists()}


class Devices(unittest.TestCase):
    def tries(self, wrong, *words):
        """The report on a plain card and another one."""
        with tempfile.TemporaryDirectory() as work:
            file = pathlib.Path(work) / "wrong.py"
            file.write_text(tried.changed("card", wrong))
            return ran("suite", "--role", "card", f"--device=plain={shlex.join(plain('card'))}",
                       f"--device=wrong={sys.executable} -B {file}", *words)

    def test_each_has_a_column(self):
        said, files = self.tries("it answers a size with 32", "--only=c-plain", "--only=c-ifsd-254",
                                 f"--declare={TOP / 'bench/devices/card.json'}")
        self.assertEqual(said.returncode, 1)
        self.assertEqual([it.split() for it in said.stdout.splitlines()[:3]],
                         [["scenario", "plain", "wrong"], ["c-plain", "pass", "pass"], ["c-ifsd-254", "pass", "fail"]])
        self.assertIn("wrong: c-ifsd-254: ", said.stdout)
        found = json.loads(files["json"])
        self.assertEqual(found["table"]["rows"], [["c-plain", "pass", "pass"], ["c-ifsd-254", "pass", "fail"]])
        self.assertEqual([it["name"] for it in found["suites"]], ["plain", "wrong"])
        suites = xml.dom.minidom.parseString(files["junit"]).getElementsByTagName("testsuite")
        self.assertEqual([(it.getAttribute("name"), it.getAttribute("failures")) for it in suites],
                         [("scard-bench card iso plain", "0"), ("scard-bench card iso wrong", "1")])
        self.assertIn("<th>what it tries</th><th>plain</th><th>wrong</th>", files["html"])
        self.assertIn('<td><span class="pass">pass</span></td><td><span class="fail">fail</span></td>', files["html"])

    def test_each_may_have_its_declaration(self):
        said, files = self.tries("it ends at damage", "--only=c-addresses",
                                 f"--declare=wrong={TOP}/bench/devices/card.json",
                                 f"--declare={TOP}/tests/bench/wrong/plain.json")
        self.assertEqual(json.loads(files["json"])["table"]["rows"], [["c-addresses", "pass", "not applicable"]])
        self.assertEqual(said.returncode, 1)

    def test_faults_of_words_are_status_2(self):
        for words in (["--device=x"], ["--device=x=true", "--device=x=true"], ["--device==true"], ["--device=x='"],
                      ["--device=x=true", "true"], ["--device=x="], []):
            said, files = ran("suite", "--role", "card", *words)
            found = said.returncode, said.stdout, said.stderr.count("\n"), files
            self.assertEqual(found, (2, "", 1, {}), said.stderr)


class Captures(unittest.TestCase):
    def test_each_has_a_column(self):
        with tempfile.TemporaryDirectory() as work:
            wrong = pathlib.Path(work) / "wrong.log"
            wrong.write_text(log_of(T, "000002900092", T, "00920092"))
            said, files = ran("report", "ccid-log", str(LOG), str(wrong))
        self.assertEqual(said.returncode, 1, said.stderr)
        found = json.loads(files["json"])
        rows = {name: cells for name, *cells in found["table"]["rows"]}
        self.assertEqual([rows[it] for it in ("verdict", "blocks", "damaged, card")],
                         [["ok", "deviates"], ["10", "4"], ["1", "0"]])
        self.assertEqual((rows["deviations"], rows["sequence number, terminal"]), (["0", "1"], ["0", "1"]))
        self.assertEqual(found["captures"][1]["counts"]["deviations"], 1)
        lines = said.stdout.splitlines()
        self.assertTrue(any(it.split() == ["deviations", "0", "1"] for it in lines), said.stdout)
        self.assertIn("<td>sequence number, terminal</td><td>0</td><td>1</td>", files["html"])
        suite = xml.dom.minidom.parseString(files["junit"]).documentElement
        self.assertIn("sequence number, terminal", suite.getElementsByTagName("system-out")[0].firstChild.data)


def message(kind, number, octets):
    """A message of CCID in digits with blanks."""
    whole = bytes([kind]) + len(octets).to_bytes(4, "little") + bytes([0, number, 0, 0, 0]) + octets
    return whole.hex(" ").upper() + " "


def log_of(*blocks):
    """A log with a reset and these blocks, the terminal's first."""
    rows = [("->", message(0x62, 0, b"")), ("<-", message(0x80, 0, bytes.fromhex(ATR)))]
    for at, text in enumerate(blocks):
        kind, way = (0x80, "<-") if at % 2 else (0x6F, "->")
        rows.append((way, message(kind, at // 2 + 1, bytes.fromhex(text))))
    return "".join(f"00000010 {way} 000000 {text}\n" for way, text in rows)


if __name__ == "__main__":
    unittest.main()
