"""Tests `scard-bench import` over the samples: what they become, and that no octet gets lost unseen."""
import re
import struct
import subprocess
import sys
import unittest
from unittest import mock

from samples import COUNTED, FOLDER, FORMATS, PAIRS, TOP, TRACES, Wrong, imported, judged, octets_of
from scard_bench import imports
from scard_bench.trace import Trace

PROGRAM = TOP / "bench/scard-bench"
BLOCKS = ("00C101FE3E", "00E101FE1E", "00000500A4040000A5", "0000026A82EA")
LAST = {"ccid.log": "ok 10 blocks, damaged terminal 0 card 1", "usbmon.pcap": "ok 10 blocks, damaged terminal 0 card 1",
        "usbmon.pcapng": "ok 10 blocks, damaged terminal 0 card 1", "saleae-1.csv": "unsure 9 blocks, unseen 1",
        "saleae-2.csv": "unsure 9 blocks, unseen 1", "sigrok.txt": "unsure 9 blocks, unseen 1"}
SELECT, FAILED = "00A4040007F053434152440100", ("00A4040000", "6A82")


def bench(*words):
    """What scard-bench does with words."""
    return subprocess.run([sys.executable, str(PROGRAM), *words], check=False, stdout=subprocess.PIPE,
                          stderr=subprocess.PIPE, text=True)


class Samples(unittest.TestCase):
    def test_each_file_of_the_folder_is_a_sample(self):
        others = {"make", "make_line.py", "__pycache__"}
        self.assertEqual({it.name for it in FOLDER.iterdir()} - others, set(FORMATS))

    def test_each_trace_has_the_blocks_and_the_verdict(self):
        for name in TRACES:
            with self.subTest(name):
                trace = imported(name, octets_of(name))
                text = imports.chosen(trace, imports.Wishes()).text
                self.assertEqual([it for it in BLOCKS if it not in text], [])
                self.assertEqual(judged(trace), LAST[name])

    def test_each_log_has_the_same_pairs(self):
        for name in PAIRS:
            with self.subTest(name):
                pairs = [tuple(it.hex().upper() for it in pair) for pair in imported(name, octets_of(name)).pairs]
                if name == "arrows.log":
                    self.assertEqual(pairs, [FAILED, ("00B0000020", "050C139000")])
                else:
                    self.assertEqual(pairs[0][0], SELECT)
                    self.assertTrue(pairs[0][1].endswith("73636172649000"))
                    self.assertEqual(len(pairs[1][1]), 68)

    def test_guesses_are_in_the_trace_and_counted(self):
        trace = imported("saleae-1.csv", octets_of("saleae-1.csv"))
        text = imports.chosen(trace, imports.Wishes()).text
        self.assertEqual(text.count("# guessed: "), 5)
        self.assertEqual(sum(trace.guesses.values()), 13)
        self.assertIn("13 guessed", trace.summary())

    def test_record_takes_a_plain_session(self):
        ran = bench("import", "ccid-log", str(FOLDER / "ccid.log"), "--session", "2", "--plain")
        self.assertEqual((ran.returncode, "#" in ran.stdout, "reset" in ran.stdout), (0, False, False))
        recorded = subprocess.run([TOP / "scard", "record", "3B858131FE458073800140BC"], input=ran.stdout.encode(),
                                  stdout=subprocess.PIPE, check=False)
        self.assertEqual(recorded.returncode, 0)

    def test_simulate_takes_the_pairs(self):
        ran = bench("import", "apdu-log", str(FOLDER / "pyscard.log"))
        simulated = subprocess.run([TOP / "scard", "simulate", "3B808131204555", "--stdin", "lines"], check=False,
                                   input=ran.stdout.encode(), stdout=subprocess.PIPE)
        self.assertEqual((simulated.returncode, simulated.stdout.count(b"\ncommand ")), (0, 3))

    def test_channels_give_directions(self):
        rows = octets_of("saleae-2.csv").decode().splitlines()
        named = [row.replace("Async Serial", "terminal" if at in (*range(13, 18), *range(23, 32), *range(38, 42),
                                                                  *range(48, 61)) else "card")
                 for at, row in enumerate(rows)]
        trace = imports.traced("uart-csv", self.file("\n".join(named)), imports.Program(), imports.Wishes(
            choices=imports.uart.Choices(terminal="terminal", card="card")))
        self.assertEqual(trace.guesses["a direction"], 0)
        self.assertEqual(judged(trace), "unsure 9 blocks, unseen 1")

    def file(self, text):
        """A file with this text."""
        import tempfile
        file = tempfile.NamedTemporaryFile("w", suffix=".csv")
        self.addCleanup(file.close)
        file.write(text)
        file.flush()
        return file.name


def without_one(octets, at):
    """Octets without the one at a place."""
    return octets[:at] + octets[at + 1:]


class LostByTheImport(unittest.TestCase):
    """An importer that loses one octet on its way, at each place."""

    def test_each_octet_of_a_trace(self):
        for name in TRACES:
            octets, tries = octets_of(name), 0
            if name == "ccid.log":
                octets = b"".join(it for it in octets.splitlines(True) if re.search(rb"(?:->|<-) 000000", it))
            total = sum(len(it.split()[1]) // 2 for session in imported(name, octets).sessions
                        for it in session.lines if it[:2] in ("t ", "c "))
            for place in range(total):
                tries += self.is_noticed(name, octets, place)
            self.assertEqual((name, tries), (name, total))

    def is_noticed(self, name, octets, place):
        """Whether the count of octets notices that the octet at a place of all blocks is lost."""
        left, whole = [place], Trace.block

        def loses(trace, side, block, arrived=None):
            at, left[0] = left[0], left[0] - len(block)
            whole(trace, side, without_one(block, at) if 0 <= at < len(block) else block, arrived)

        with mock.patch.object(Trace, "block", loses):
            try:
                imported(name, octets)
            except Wrong as wrong:
                return "octets came in" in str(wrong)
        return False

    def test_each_octet_of_pairs(self):
        for name in PAIRS:
            log = imported(name, octets_of(name))
            for pair in log.pairs:
                for which, octets in enumerate(pair):
                    for at in range(len(octets)):
                        pair[which] = without_one(octets, at)
                        self.assertRaises(Wrong, log.check)
                    pair[which] = octets
            log.check()


class LostInTheCapture(unittest.TestCase):
    """A capture that lacks one octet, at each place."""

    def test_ccid_log(self):
        lines = [it for it in octets_of("ccid.log").splitlines(True) if re.search(rb"(?:->|<-) 000000", it)]
        tries = 0
        for number, line in enumerate(lines):
            for it in re.finditer(rb" [0-9A-F]{2}(?= )", line[line.index(b"000000 ", 9) + 6:]):
                begin = line.index(b"000000 ", 9) + 6
                cut = line[:begin + it.start()] + line[begin + it.end():]
                self.assertRaises(Wrong, imported, "ccid.log", b"".join([*lines[:number], cut, *lines[number + 1:]]))
                tries += 1
        self.assertEqual(tries, imported("ccid.log", octets_of("ccid.log")).read)

    def test_usbmon(self):
        octets, at, tries, unnoticed = octets_of("usbmon.pcap"), 24, 0, 0
        while at < len(octets):
            count = struct.unpack_from("<I", octets, at + 8)[0]
            for place in range(64, count if octets[at + 16 + 9] == 3 else 0):
                unnoticed += self.said("usbmon.pcap", self.cut(octets, at, count, place)) == LAST["usbmon.pcap"]
                tries += 1
            at += 16 + count
        # the first message is an Escape of one octet whose header has only one octet that isn't 0, which is its length
        self.assertEqual((tries, unnoticed), (imported("usbmon.pcap", octets).read, 1))

    def cut(self, octets, at, count, place):
        """A capture in which a transfer has one octet fewer, and all lengths of the packet say so."""
        packet = bytearray(without_one(octets[at + 16:at + 16 + count], place))
        struct.pack_into("<II", packet, 32, count - 65, count - 65)
        head = octets[at:at + 8] + struct.pack("<II", count - 1, count - 1)
        return octets[:at] + head + bytes(packet) + octets[at + 16 + count:]

    def test_uart(self):
        for name in ("saleae-1.csv", "saleae-2.csv", "sigrok.txt"):
            rows = octets_of(name).splitlines(True)
            for at in range(0 if name == "sigrok.txt" else 1, len(rows)):
                with self.subTest(name, row=at):
                    self.assertNotEqual(self.said(name, b"".join(without_one(rows, at))), LAST[name])

    def said(self, name, octets):
        """What the judge says, or that it says nothing."""
        try:
            trace = imported(name, octets)
        except Wrong as wrong:
            return str(wrong)
        return judged(trace) if trace.sessions[0].atr else "no answer to reset"

    def test_logs_with_lengths(self):
        for name in COUNTED:
            octets, tries = octets_of(name), 0
            for at, row in self.rows(name, octets):
                cut = octets[:at] + octets[at + (3 if name == "opensc-debug.log" else 2):]
                self.assertRaises(Wrong, imported, name, cut)
                tries += 1
            self.assertGreater(tries, 70)

    def rows(self, name, octets):
        """The places of the octets of a log that says how many there are."""
        if name == "gp.log":
            # the last group of a command is what it expects, and no number says that it is there
            begins = [(it.end(1), it[2] if b"<<" in it[1] else it[2].rpartition(b" ")[0])
                      for it in re.finditer(rb"(A(?:>>|<<).*?\)(?: \(\w+\))? )([0-9A-F ]+)", octets)]
            return [(begin + it.start(), it[0]) for begin, text in begins for it in re.finditer(rb"[0-9A-F]{2}", text)]
        texts = re.finditer(rb"(?:Outgoing|Incoming) APDU.*\n((?:(?:[0-9A-F]{2} )+.*\n)+)", octets)
        return [(text.start(1) + row.start() + it.start(), it[0]) for text in texts
                for row in re.finditer(rb"^(?:[0-9A-F]{2} )+", text[1], re.M) for it in re.finditer(rb"..\s", row[0])]


if __name__ == "__main__":
    unittest.main()
