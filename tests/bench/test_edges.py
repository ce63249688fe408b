"""Tests what captures say at their edges: forms of a line, several readers and sessions, silences, and words."""
import io
import subprocess
import sys
import unittest

from samples import PROGRAM, TOP, Wrong
from scard_bench import apdu_log, ccid_log, imports, uart, uart_csv
from scard_bench.report import captures

ATR, OTHER = "3B858131FE458073800140BC", "3B808131204555"
T, C = "00000500A4040000A5", "0000026A82EA"


def message(kind, number, data="", status=0, error=0):
    """A message of CCID in digits with blanks."""
    octets = bytes.fromhex(data)
    whole = bytes([kind]) + len(octets).to_bytes(4, "little") + bytes([0, number, status, error, 0]) + octets
    return whole.hex(" ").upper() + " "


def log(*rows, reader="000000", front="00000010 "):
    """A log with these rows: an arrow and a message."""
    return "".join(f"{front}{way} {reader} {text}\n" for way, text in rows)


def begins(atr=ATR):
    """A reset."""
    return ("->", message(0x62, 0)), ("<-", message(0x80, 0, atr))


def exchange(number=1):
    """A block and its answer."""
    return ("->", message(0x6F, number, T)), ("<-", message(0x80, number, C))


def traced(text, reader=None):
    """The trace of a log, checked."""
    trace = ccid_log.traced(io.StringIO(text), reader, False)
    trace.check()
    return trace


def lines(text, **wishes):
    """The lines of a trace."""
    return imports.chosen(traced(text), imports.Wishes(**wishes)).text.splitlines()


class Logs(unittest.TestCase):
    def test_forms_of_a_line(self):
        expected = [f"# atr {ATR}", f"t {T}", f"c {C}"]
        for front in ("00000010 ", "", "00000010 [140231787583552] ", "Nov 30 05:50 host pcscd[1]: 00000010 ",
                      "\x1b[34m00000010 \x1b[0m"):
            self.assertEqual(lines(log(*begins(), *exchange(), front=front)), expected)

    def test_a_capture_that_begins_late(self):
        self.assertEqual(lines(log(*exchange()))[0], "begins unknown")

    def test_what_a_reader_says(self):
        rows = (*begins(), ("->", message(0x6F, 1, T)))
        self.assertEqual(lines(log(*rows, ("<-", message(0x80, 1, "", 0x40, 0xFE))))[-1], "quiet")
        found = lines(log(*rows, ("<-", message(0x80, 1, "", 0x40, 0xFD))))
        self.assertEqual((found[-2].startswith("# guessed: "), found[-1]), (True, "c 00000001"))
        found = lines(log(*rows, ("<-", message(0x80, 1, "", 0x80, 5)), ("<-", message(0x80, 1, C))))
        self.assertEqual(found[-1], f"c {C}")
        self.assertEqual(lines(log(*rows, ("<-", message(0x80, 1, C, 0x40, 0xFC))))[-1], f"c {C} as 00000001")

    def test_what_is_refused(self):
        cases = {
            "chose another protocol": (*begins(), ("->", message(0x61, 1, "1100000A00").replace(
                "00 00 00 11", "00 00 00 11")), *exchange(2)),
            "has 12 octets, and its header says 10": (("->", message(0x62, 0) + "00 00"),),
            "answers no command": (*begins(), ("<-", message(0x80, 9, C))),
            "no command of a host begins with 7F": (("->", message(0x7F, 0)),),
            "no response of a reader begins with 11": (*begins(), ("<-", message(0x11, 0))),
            "not octets of two digits": (("->", "6F 0"),),
            "has no blocks": (("->", message(0x65, 0)), ("<-", message(0x81, 0))),
        }
        for expected, rows in cases.items():
            with self.subTest(expected), self.assertRaises(Wrong) as caught:
                traced(log(*rows))
            self.assertIn(expected, str(caught.exception))

    def test_several_readers(self):
        text = log(*begins(), *exchange()) + log(*begins(OTHER), *exchange(), reader="000001")
        self.assertRaisesRegex(Wrong, "several readers", traced, text)
        self.assertEqual(traced(text, "000001").sessions[0].atr.hex().upper(), OTHER)
        self.assertRaisesRegex(Wrong, "no reader 7", traced, text, "7")

    def test_several_answers_to_reset(self):
        text = log(*begins(), *exchange(), *begins(OTHER), *exchange())
        self.assertRaisesRegex(Wrong, "2 different answers to reset", lines, text)
        self.assertEqual(lines(text, session=2)[0], f"# atr {OTHER}")
        self.assertRaisesRegex(Wrong, "no session 3", lines, text, session=3)
        text = log(*begins(), *exchange(), *begins(), *exchange())
        self.assertEqual(lines(text).count("reset"), 1)


class Analysers(unittest.TestCase):
    def table(self, blocks):
        """A table of Saleae with these blocks: the pause before each character in microseconds, and the octet."""
        now, rows = 0, ["Time [s],Value,Parity Error,Framing Error"]
        for pauses, text in blocks:
            for pause, octet in zip(pauses, bytes.fromhex(text)):
                now += pause
                rows.append(f"{now / 1e6:.9f},0x{octet:02X},,")
        return "\n".join(rows) + "\n"

    def trace(self, *blocks, choices=uart.Choices()):
        """The lines of a trace without moments and remarks."""
        trace = uart.traced(uart_csv.read(io.StringIO(self.table(blocks)), None), PROGRAM, choices)
        trace.check()
        text = imports.chosen(trace, imports.Wishes(is_plain=True)).text
        return [it for it in text.splitlines() if not it.startswith("at ")], trace

    def test_a_pause_inside_a_block(self):
        found, trace = self.trace(([1250] * 12, ATR), ([5000, *[1250] * 3, 4000, *[1250] * 4], T),
                                  ([4000, *[1250] * 5], C))
        self.assertEqual((found, trace.guesses["a pause inside a block"]), ([f"t {T}", f"c {C}"], 1))

    def test_pauses_inside_the_answer_to_reset(self):
        found, trace = self.trace(([9000] * 12, ATR), ([20000, *[1250] * 8], T), ([4000, *[1250] * 5], C))
        self.assertEqual((found, trace.sessions[0].atr.hex().upper()), ([f"t {T}", f"c {C}"], ATR))

    def test_two_sessions(self):
        found, trace = self.trace(([1250] * 12, ATR), ([5000, *[1250] * 8], T), ([4000, *[1250] * 5], C),
                                  ([90000, *[1250] * 11], ATR), ([5000, *[1250] * 8], T))
        self.assertEqual((found, len(trace.sessions)), ([f"t {T}", f"c {C}", "reset", f"t {T}"], 2))

    def test_a_capture_without_a_reset(self):
        found, _ = self.trace(([1250] * 9, T), ([4000, *[1250] * 5], C))
        self.assertEqual(found, ["begins unknown", f"t {T}", f"c {C}"])

    def test_a_silence(self):
        found, _ = self.trace(([1250] * 12, ATR), ([5000, *[1250] * 8], T), ([300000, *[1250] * 3], "00800080"),
                              choices=uart.Choices(waiting=200000))
        self.assertEqual(found, [f"t {T}", "quiet", "t 00800080"])


class Pairs(unittest.TestCase):
    def test_what_is_refused(self):
        cases = {"a command, where the answer": "> 00A40400\n> 00A40400\n", "an answer without": "< 9000\n> 00A40400\n",
                 "ends before the answer": "> 00A40400\n< 9000\n> 00A40400\n", "no commands": "nothing\n",
                 "3 octets, where the log says 4": "Outgoing APDU (4 bytes):\n00 A4 04 ...\n\n"}
        for expected, text in cases.items():
            with self.subTest(expected), self.assertRaisesRegex(Wrong, expected):
                apdu_log.read(io.StringIO(text))


class Pieces(unittest.TestCase):
    def test_a_long_trace_is_judged_in_pieces(self):
        text = f"# atr {ATR}\n" + f"t {T}\nc {C}\nt 00400500A4040000E5\nc 0040026A82AA\n" * 60_000
        found = captures.pieces(text)
        self.assertEqual((len(found), "".join(found).replace("begins unknown\n", "")), (2, text))
        said, status = captures.judged(PROGRAM, ATR, text)
        self.assertEqual(status, 0)
        self.assertEqual(sum(int(it.split()[3]) for it in said if it.startswith("piece ")), 240_000)


class Words(unittest.TestCase):
    def test_faults_of_words_and_files_are_status_2(self):
        for words in (["import"], ["import", "x", "y"], ["suite", "--role", "card"], ["import", "usbmon", "/no/such"],
                      ["report", "apdu-log", "/dev/null"], ["suite", "--role", "card", "--only", "x", "--", "true"],
                      ["--scard", "/no/such", "import", "uart-csv", str(TOP / "bench/samples/sigrok.txt")]):
            ran = subprocess.run([sys.executable, TOP / "bench/scard-bench", *words], check=False,
                                 stdout=subprocess.PIPE, stderr=subprocess.PIPE, text=True)
            self.assertEqual((ran.returncode, ran.stdout, "Traceback" in ran.stderr), (2, "", False), words)


if __name__ == "__main__":
    unittest.main()
