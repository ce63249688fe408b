"""Tests the example in examples/python with the library that SCARD_LIBRARY names: octets, names, and exchanges with a
card of the same library, over a line that loses and damages blocks."""
import ctypes
import pathlib
import sys
import unittest

sys.dont_write_bytecode = True
sys.path.insert(0, str(pathlib.Path(__file__).resolve().parents[2] / "examples/python"))
import over_ctypes as scard  # noqa: E402

NUMBERS = ("number", "expected", "has_saved", "saved_size", "ifsc", "ifsd", "first_ifsc", "wait", "size")
SIZES = ("saved_place", "place", "most_command", "most_reply", "command_len", "reply_len")
State = scard.struct("State", **dict.fromkeys(NUMBERS, ctypes.c_uint8), **dict.fromkeys(SIZES, ctypes.c_uint64))
END = (ctypes.POINTER(State), *scard.ROOM, *scard.ROOM)
CARD_CALLS = {
    "lent_card_begin": (scard.Verdict, *END, *[ctypes.c_uint8] * 3),
    "lent_card_received": (scard.Turn, *END, *scard.OCTETS, *scard.ROOM),
    "lent_card_reply": (scard.Turn, *END, *scard.OCTETS, *scard.ROOM),
    "lent_card_more_time": (scard.Turn, *END, ctypes.c_uint8, *scard.ROOM),
    "lent_card_command": (scard.Verdict, *END),
}
for name, (result, *arguments) in CARD_CALLS.items():
    getattr(scard.lib, f"scard_{name}").restype, getattr(scard.lib, f"scard_{name}").argtypes = result, arguments


class CardLine:
    """A line with a card at its other end, which answers each command with the command and 9000. The blocks with a
    number in `lost` don't arrive. Those in `damaged` arrive with their last octet changed. If `asks` is true, the card
    asks for three times the waiting time before each reply."""

    def __init__(self, lost=(), damaged=(), asks=False):
        self.block, self.asks = ctypes.create_string_buffer(258), asks
        self.command = ctypes.create_string_buffer(scard.LONGEST_COMMAND)
        reply = ctypes.create_string_buffer(scard.LONGEST_ANSWER)
        self.end = (State(), self.command, len(self.command), reply, len(reply))
        scard.checked(scard.lib.scard_lent_card_begin(*self.end, 32, 4, 13))
        self.lost, self.damaged, self.number, self.came, self.waited, self.is_asked = lost, damaged, 0, b"", [], False

    def call(self, call, *given):
        """Makes a call of the card."""
        return call(*self.end, *given, self.block, 258)

    def passed(self, octets):
        """Returns what arrives of a block that either end sends, or no octets."""
        self.number += 1
        if self.number in self.damaged:
            octets = octets[:-1] + bytes([octets[-1] ^ 1])
        return b"" if self.number in self.lost else octets

    def host(self):
        """Lets the host ask for time, or reply."""
        if self.asks and not self.is_asked:
            self.is_asked = True
            return self.call(scard.lib.scard_lent_card_more_time, 3)
        self.is_asked = False
        count = scard.checked(scard.lib.scard_lent_card_command(*self.end))
        return self.call(scard.lib.scard_lent_card_reply, self.command.raw[:count] + b"\x90\x00", count + 2)

    def send(self, octets):
        """Takes a block of the terminal."""
        octets, self.came = self.passed(octets), b""
        if octets:
            turn = self.call(scard.lib.scard_lent_card_received, octets, len(octets))
            turn = self.host() if turn.kind == scard.DONE else turn
            if turn.kind == scard.SEND:
                self.came = self.passed(self.block.raw[:turn.count])

    def receive(self, wait):
        """Returns the block that the card sent, if one arrived."""
        self.waited.append(wait)
        return self.came


class Octets(unittest.TestCase):
    def test_answer_to_reset(self):
        said = scard.atr(bytes.fromhex("3B858131FE458073800140BC"))
        self.assertEqual(said["protocols"], [1, 1])
        self.assertEqual(said["historical"], bytes.fromhex("8073800140"))
        self.assertEqual((said["ifsc"], said["bwi"], said["cwi"]), (254, 4, 5))
        self.assertEqual(said["bwt_cycles"], 11 * 372 + 16 * 960 * 372)

    def test_refusals(self):
        with self.assertRaisesRegex(scard.Refused, "refused at 0: BadTs"):
            scard.atr(b"\x3C")
        with self.assertRaisesRegex(scard.Refused, "short at 3"):
            scard.command(b"\x00\xA4\x04")
        with self.assertRaisesRegex(scard.Refused, "refused at 1: Overrun|short at 2"):
            scard.forest(b"\x50\x01")

    def test_command(self):
        said = scard.command(bytes.fromhex("00A4040002A00000"))
        self.assertEqual(said, {"header": bytes.fromhex("00A40400"), "data": b"\xA0\x00", "le": 256})

    def test_forest(self):
        said = scard.forest(bytes.fromhex("6F048402A000005F2001AA"))
        self.assertEqual(said, [(1, b"\x6F", None), (2, b"\x84", b"\xA0\x00"), (1, b"\x5F\x20", b"\xAA")])
        self.assertEqual(scard.forest(b""), [])


class Exchanges(unittest.TestCase):
    def exchanged(self, line, *commands):
        """Exchanges commands over one line and one terminal. Each answer has to be that of its command."""
        terminal = scard.Terminal(line)
        for command in commands:
            self.assertEqual(terminal.exchange(command), command + b"\x90\x00")
        terminal.close()

    def test_good_line(self):
        line = CardLine()
        self.exchanged(line, bytes.fromhex("00A4040000"), bytes(300), bytes.fromhex("00B0000000"))
        self.assertEqual(set(line.waited), {1})

    def test_the_longest_answer(self):
        """The reply is the command and two octets more: 65,538 octets are an answer, and no more."""
        self.exchanged(CardLine(), bytes(scard.LONGEST_ANSWER - 2))
        terminal = scard.Terminal(CardLine())
        with self.assertRaisesRegex(scard.Refused, "REFUSED_TOO_LONG"):
            terminal.exchange(bytes(scard.LONGEST_COMMAND + 1))

    def test_what_is_closed_is_overwritten(self):
        terminal = scard.Terminal(CardLine())
        terminal.exchange(bytes.fromhex("0020000004") + b"1234")
        self.assertIn(b"1234", terminal.end[1].raw)
        terminal.close()
        self.assertFalse(any(terminal.end[1].raw + terminal.end[3].raw))

    def test_each_block_lost_or_damaged(self):
        for number in range(1, 9):
            self.exchanged(CardLine(lost={number}), bytes(100), bytes(5), bytes(40))
            self.exchanged(CardLine(damaged={number}), bytes(100), bytes(5), bytes(40))

    def test_more_time(self):
        line = CardLine(asks=True)
        self.exchanged(line, bytes.fromhex("00A4040000"), bytes.fromhex("00B0000000"))
        self.assertEqual(line.waited, [1, 3, 1, 3])

    def test_dead_card(self):
        terminal = scard.Terminal(CardLine(lost=range(1, 100)))
        with self.assertRaisesRegex(scard.Refused, "DEAD"):
            terminal.exchange(bytes(5))
        with self.assertRaisesRegex(scard.Refused, "REFUSED_DEAD"):
            terminal.exchange(bytes(5))


if __name__ == "__main__":
    unittest.main(verbosity=0)
