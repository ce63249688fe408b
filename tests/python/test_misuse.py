"""Uses the package in wrong ways: each has to end in a named exception, and nothing else may happen. Rows first, then
random calls of every function, MISUSES of them, or as many as the variable SCARD_MISUSES says. Under the sanitizers of
a compiler (tests/python/run --sanitize) no octet outside a buffer may be touched either."""
import ctypes
import os
import random
import sys
import threading
import time
import unittest

import scard
from scard import _scard

MISUSES = int(os.environ.get("SCARD_MISUSES", "60000"))
T1 = scard.T1(32, 4, 13)
SETUP = scard.Setup(T1)
NAMED = (scard.Error, TypeError, ValueError, OverflowError, IndexError, MemoryError)


class Changes(bytearray):
    """A buffer whose owner changes its octets as soon as it can."""


class Odd:
    """An object that isn't octets, and closes a state while it is asked for a number."""

    def __init__(self, act=lambda: None):
        self.act = act

    def __index__(self):
        self.act()
        return 32


class Broken:
    """An object that raises when it is asked for a number."""

    def __index__(self):
        raise KeyError("no number")


class Closed(unittest.TestCase):
    def every_call(self, end, names, octets):
        """Each of these calls of a closed end raises Closed."""
        for name in names:
            with self.assertRaises(scard.Closed, msg=name) as raised:
                call = getattr(end, name)
                call(octets) if name in ("transmit", "received", "reply", "feed") else call(5)
            self.assertIn("is closed", str(raised.exception))

    def test_closed_ends(self):
        terminal, card = scard.Terminal(T1), scard.Card(T1)
        terminal.transmit(b"abcde")
        for end in (terminal, card):
            end.close()
            end.close()
        self.every_call(terminal, ("transmit", "received", "ask_ifs"), b"abcde")
        self.every_call(card, ("received", "reply", "more_time", "ask_ifs"), b"abcde")
        self.assertRaises(scard.Closed, terminal.quiet)
        self.assertRaises(scard.Closed, lambda: terminal.answer)
        self.assertRaises(scard.Closed, lambda: card.command)

    def test_closed_readers(self):
        for reader in (scard.AtrReader(), scard.BlockReader(), scard.Receiver(), scard.TlvReader()):
            with reader:
                reader.feed(b"")
            self.assertRaises(scard.Closed, reader.feed, b"")
            self.assertRaises(scard.Closed, reader.finish)

    def test_closed_while_its_argument_is_made(self):
        """The number closes the end that is called: the call sees a closed end."""
        terminal, card = scard.Terminal(T1), scard.Card(T1)
        self.assertRaises(scard.Closed, terminal.ask_ifs, Odd(terminal.close))
        self.assertRaises(scard.Closed, card.more_time, Odd(card.close))

    def test_what_is_closed_is_overwritten(self):
        """The memory of the state has the command and the answer before it is closed, and neither afterwards."""
        terminal, room = scard.Terminal(T1, command_room=300, answer_room=300), 300
        terminal.transmit(b"PIN 1234")
        terminal.received(scard.Block.i(0, b"secret\x90\x00").encode())
        place = ctypes.pythonapi.PyCapsule_GetPointer
        place.restype, place.argtypes = ctypes.c_void_p, (ctypes.py_object, ctypes.c_char_p)
        at = place(terminal._end, b"terminal")
        before = ctypes.string_at(at, 2 * room)
        terminal.close()
        after = ctypes.string_at(at, 2 * room)
        self.assertTrue(b"PIN 1234" in before and b"secret" in before)
        self.assertFalse(b"PIN 1234" in after or b"secret" in after)


class WrongTypes(unittest.TestCase):
    def test_octets(self):
        for octets in ("00A4", 5, None, [0, 164], (1,), object(), 1.5, {1}):
            for call in (scard.Atr.decode, scard.Block.decode, scard.Command.decode, scard.Response.decode,
                         scard.Tlv.decode, scard.Tlv.check, scard.Dol.decode, scard.lrc, scard.is_text,
                         scard.Framer().feed, scard.AtrReader().feed, scard.Terminal(T1).transmit,
                         scard.Card(T1).received, lambda it: scard.Judge(32).block(scard.End.CARD, it),
                         lambda it: scard.cut(it, 3), lambda it: scard.Block.i(0, it)):
                self.assertRaises(TypeError, call, octets)

    def test_numbers(self):
        for number in (-1, 256, 2**64, 2**200):
            for call in (scard.Judge, scard.BlockReader, lambda it: scard.Block.decode(b"", it), scard.Block.r,
                         lambda it: scard.Terminal(scard.T1(it, 4, 13)), scard.Terminal(T1).ask_ifs,
                         scard.Card(T1).more_time, lambda it: scard.Block(it, 0, b"").encode()):
                self.assertRaises(OverflowError, call, number)
        for number in ("1", 1.0, None, b"1"):
            self.assertRaises(TypeError, scard.Judge, number)
        self.assertRaises(KeyError, scard.Judge, Broken())

    def test_out_of_range(self):
        for call in (lambda: scard.Judge(0), lambda: scard.Judge(255), lambda: scard.Block.decode(b"", 0),
                     lambda: scard.Times(T1, 0), lambda: scard.Times(scard.T1(0, 4, 13), 1),
                     lambda: scard.Judge(32).exercise(2, b""),
                     lambda: scard.Block.r(2), lambda: scard.Block.i(0, bytes(255)), lambda: scard.cut(b"", 0),
                     lambda: scard.cut(bytes(131073), 254), lambda: scard.Terminal(scard.T1(0, 4, 13)),
                     lambda: scard.Card(scard.T1(32, 16, 13)), lambda: scard.T1(0, 4, 13).cwt,
                     lambda: scard.T1(32, 16, 13).bwt(), lambda: scard.Tlv.decode(b"", 2**40),
                     lambda: scard.Receiver(most=131073), lambda: scard.Receiver(ifs=0),
                     lambda: scard.AtrReader().value,
                     lambda: scard.Response(bytes(65537), 0x90, 0).encode(), lambda: scard.Block.request(7),
                     lambda: scard.Dol.decode(b"").fill([scard.Known(b"", b"")]),
                     lambda: scard.Dol.decode(b"").fill([scard.Known(b"\x9A\x01\x01\x01", b"")]),
                     lambda: scard.Tlv.decode(b"").find(()), lambda: scard.Tlv.decode(b"").find([b"\x84"] * 17),
                     lambda: scard.Tlv.decode(b"").find("84/"), lambda: scard.Tlv.decode(b"").find("84818101")):
            self.assertRaises(scard.Argument, call)
        self.assertRaises(scard.Refused, scard.Tlv.decode(b"").find, "8g")
        self.assertRaises(scard.Refused, scard.Tlv.decode(b"").find, "840")
        self.assertRaises(IndexError, lambda: scard.Tlv.decode(b"")[0])

    def test_answers_to_reset(self):
        none, every = scard.Interface(None, None, None), scard.Interface(1, 1, 1)
        for atr in (scard.Atr(False, none, (), bytes(16)), scard.Atr(False, none, (scard.Indicated(16, none),), b""),
                    scard.Atr(False, every, (scard.Indicated(1, every),) * 31, b"")):
            self.assertRaises(scard.Argument, atr.encode)
            self.assertRaises(scard.Argument, atr.rates)
        for atr in (scard.Atr(False, none, (scard.Indicated(1, none),) * 32, b""), scard.Atr(False, none, (), "a"),
                    scard.Atr(False, scard.Interface("a", 1, 1), (), b"")):
            self.assertRaises(TypeError, atr.encode)
        self.assertRaises(scard.NoT1, scard.Atr(False, none, (), b"").t1)

    def test_capsules_of_other_kinds(self):
        terminal, framer = _scard.terminal_new(32, 4, 13, 9, 9), _scard.framer_new()
        for one in (framer, None, 5, b"", object()):
            self.assertRaises(TypeError, _scard.terminal_transmit, one, b"abcde")
            self.assertRaises(TypeError, _scard.terminal_answer, one)
            self.assertRaises(TypeError, _scard.tlv_count, one)
            _scard.terminal_close(one)
        self.assertRaises(TypeError, _scard.card_reply, terminal, b"")
        self.assertRaises(TypeError, _scard.begin, (int, ()))

    def test_huge(self):
        huge = memoryview(bytes(1)).cast("B")
        self.assertRaises(scard.Refused, scard.Tlv.decode, bytes(2 * scard.LARGEST))
        self.assertRaises(scard.Refused, scard.Response.decode, bytes(2**20))
        self.assertRaises(OverflowError, scard.Terminal, T1, command_room=2**63)
        self.assertRaises(scard.CallRefused, scard.Terminal(T1).transmit, bytes(65545))
        self.assertRaises(scard.CallRefused, scard.Terminal(T1, command_room=4).transmit, bytes(5))
        self.assertRaises(scard.Short, scard.Block.decode, huge)


class Threads(unittest.TestCase):
    def test_threads_share_a_state(self):
        """Calls of one end from several threads come one after another, while another thread changes the octets."""
        octets, ends, errors = Changes(bytes(300)), [scard.Terminal(T1), scard.Card(T1)], []
        tree, big = scard.Tlv.decode(bytes.fromhex("6F03500141")), Changes(bytes.fromhex("5000") * 20000)

        def works(seed):
            draw = random.Random(seed)
            try:
                for _ in range(1500):
                    self.one(draw, octets, ends, tree, big)
            except BaseException as error:  # an exception of a thread has to reach the test
                errors.append(error)

        before = sys.getswitchinterval()
        sys.setswitchinterval(1e-5)
        threads = [threading.Thread(target=works, args=(seed,)) for seed in range(4)]
        for thread in threads:
            thread.start()
        for thread in threads:
            thread.join()
        sys.setswitchinterval(before)
        self.assertEqual(errors, [])

    def test_a_long_call_holds_no_buffer_of_its_caller(self):
        """While a long call runs, the owner of its octets may change their number: the call has a copy."""
        big, running, errors = bytearray.fromhex("5000") * 500_000, [True], []

        def checks():
            while running:
                try:
                    scard.Tlv.check(big)
                except scard.Error:
                    pass

        thread = threading.Thread(target=checks)
        thread.start()
        for _ in range(60):
            time.sleep(0.001)
            try:
                big.append(0)
            except BufferError as error:
                errors.append(error)
        running.clear()
        thread.join()
        self.assertEqual(errors, [])

    def one(self, draw, octets, ends, tree, big):
        """One random call or change."""
        kind = draw.randrange(6)
        try:
            if kind == 0:
                octets[draw.randrange(300)] = draw.randrange(256)
            elif kind == 1:
                ends[0].transmit(octets)
            elif kind == 2:
                draw.choice(ends).received(octets)
            elif kind == 3:
                tree.find("6F/50")
            elif kind == 4 and draw.random() < 0.02:
                big[draw.randrange(len(big))] = draw.randrange(256)
                scard.Tlv.check(big)
            elif draw.random() < 0.01:
                ends[draw.randrange(2)].close()
                ends[:] = [scard.Terminal(T1), scard.Card(T1)]
        except scard.Error:
            pass


# how each state is made, by the front of the names of its functions
STATES = {
    "terminal": lambda: _scard.terminal_new(32, 4, 13, 300, 300),
    "card": lambda: _scard.card_new(32, 4, 13, 9, 9),
    "session": lambda: _scard.session_new(SETUP._plain(True), 300, 300),
    "card_session": lambda: _scard.card_session_new(SETUP._plain(False), 9, 9),
    "framer": _scard.framer_new,
    "judge": lambda: _scard.judge_new(32),
    "reader": lambda: _scard.reader_new(random.choice((1, 2, 3, 6)), 32, 0, 99),
    "tlv": lambda: _scard.tlv_parts(bytes.fromhex("6F03500141"), 99),
}


def kind_of(name):
    """Of which kind of state a function is, or None."""
    fronts = [it for it in STATES if name.startswith(f"{it}_")]
    return max(fronts, key=len) if fronts else None


def argument(draw, states):
    """A random argument."""
    kind = draw.randrange(9)
    if kind < 3:
        return draw.choice((bytes, bytearray, Changes))(draw.getrandbits(8) for _ in range(draw.randrange(40)))
    if kind < 6:
        return draw.choice((0, 1, 2, 3, 13, 32, 254, 255, 256, 65535, 2**32, 2**64 - 1, 2**64, -1, 0.5, True))
    if kind == 6:
        return draw.choice(list(states.values()))
    if kind == 7:
        return draw.choice((None, "6F", "", (), (b"\x84",), (None, 1, 2), ((1, None, 2, 3),), [], Odd(), Broken()))
    return draw.choice((b"", bytes(70000), memoryview(bytearray(9))[::2], scard.Tlv.decode(b"\x84\x01a")))


def count_of(name):
    """How many arguments a function takes, as its own exception says."""
    try:
        getattr(_scard, name)(*[None] * 20)
    except TypeError as error:
        return int(str(error).split()[0])
    return 0


class Random(unittest.TestCase):
    def test_random_calls(self):
        draw = random.Random(11)
        names = sorted(it for it in vars(_scard) if callable(getattr(_scard, it)) and it != "begin")
        counts, states = {it: count_of(it) for it in names}, {kind: make() for kind, make in STATES.items()}
        reached = set()
        for _ in range(MISUSES):
            name = draw.choice(names)
            given = [argument(draw, states) for _ in range(draw.randrange(8) if draw.random() < 0.1 else counts[name])]
            if given and kind_of(name) and draw.random() < 0.9:
                given[0] = states[kind_of(name)]
            if draw.random() < 0.05:
                kind = draw.choice(list(STATES))
                states[kind] = STATES[kind]()
            if self.ends_well(name, given):
                reached.add(name)
        if MISUSES >= 60000:
            self.assertGreater(len(reached), len(names) * 2 // 3, sorted(set(names) - reached))

    def ends_well(self, name, given):
        """Makes a call. Returns whether it returned. Otherwise its exception has to be one of those that are named."""
        try:
            getattr(_scard, name)(*given)
        except NAMED:
            return False
        except KeyError as error:  # that of Broken
            self.assertEqual(str(error), "'no number'")
            return False
        return True


if __name__ == "__main__":
    unittest.main(verbosity=0)
