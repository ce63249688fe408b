"""Tests the values of the package: its doctests, its numbers beside those of scard.h, round trips of random values,
pickles and copies, and the buffers that it takes."""
import array
import copy
import dataclasses
import doctest
import enum
import mmap
import pathlib
import pickle
import random
import re
import unittest

import scard
from scard import _scard

HEADER = pathlib.Path(__file__).resolve().parents[2] / "dist/c/scard.h"
# each enum of the header, with the prefix that its names have beside SCARD_
ENUMS = {"codec": (scard.Codec, "CODEC_"), "t1_fault": (scard.T1Fault, "T1_"), "block_fault": (scard.Fault, "FAULT_"),
         "block_about": (scard.About, "S_"), "shape": (scard.Shape, ""), "status_class": (scard.StatusClass, "CLASS_"),
         "format": (scard.Format, ""), "noted": (scard.Noted, "NOTED_"), "end": (scard.End, "END_"),
         "arrival": (scard.Arrival, "ARRIVAL_"), "judged": (scard.Judged, "JUDGED_"), "rule": (scard.Rule, "RULE_"),
         "off_time": (scard.OffTime, "OFF_TIME_"), "silence": (scard.Silence, "SILENCE_"),
         "owed": (scard.Owed, "OWED_"), "asked": (scard.Asked, "ASKED_")}
EXTRA = {scard.Codec: {"NONE": 0}, scard.T1Fault: {"USABLE": 0}}
ROUNDS = 2000


def numbers_of(name, prefix):
    """The names and numbers of an enum of the header."""
    body = re.search(rf"^enum scard_{name} \{{(.*?)\}}", HEADER.read_text(), re.M | re.S)[1]
    body = re.sub(r"/\*.*?\*/", "", body, flags=re.S)
    return {it[0]: int(it[1]) for it in re.findall(rf"\bSCARD_{prefix}(\w+) = (\d+)", body)}


def some(draw, most):
    """Random octets."""
    return bytes(draw.getrandbits(8) for _ in range(draw.randrange(most + 1)))


def interface(draw):
    """Random interface bytes."""
    return scard.Interface(*(draw.choice((None, draw.randrange(256))) for _ in range(3)))


def forest(draw, depth):
    """The octets of a random forest."""
    tags = (b"\x70", b"\x6F", b"\xA5", b"\xBF\x0C") if depth else (b"\x84", b"\x5F\x20", b"\x9F\x65")
    parts = []
    for _ in range(draw.randrange(1, 4)):
        value = forest(draw, depth - 1) if depth else some(draw, 9)
        parts.append(draw.choice(tags) + (b"\x81" if len(value) > 127 else b"") + bytes([len(value)]) + value)
    return b"".join(parts)[:255] if depth == 0 else b"".join(parts)


def parts_of(objects):
    """Objects as `Tlv.build` takes them."""
    return [(it.tag, parts_of(it.objects) if it.is_constructed else it.value) for it in objects]


class Texts(unittest.TestCase):
    def test_least(self):
        """How many more octets must come at least, at each cut of a value that isn't a value itself."""
        rows = ((scard.Block.decode, "000001AAAB", (4, 3, 2, 2, 1)), (scard.Command.decode, "00A40400", (4, 3, 2, 1)),
                (scard.Response.decode, "9000", (2, 1)), (scard.Atr.decode, "3B80800101", (2, 1, 1, 1, 1)),
                (scard.Tlv.decode, "70035A0112", (None, 1, 3, 2, 1)), (scard.Dol.decode, "9F0206", (None, 2, 1)))
        for decode, text, leasts in rows:
            octets = bytes.fromhex(text)
            for cut, least in enumerate(leasts):
                if least is not None:
                    with self.assertRaises(scard.Short, msg=(text, cut)) as raised:
                        decode(octets[:cut])
                    self.assertEqual((raised.exception.place, raised.exception.least), (cut, least))
        for reader, least in ((scard.BlockReader(), 2), (scard.AtrReader(), 1), (scard.TlvReader(), None)):
            reader.feed(b"\x3B\x00" if isinstance(reader, scard.BlockReader) else b"\x3B")
            with self.assertRaises(scard.Short) as raised:
                reader.finish()
            self.assertEqual(raised.exception.least, least)

    def test_doctests(self):
        runner = doctest.DocTestRunner()
        tests = doctest.DocTestFinder().find(scard, "scard", module=False, globs=dict(vars(scard)))
        for test in tests:
            runner.run(test)
        self.assertEqual(runner.failures, 0)
        self.assertGreater(runner.tries, 50)

    def test_all_that_is_public_says_what_it_is(self):
        for name in scard.__all__:
            one = getattr(scard, name)
            if isinstance(one, type) or callable(one):
                self.assertTrue(one.__doc__ and not one.__doc__.startswith(f"{name}("), name)

    def test_numbers_are_those_of_the_header(self):
        for name, (made, prefix) in ENUMS.items():
            mine = {**EXTRA.get(made, {}), **{it.name: int(it) for it in made}}
            if made is scard.Codec:
                del mine["NONE"]
            self.assertEqual(numbers_of(name, prefix), mine, name)
        turns = {it.name: int(it) for it in scard.TurnKind if it < 64}
        self.assertEqual(numbers_of("turn_kind", ""), turns)

    def test_names_are_those_of_the_library(self):
        self.assertEqual([it.label for it in scard.TurnKind if it < 64], [it.name for it in scard.TurnKind if it < 64])
        self.assertTrue(all(it.text and it.clause for it in scard.Rule))
        self.assertEqual(scard.reasons(0), ())
        self.assertTrue(all(scard.reasons(it) for it in scard.Codec if it))
        self.assertEqual(scard.__version__, re.search(r'VERSION_TEXT "(.*)"', HEADER.read_text())[1])


class RoundTrips(unittest.TestCase):
    def setUp(self):
        self.draw = random.Random(7)

    def test_answers_to_reset(self):
        for _ in range(ROUNDS):
            draw = self.draw
            tds = tuple(scard.Indicated(draw.randrange(16), interface(draw)) for _ in range(draw.randrange(3)))
            atr = scard.Atr(draw.random() < 0.5, interface(draw), tds, some(draw, 15))
            octets = atr.encode()
            self.assertEqual(scard.Atr.decode(octets), atr)
            self.assertEqual(scard.Atr.check(octets + b"\0"), len(octets))
            self.assertEqual(scard.Atr.decode(octets).encode(), octets)

    def test_blocks(self):
        for _ in range(ROUNDS):
            draw, inf = self.draw, some(self.draw, 254)
            block = scard.Block.i(draw.randrange(2), inf, more=draw.random() < 0.5, nad=draw.randrange(256))
            self.assertEqual(scard.Block.decode(block.encode() + b"\x01"), block)
            self.assertEqual(scard.Block.check(block.encode()), len(inf) + 4)
            self.assertEqual(scard.lrc(block.encode()), 0)

    def test_every_control_octet(self):
        """The library has 18 of them, and each has one meaning."""
        known = {}
        for pcb in range(256):
            block = scard.Block(0, pcb, b"")
            try:
                known[pcb] = block.control
            except scard.Argument:
                for inf in (b"", b"\x01", b"\x01\x01"):
                    self.assertRaises(scard.Argument, scard.Block(0, pcb, inf).encode)
        self.assertEqual((len(known), len(set(known.values()))), (18, 18))

    def test_control_octets_by_the_standard(self):
        """ISO/IEC 7816-3, clause 11.3.2.2."""
        self.assertEqual(scard.Block.decode(bytes.fromhex("00600060")).number, 1)
        self.assertTrue(scard.Block(0, 0x20, b"").more)
        self.assertFalse(scard.Block(0, 0x40, b"").more)
        self.assertEqual(scard.Block(0, 0x82, b"").fault, scard.Fault.OTHER)
        self.assertEqual(scard.Block(0, 0x90, b"").number, 1)
        self.assertEqual((scard.Block(0, 0xC3, b"").kind, scard.Block(0, 0xC3, b"").about),
                         (scard.Kind.REQUEST, scard.About.WTX))
        self.assertEqual((scard.Block(0, 0xE0, b"").kind, scard.Block(0, 0xE0, b"").about),
                         (scard.Kind.RESPONSE, scard.About.RESYNCH))

    def test_commands(self):
        for _ in range(ROUNDS):
            draw, header = self.draw, [self.draw.randrange(256) for _ in range(4)]
            data = some(draw, draw.choice((0, 9, 255, 300)))
            le = draw.choice((None, 1, 256, 257, 65536))
            command = scard.Command.of(*header, data, le, extended=draw.random() < 0.3)
            self.assertEqual(scard.Command.decode(command.encode()), command)

    def test_the_shortest_case(self):
        shapes = [scard.Command.of(0, 0, 0, 0, *it).shape.name for it in
                  ((), (b"", 256), (b"a", None), (b"a", 1), (b"", 257), (bytes(256), None), (bytes(256), 1))]
        self.assertEqual(shapes, ["CASE_1", "CASE_2_SHORT", "CASE_3_SHORT", "CASE_4_SHORT", "CASE_2_LONG",
                                  "CASE_3_LONG", "CASE_4_LONG"])
        long = [scard.Command.of(0, 0, 0, 0, *it, extended=True).shape.name for it in
                ((), (b"", 1), (b"a", None), (b"a", 1))]
        self.assertEqual(long, ["CASE_1", "CASE_2_LONG", "CASE_3_LONG", "CASE_4_LONG"])
        self.assertRaises(scard.Argument, scard.Command.of, 0, 0, 0, 0, bytes(65536))
        self.assertRaises(scard.Argument, scard.Command.of, 0, 0, 0, 0, b"", 65537)
        self.assertRaises(scard.Argument, scard.Command.of, 0, 0, 0, 0, b"", 0)

    def test_responses(self):
        for _ in range(ROUNDS):
            response = scard.Response(some(self.draw, 300), self.draw.randrange(256), self.draw.randrange(256))
            self.assertEqual(scard.Response.decode(response.encode()), response)
        self.assertEqual(scard.Response(b"", 0x90, 0).status_class, scard.StatusClass.NORMAL)
        self.assertEqual(scard.Response(b"", 0x90, 0).sw, 0x9000)

    def test_forests(self):
        for _ in range(ROUNDS // 4):
            octets = forest(self.draw, self.draw.randrange(4))
            tree = scard.Tlv.decode(octets)
            self.assertEqual(b"".join(it.octets for it in tree), octets)
            self.walked(tree)
            self.assertEqual(scard.Tlv.build(parts_of(tree)).octets, tree.tidy())

    def test_what_is_not_built(self):
        for tag in (b"", b"\0", b"\x9F", b"\x84\x01", b"\x9F\x00", b"\x1F\x80\x01", b"\x9F\x81\x80", bytes(4), "9F"):
            self.assertRaises(scard.Argument, scard.Tlv.build, [(tag, b"")])
            self.assertRaises(scard.Argument, scard.Dol.build, [(tag, 1)])
        self.assertRaises(scard.Refused, scard.Tlv.build, [("84", bytes(scard.LARGEST))])
        self.assertRaises(scard.Argument, scard.Tlv.build, [("84", bytes(scard.LARGEST + 1))])
        self.assertRaises(scard.Refused, scard.Tlv.build, [("6F", b"\x84")])
        self.assertRaises(OverflowError, scard.Dol.build, [("84", 256)])

    def test_every_reason_has_a_sentence(self):
        for codec in (it for it in scard.Codec if it):
            for reason in scard.reasons(codec):
                self.assertRegex(scard.Refused(0, reason, codec).sentence, r"^[A-Z].*\.$")
        self.assertEqual(scard.Refused(0, "none", scard.Codec.ATR).sentence, "")

    def walked(self, tree):
        """Every object is where its parent has it, and the walk has each once."""
        seen, to_do = [], list(tree)
        while to_do:
            one = to_do.pop(0)
            seen.append(one)
            self.assertEqual((one.octets[:len(one.tag)], one.octets[-one.length or len(one.octets):]),
                             (one.tag, one.value))
            if one.is_constructed:
                self.assertEqual(b"".join(it.octets for it in one), one.value)
            self.assertTrue(all(it.depth == one.depth + 1 for it in one))
            to_do = [*one.objects, *to_do]
        self.assertEqual(seen, list(tree.walk()))

    def test_paths(self):
        """`find` is the first by depth first, as a search of the tree by hand finds it."""
        for _ in range(ROUNDS // 4):
            tree = scard.Tlv.decode(forest(self.draw, 2))
            for one in tree.walk():
                path = self.path_to(tree, one)
                self.assertEqual(tree.find(path), self.by_hand(tree, path))
                inside = tree.find(path[:1])
                if len(path) > 1:
                    self.assertEqual(inside.find(path[1:]), self.by_hand(inside, path[1:]))
                self.assertEqual(tree.find("/".join(it.hex() for it in path)), tree.find(path))

    def path_to(self, tree, wanted):
        """The tags from the outermost object to one."""
        around = [it for it in tree.walk() if it.start <= wanted.start and wanted.end <= it.end
                  and it.index <= wanted.index and it.depth <= wanted.depth]
        return tuple(it.tag for it in around if it.depth < wanted.depth or it == wanted)

    def by_hand(self, within, path):
        """The first object on a path."""
        for one in within:
            if one.tag == path[0]:
                found = one if len(path) == 1 else self.by_hand(one, path[1:])
                if found is not None:
                    return found
        return None

    def test_chains(self):
        for _ in range(200):
            message, ifs = some(self.draw, 3000), self.draw.randrange(1, 255)
            blocks = scard.cut(message, ifs, 1)
            self.assertEqual(b"".join(it.inf for it in blocks), message)
            reader, octets = scard.Receiver(ifs, 1), b"".join(it.encode() for it in blocks)
            self.assertEqual(reader.feed(octets), len(octets))
            self.assertEqual(reader.message, message)
            reader.restart(1)
            self.assertRaises(scard.Argument, getattr, reader, "message")
            self.assertEqual(reader.feed(octets), len(octets))
            self.assertRaises(scard.Argument, reader.restart, 2)
            self.assertEqual(reader.message, message)


class Values(unittest.TestCase):
    VALUES = [scard.Atr.decode(bytes.fromhex("3B858131FE458073800140BC")), scard.T1(32, 4, 13), scard.Rates(372, 1),
              scard.Block.i(1, b"ab"), scard.Block.i(1).control, scard.Command.of(0, 1, 2, 3, b"a", 5),
              scard.Response(b"a", 0x90, 0), scard.Tlv.decode(bytes.fromhex("6F03500141")),
              scard.Tlv.decode(bytes.fromhex("6F03500141")).find("6F/50"), scard.Dol.decode(bytes.fromhex("9F0206")),
              scard.Known(b"\x9A", b"a"), scard.Terminal(scard.T1(32, 4, 13)).transmit(b"abcde"),
              scard.Judge(32).block(scard.End.CARD, b"abcde"), scard.Judge(32).finish()]

    def test_the_wait_of_a_turn(self):
        """A terminal waits as many times BWT as it granted, and a card without limit."""
        terminal, card = scard.Terminal(scard.T1(32, 4, 13)), scard.Card(scard.T1(32, 4, 13))
        card.received(terminal.transmit(b"abcde").octets)
        turn = card.more_time(3)
        self.assertEqual(turn.wait, 0)
        turn = terminal.received(turn.octets)
        self.assertEqual((turn.wait, scard.Block.decode(turn.octets).kind), (3, scard.Kind.RESPONSE))

    def test_a_judgment(self):
        """The numbers of a judgment, each in its own field."""
        judge, (mine, yours) = scard.Judge(32), (scard.End.TERMINAL, scard.End.CARD)
        command, answer = scard.Block.i(0, b"abcde").encode(), scard.Block.i(0, b"\x90\x00").encode()
        first = judge.block(mine, command, scard.Arrival.CAME, command)
        quiet = judge.quiet()
        again = judge.block(mine, scard.Block.r(0, scard.Fault.OTHER).encode())
        last = judge.block(yours, answer)
        wrong = judge.block(yours, answer)
        self.assertEqual([(it.number, it.before, it.unanswered) for it in (first, quiet, again, last, wrong)],
                         [(1, 0, 0), (0, 0, 1), (2, 0, 0), (3, 2, 0), (4, 2, 0)])
        self.assertEqual([it.silence for it in (first, quiet)], [scard.Silence.NO, scard.Silence.CERTAIN])
        self.assertEqual((wrong.rule, wrong.verdict), (scard.Rule.TURN, scard.Judged.DEVIATION))

    def test_what_a_block_exercises(self):
        """The rules that a permitted block keeps, and the one that another block breaks. Nothing is taken."""
        judge, rule = scard.Judge(32), scard.Rule
        command, octets = scard.Block.i(0, b"abcde").encode(), scard.Block.i(1, b"abcde").encode()
        first = judge.exercise(scard.End.TERMINAL, command)
        self.assertEqual(judge.exercise(scard.End.TERMINAL, command), first)
        self.assertEqual((first.broken, first.due), (None, scard.Owed.NEW_MESSAGE))
        self.assertEqual(first.kept, (
            rule.NODE_ADDRESS, rule.CONTROL_OCTET, rule.LENGTH, rule.RESERVED_SIZE, rule.FIELD_SIZE,
            rule.FOREIGN_REQUEST, rule.SEQUENCE_NUMBER, rule.BLOCK_DUE, rule.UNASKED, rule.NO_CHAIN, rule.CHECK_OCTET))
        self.assertEqual(judge.exercise(scard.End.TERMINAL, octets),
                         scard.Exercise((), rule.SEQUENCE_NUMBER, scard.Owed.NEW_MESSAGE))
        self.assertEqual(judge.exercise(scard.End.CARD, command), scard.Exercise((), rule.TURN, None))
        self.assertEqual(judge.exercise(scard.End.CARD, b"abc"), scard.Exercise((), None, None))
        self.assertEqual(judge.block(scard.End.TERMINAL, command).number, 1)

    def test_times_of_blocks(self):
        """A card's block that is late by a microsecond, and a terminal's that is early by one."""
        request, answer = bytes.fromhex("00C000C0"), bytes.fromhex("00E000E0")
        judge, times = scard.Judge(32), scard.Times(scard.T1(32, 4, 5), 3571200)
        rows = ((scard.End.TERMINAL, request, 0, scard.Timed(scard.OffTime.NO, 0, 0, False)),
                (scard.End.CARD, answer, 1614585, scard.Timed(scard.OffTime.LATE, 1614585, 1614584, True)),
                (scard.End.TERMINAL, request, 1700000, scard.Timed(scard.OffTime.NO, 0, 0, False)),
                (scard.End.CARD, answer, 1710000, scard.Timed(scard.OffTime.NO, 0, 0, False)),
                (scard.End.TERMINAL, request, 1715728, scard.Timed(scard.OffTime.EARLY, 5728, 5729, False)))
        for end, octets, first, wanted in rows:
            self.assertEqual(times.block(judge, end, octets, first=first), wanted)
            judge.block(end, octets)
        self.assertRaises(scard.Argument, times.block, judge, scard.End.CARD, answer, first=1715727)
        self.assertEqual(times.block(judge, scard.End.CARD, answer, last=1715728).off, scard.OffTime.NO)
        unknown = scard.Times(scard.T1(32, 4, 5), 3571200, scard.Rates(0, 0))
        self.assertEqual(unknown.block(scard.Judge(32), scard.End.TERMINAL, request, first=0).off, scard.OffTime.NO)

    def test_values_pickle(self):
        for value in self.VALUES:
            for number in range(pickle.HIGHEST_PROTOCOL + 1):
                self.assertEqual(pickle.loads(pickle.dumps(value, number)), value)
            self.assertEqual(copy.deepcopy(value), value)
            self.assertEqual(hash(copy.copy(value)), hash(value))

    def test_values_are_frozen(self):
        for value in self.VALUES:
            for field in dataclasses.fields(value) if dataclasses.is_dataclass(value) else ():
                with self.assertRaises(dataclasses.FrozenInstanceError):
                    setattr(value, field.name, 1)

    def test_what_the_library_makes_has_the_types_of_its_fields(self):
        for value in self.VALUES:
            kinds = {name: type(getattr(value, name)) for name in ("kind", "shape", "verdict", "silence")
                     if hasattr(value, name)}
            self.assertTrue(all(issubclass(it, enum.Enum) for it in kinds.values()), kinds)

    def test_exceptions_pickle(self):
        for call, octets in ((scard.Atr.decode, b"a"), (scard.Block.decode, b""), (scard.Tlv.decode, b"\x84")):
            with self.assertRaises(scard.Error) as raised:
                call(octets)
            again = pickle.loads(pickle.dumps(raised.exception))
            self.assertEqual((type(again), str(again), vars(again)),
                             (type(raised.exception), str(raised.exception), vars(raised.exception)))

    def test_states_do_not_pickle(self):
        states = [scard.Terminal(scard.T1(32, 4, 13)), scard.Card(scard.T1(32, 4, 13)), scard.Framer(),
                  scard.AtrReader(), scard.Receiver(), scard.Judge(32)]
        for state in states:
            self.assertRaises(TypeError, pickle.dumps, state)
            self.assertRaises(TypeError, copy.copy, state)
            self.assertRaises(TypeError, copy.deepcopy, state)

    def test_any_buffer(self):
        octets = bytes.fromhex("00000500A4040000A5")
        place = mmap.mmap(-1, len(octets))
        place[:] = octets
        spread = bytes(it for octet in octets for it in (octet, 0xEE))
        for buffer in (octets, bytearray(octets), memoryview(octets), array.array("B", octets), place,
                       memoryview(spread)[::2], memoryview(bytearray(octets)).cast("B", (3, 3))):
            self.assertEqual(scard.Block.decode(buffer).inf, octets[3:8])
            self.assertEqual(scard.lrc(buffer), 0)
        words = array.array("H", [0x1234])
        self.assertEqual(_scard.lrc(words), 0x12 ^ 0x34)

    def test_a_value_keeps_its_octets(self):
        octets = bytearray.fromhex("6F03500141")
        tree = scard.Tlv.decode(octets)
        octets[:] = bytes(5)
        octets.append(1)
        self.assertEqual(tree.find("6F/50").value, b"A")


if __name__ == "__main__":
    unittest.main(verbosity=0)
