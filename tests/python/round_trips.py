"""Round trips of the codecs, over values that hypothesis makes. test_round_trips.py runs this, by an interpreter that
has hypothesis and the package.

Of each codec: what is encoded is decoded to the same value; what is decoded is encoded to the same octets, or to
canonical ones if the codec reads several forms; and any octets are a value, or raise Refused or Short, and nothing
else. The values are the same in each run.
"""
import collections
import unittest

import hypothesis
from hypothesis import given
from hypothesis import strategies as st

import scard

# how many values there are of each test, and how many octets at least are a value or not
EXAMPLES, LEAST = 30, 4
hypothesis.settings.register_profile("scard", max_examples=EXAMPLES, derandomize=True, database=None, deadline=None,
                                     suppress_health_check=list(hypothesis.HealthCheck))
hypothesis.settings.load_profile("scard")

OCTET = st.integers(0, 255)
MAYBE = st.none() | OCTET
ANY = st.binary(max_size=300)


def spoiled(values):
    """The octets of values, with one octet changed, or cut, or with octets after them: nearer to a value than any."""
    def changes(octets, place, octet, rest, way):
        place %= max(len(octets), 1)
        return {"longer": octets + rest, "cut": octets[:place],
                "changed": octets[:place] + bytes([octet]) + octets[place + 1:]}[way]
    ways = st.sampled_from(("longer", "changed", "cut"))
    return st.builds(changes, values, st.integers(0, 400), OCTET, st.binary(max_size=3), ways)


def encoded(values):
    """The octets of values."""
    return values.map(lambda it: it.encode())


# ---- values

INTERFACES = st.builds(scard.Interface, MAYBE, MAYBE, MAYBE)
INDICATED = st.builds(scard.Indicated, st.integers(0, 15), INTERFACES)
ATRS = st.builds(scard.Atr, st.booleans(), INTERFACES, st.lists(INDICATED, max_size=3).map(tuple),
                 st.binary(max_size=15))
I_BLOCKS = st.builds(scard.Block.i, st.integers(0, 1), st.binary(max_size=254), more=st.booleans(), nad=OCTET)
R_BLOCKS = st.builds(scard.Block.r, st.integers(0, 1), st.sampled_from(list(scard.Fault)), nad=OCTET)
WITH_OCTET = scard.About.IFS, scard.About.WTX
S_BLOCKS = st.builds(lambda makes, about, octet, nad: makes(about, octet if about in WITH_OCTET else b"", nad=nad),
                     st.sampled_from((scard.Block.request, scard.Block.response)), st.sampled_from(list(scard.About)),
                     st.integers(1, 254).map(lambda it: bytes([it])), OCTET)
BLOCKS = I_BLOCKS | R_BLOCKS | S_BLOCKS
COMMANDS = st.builds(lambda header, data, le, extended: scard.Command.of(*header, data, le, extended=extended),
                     st.tuples(OCTET, OCTET, OCTET, OCTET),
                     st.binary(max_size=20) | st.just(bytes(255)) | st.just(bytes(256)),
                     st.none() | st.sampled_from((1, 255, 256, 257, 65535, 65536)), st.booleans())
RESPONSES = st.builds(scard.Response, st.binary(max_size=300), OCTET, OCTET)
PRIMITIVE = st.sampled_from(("84", "50", "5F20", "9F65", "DF8101"))
CONSTRUCTED = st.sampled_from(("70", "6F", "A5", "BF0C"))
OBJECTS = st.recursive(st.tuples(PRIMITIVE, st.binary(max_size=140)),
                       lambda inner: st.tuples(CONSTRUCTED, st.lists(inner, max_size=4)), max_leaves=12)
FORESTS = st.lists(OBJECTS, max_size=5)
ENTRIES = st.lists(st.tuples(PRIMITIVE | CONSTRUCTED, OCTET), max_size=12)

# how often octets were a value of a codec, or not
CAME = collections.Counter()


def parts(objects):
    """Objects as `Tlv.build` takes them."""
    return [(it.tag.hex().upper(), parts(it.objects) if it.is_constructed else it.value) for it in objects]


def decoded(decode, octets):
    """The value that octets are, or None if they are refused or end too early. Anything else is raised."""
    try:
        value = decode(octets)
        CAME[decode.__qualname__, True] += 1
        return value
    except (scard.Refused, scard.Short) as fault:
        CAME[decode.__qualname__, False] += 1
        if not 0 <= fault.place <= len(octets):
            raise AssertionError(f"place {fault.place} of {len(octets)} octets") from fault
        return None


class Encoded(unittest.TestCase):
    """What is encoded is decoded to the same value."""

    @given(ATRS)
    def test_answers_to_reset(self, atr):
        """Encoding refuses one that is longer than answers to reset may be."""
        try:
            octets = atr.encode()
        except scard.Argument:
            return
        self.assertEqual(scard.Atr.decode(octets), atr)
        self.assertEqual(scard.Atr.check(octets), len(octets))

    @given(BLOCKS)
    def test_blocks(self, block):
        octets = block.encode()
        self.assertEqual(scard.Block.decode(octets), block)
        self.assertEqual((scard.Block.check(octets), scard.lrc(octets)), (len(octets), 0))

    @given(COMMANDS)
    def test_commands(self, command):
        self.assertEqual(scard.Command.decode(command.encode()), command)

    @given(RESPONSES)
    def test_responses(self, response):
        self.assertEqual(scard.Response.decode(response.encode()), response)

    @given(FORESTS)
    def test_forests(self, objects):
        forest = scard.Tlv.build(objects)
        self.assertEqual(parts(scard.Tlv.decode(forest.octets)), objects)
        self.assertEqual(forest.tidy(), forest.octets)

    @given(ENTRIES)
    def test_lists_of_data_objects(self, entries):
        dol = scard.Dol.build(entries)
        self.assertEqual([(it.tag.hex().upper(), it.length) for it in scard.Dol.decode(dol.octets).entries], entries)

    @given(st.binary(max_size=600), st.integers(1, 254), st.integers(0, 1))
    def test_chains(self, message, size, number):
        blocks = scard.cut(message, size, number)
        reader = scard.Receiver(size, number)
        octets = b"".join(it.encode() for it in blocks)
        self.assertEqual((reader.feed(octets), reader.message), (len(octets), message))


class Decoded(unittest.TestCase):
    """What is decoded of any octets is encoded to the same octets, or there is a refusal. Of each codec both come."""

    @classmethod
    def tearDownClass(cls):
        rare = [(name, way) for name, _ in CAME for way in (True, False) if CAME[name, way] < LEAST]
        if rare:
            raise AssertionError(f"too few octets that are values or aren't: {rare}")

    @given(ANY | spoiled(encoded(ATRS.filter(lambda it: len(it.historical) < 9 and len(it.indicated) < 2))))
    def test_answers_to_reset(self, octets):
        atr = decoded(scard.Atr.decode, octets)
        if atr is not None:
            self.assertEqual(atr.encode(), octets[:scard.Atr.check(octets)])

    @given(ANY | spoiled(encoded(BLOCKS)))
    def test_blocks(self, octets):
        block = decoded(scard.Block.decode, octets)
        if block is not None:
            self.assertEqual(block.encode(), octets[:scard.Block.check(octets)])

    @given(ANY | spoiled(encoded(COMMANDS)))
    def test_commands(self, octets):
        command = decoded(scard.Command.decode, octets)
        if command is not None:
            self.assertEqual(command.encode(), octets)

    @given(ANY | spoiled(encoded(RESPONSES)))
    def test_responses(self, octets):
        response = decoded(scard.Response.decode, octets)
        if response is not None:
            self.assertEqual(response.encode(), octets)

    @given(ANY | spoiled(FORESTS.map(lambda it: scard.Tlv.build(it).octets)))
    def test_forests(self, octets):
        """`tidy` is the canonical encoding: it has the same objects, and is its own."""
        forest = decoded(scard.Tlv.decode, octets)
        if forest is not None:
            self.assertEqual(forest.octets, octets)
            tidy = scard.Tlv.decode(forest.tidy())
            self.assertEqual((parts(tidy), tidy.tidy()), (parts(forest), tidy.octets))
            self.assertEqual(scard.Tlv.build(parts(forest)).octets, tidy.octets)

    @given(ANY | spoiled(ENTRIES.map(lambda it: scard.Dol.build(it).octets)))
    def test_lists_of_data_objects(self, octets):
        dol = decoded(scard.Dol.decode, octets)
        if dol is not None:
            self.assertEqual(scard.Dol.build((it.tag, it.length) for it in dol.entries), dol)


if __name__ == "__main__":
    unittest.main()
