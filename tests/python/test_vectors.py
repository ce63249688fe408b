"""Runs the vectors of the folder `vectors` through the package, in the format of docs/VECTORS.md: each line of `check`,
also octet by octet if there is a reader, each line of `build` without standard input, and every next block of a trace
through the judge."""
import pathlib
import re
import unittest

import scard

FOLDER = pathlib.Path(__file__).resolve().parents[2] / "vectors"
FILES = "atr block chain command response tlv dol".split()
LEAST = 6000
PARTS = {"n": "\n", "t": "\t", "s": " ", "e": ""}
FORMATS = {"n": scard.Format.NUMERIC, "c": scard.Format.COMPRESSED_NUMERIC, "o": scard.Format.OTHER}


def text_of(field):
    """The text that a field stands for. All fields that are read here are ASCII."""
    field = "" if field == "-" else field
    return re.sub(r"\\(x..|.)", lambda it: chr(int(it[1][1:], 16)) if it[1][0] == "x" else PARTS[it[1]], field)


def cases(name):
    """The cases of a file that need no standard input, and whose words have a form: its line, words, text."""
    for number, line in enumerate((FOLDER / name).read_text("ascii").split("\n"), 1):
        fields = line.split("\t")
        if len(fields) == 4 and not line.startswith("#") and fields[1] == "-" and fields[2] != "2":
            yield number, [text_of(word) for word in fields[0].split(" ")], text_of(fields[3])


def octets_of(word):
    """The octets of a word in hexadecimal."""
    return b"" if word in ("none", "") else bytes.fromhex(word)


def without_options(words):
    """The words without options, and the information size and number that these have."""
    joined, options = re.sub(r" --(ifs|number)[ =]\+?(\d+)", "", " ".join(words)), {"ifs": 254, "number": 0}
    options.update((name, int(value)) for name, value in re.findall(r" --(ifs|number)[ =]\+?(\d+)", " ".join(words)))
    return joined.split(" "), options["ifs"], options["number"]


def chain_of(octets, ifs, number):
    """How many octets the chain at their start has."""
    reader = scard.Receiver(ifs, number)
    came = reader.feed(octets)
    reader.finish()
    return came


def forest_of(octets):
    """How many octets a forest has, by its check and as a tree."""
    scard.Tlv.check(octets)
    return len(scard.Tlv.decode(octets).octets)


def all_of(decode):
    """A check of a value that takes all octets."""
    return lambda octets, ifs, number: (decode(octets), len(octets))[1]


CHECKS = {"atr": lambda octets, ifs, number: scard.Atr.check(octets),
          "block": lambda octets, ifs, number: scard.Block.check(octets, ifs),
          "chain": chain_of, "command": all_of(scard.Command.decode), "response": all_of(scard.Response.decode),
          "tlv": all_of(forest_of), "dol": all_of(scard.Dol.decode)}
READERS = {"atr": lambda ifs, number: scard.AtrReader(), "block": lambda ifs, number: scard.BlockReader(ifs),
           "chain": scard.Receiver, "tlv": lambda ifs, number: scard.TlvReader()}


def said(call, *words):
    """What the program prints for a check: the count of octets, or the refusal."""
    try:
        return f"ok {call(*words)} octets\n"
    except (scard.Refused, scard.Short) as refusal:
        return f"{refusal}\n"


def in_pieces(kind, octets, ifs, number):
    """The same by a reader, octet by octet."""
    reader, place, came = READERS[kind](ifs, number), 0, None
    while came is None and place < len(octets):
        came = reader.feed(octets[place:place + 1])
        place += 1
    reader.finish()
    return place


def lines_of(octets):
    """Octets as a line of the program."""
    return f"{octets.hex().upper() or 'none'}\n"


def filled(words):
    """What a line of `build fill` prints. The library decides on the list before it looks at what is known."""
    dol = scard.Dol.decode(octets_of(words[0]))
    known = (word.split(":") for word in words[1:])
    return lines_of(dol.fill(scard.Known(octets_of(tag), octets_of(value), FORMATS[how]) for how, tag, value in known))


def built(words):
    """What a line of `build` prints."""
    try:
        if words[0] == "tidy":
            return lines_of(scard.Tlv.decode(octets_of(words[1])).tidy())
        if words[0] == "fill":
            return filled(words[1:])
        blocks = scard.cut(octets_of(words[3]), int(words[1]), int(words[2]))
        return "".join(lines_of(block.encode()) for block in blocks)
    except (scard.Refused, scard.Short) as refusal:
        return f"{refusal}\n"
    except scard.Duplicate:
        return "refused: Duplicate\n"


def objects_of(objects):
    """Objects as `Tlv.build` takes them."""
    return [(it.tag, objects_of(it.objects) if it.is_constructed else it.value) for it in objects]


SIDES = {"t": scard.End.TERMINAL, "c": scard.End.CARD}
RESPONSES = {scard.Owed.RESYNCH_RESPONSE: "RESYNCH", scard.Owed.IFS_RESPONSE: "IFS", scard.Owed.ABORT_RESPONSE: "ABORT",
             scard.Owed.WTX_RESPONSE: "WTX"}


def due_of(due):
    """A block that is due, in the words of the program. Of two blocks that may be due, a part of the words."""
    owed, block, repeat = scard.Owed(due.owed), f"I-block {due.next}", f"R-block {due.expects}"
    if owed in RESPONSES:
        return f"{RESPONSES[owed]} response"
    return {scard.Owed.NEW_MESSAGE: block, scard.Owed.NEXT_BLOCK: block, scard.Owed.ACKNOWLEDGMENT: repeat,
            scard.Owed.CORRECTION: repeat, scard.Owed.REFUSAL: repeat,
            scard.Owed.SAME_BLOCK: f"I-block {1 - due.next} again",
            scard.Owed.SAME_REQUEST: f"{due.asked.name} request again"}.get(owed, "-block ")


def judged(trace):
    """The lines of the program about blocks that deviate or aren't judged, and how many blocks the trace has."""
    judge, number, lines = scard.Judge(32), 0, []
    for line in trace.splitlines():
        word, *rest = line.split()
        if word == "reset":
            judge = scard.Judge(32)
        elif word == "quiet":
            judge.quiet()
        else:
            number += 1
            arrival = {"lost": scard.Arrival.LOST, "as": scard.Arrival.CAME}[rest[1]]
            came = octets_of(rest[2]) if arrival is scard.Arrival.CAME else b""
            found = judge.block(SIDES[word], octets_of(rest[0]), arrival, came)
            if found.verdict is scard.Judged.DEVIATION:
                lines.append((f"block {number} {SIDES[word].name.lower()}: {found.rule.text}, due ", due_of(found.due),
                              f"  ({found.rule.clause})"))
            elif found.verdict is scard.Judged.ELSEWHERE:
                lines.append((f"block {number} {SIDES[word].name.lower()}: another logical connection, not judged", "",
                              "  (11.3.2.1)"))
    return lines, number


class Vectors(unittest.TestCase):
    def test_every_next_block(self):
        rows = [line.split("\t") for line in (FOLDER / "judge.next").read_text("ascii").split("\n")]
        rows = [it for it in rows if len(it) == 4]
        self.assertGreater(len(rows), 2000)
        for row in rows:
            wanted = [it for it in text_of(row[3]).splitlines() if it.startswith("block ")]
            lines, number = judged(text_of(row[1]))
            self.assertEqual((len(lines), number), (len(wanted), int(re.search(r"(\d+) blocks?", text_of(row[3]))[1])))
            for (before, due, after), line in zip(lines, wanted):
                self.assertTrue(line.startswith(before) and line.endswith(after), (line, before, after))
                self.assertIn(due, line[len(before):len(line) - len(after)])
                self.assertTrue(due == "-block " or line == before + due + after, line)


    def test_check(self):
        tried = 0
        for name in FILES:
            for number, words, text in [*cases(name), *cases(f"{name}.changes")]:
                words, ifs, first = without_options(words)
                if words[0] == "check":
                    tried += 1
                    octets = octets_of(words[2])
                    where = (name, number, words)
                    self.assertEqual(said(CHECKS[words[1]], octets, ifs, first), text, where)
                    if words[1] in READERS:
                        self.assertEqual(said(in_pieces, words[1], octets, ifs, first), text, where)
        self.assertGreater(tried, LEAST)

    def test_what_is_decoded_is_built_again(self):
        tried = 0
        for name in ("tlv", "dol"):
            for number, words, text in [*cases(name), *cases(f"{name}.changes")]:
                octets = octets_of(words[2]) if words[0] == "check" else b""
                if words[0] != "check" or len(words) != 3 or not text.startswith("ok"):
                    continue
                tried += 1
                if name == "dol":
                    again = scard.Dol.build((it.tag, it.length) for it in scard.Dol.decode(octets).entries).octets
                    self.assertEqual(again, octets, number)
                else:
                    forest = scard.Tlv.decode(octets)
                    self.assertEqual(scard.Tlv.build(objects_of(forest)).octets, forest.tidy(), number)
        self.assertGreater(tried, 40)

    def test_decode_refuses_as_check_does(self):
        for name, decode in (("atr", lambda octets, ifs: scard.Atr.decode(octets)), ("block", scard.Block.decode)):
            for number, words, text in [*cases(name), *cases(f"{name}.changes")]:
                words, ifs, _ = without_options(words)
                if words[0] == "check" and not text.startswith("ok"):
                    with self.assertRaises((scard.Refused, scard.Short), msg=(name, number)) as raised:
                        decode(octets_of(words[2]), ifs)
                    self.assertEqual(f"{raised.exception}\n", text)

    def test_build(self):
        tried = 0
        for number, words, text in cases("build"):
            if words[0] == "build":
                tried += 1
                self.assertEqual(built(words[1:]), text, (number, words))
        self.assertGreater(tried, 20)


if __name__ == "__main__":
    unittest.main(verbosity=0)
