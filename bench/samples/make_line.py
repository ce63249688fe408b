#!/usr/bin/env python3
"""Writes the samples of a logic analyser and of USB, for the script `make` beside this file.

usage: make_line.py LOG DIR

The line is that of a session: an answer to reset, a request for a size, two commands, a block of which one character
has a wrong parity, and a block that nobody answers within the waiting time. DIR gets

  line.vcd            the line as a logic analyser samples it, for sigrok-cli
  saleae-1.csv        what Saleae Logic 1 exports of it, by its documentation
  saleae-2.csv        what Saleae Logic 2 exports of it, by its documentation
  usbmon.pcap         the messages of LOG, which is the output of pcscd, under the header of Linux's usbmon
  usbmon.pcapng       the same as Wireshark writes it
"""
import pathlib
import struct
import sys

sys.dont_write_bytecode = True
sys.path.insert(0, str(pathlib.Path(__file__).resolve().parents[1]))
from scard_bench.ccid_log import Framed, rows
from scard_bench.trace import Trace

EPOCH = 1_700_000_000
ETU = 372 / 3.5712
CHARACTER, TURN, WAITED = 12 * ETU, 40 * ETU, 1_700_000
ATR = "3B858131FE458073800140BC"
# who sends, what, how long the line was silent before, and which octet has a wrong parity
LINE = (
    ("c", ATR, 20_000, None), ("t", "00C101FE3E", 5_000, None), ("c", "00E101FE1E", TURN, None),
    ("t", "00000500A4040000A5", TURN, None), ("c", "0000026A82EA", TURN, 3),
    ("t", "00810081", TURN, None), ("c", "0000026A82EA", TURN, None),
    ("t", "00400500B0000020D5", TURN, None), ("t", "00900090", WAITED, None),
    ("c", "00400401029000D7", TURN, None),
)


def characters():
    """The characters of the line: their moments in microseconds, their octets, and whether their parity is wrong."""
    now = 0.0
    for _, text, silence, wrong in LINE:
        now += silence
        for at, octet in enumerate(bytes.fromhex(text)):
            yield now, octet, at == wrong
            now += CHARACTER


def levels(octet, is_wrong):
    """The levels of a character: a start bit, eight data bits from the lowest on, and an even parity bit."""
    bits = [octet >> at & 1 for at in range(8)]
    return [0, *bits, sum(bits) & 1 ^ is_wrong]


def vcd():
    """The line as Verilog's value change dump, a sample a microsecond."""
    text = ["$timescale 1 us $end", "$scope module card $end", "$var wire 1 ! io $end", "$upscope $end",
            "$enddefinitions $end", "#0", "1!"]
    last, end = 1, 0
    for moment, octet, is_wrong in characters():
        for at, level in enumerate([*levels(octet, is_wrong), 1]):
            if level != last:
                text += [f"#{round(moment + at * ETU)}", f"{level}!"]
                last = level
        end = round(moment + 14 * ETU)
    return "\n".join([*text, f"#{end}", ""])


def saleae_1():
    """The table of Logic 1."""
    rows_of = (f"{moment / 1e6:.15f},0x{octet:02X},{'Error' if is_wrong else ''},"
               for moment, octet, is_wrong in characters())
    return "\n".join(["Time [s],Value,Parity Error,Framing Error", *rows_of, ""])


def saleae_2():
    """The table of Logic 2."""
    rows_of = (f'"Async Serial","data",{moment / 1e6:.7f},{10 * ETU / 1e6:.7f},0x{octet:02X},'
               f'{"parity" if is_wrong else ""}' for moment, octet, is_wrong in characters())
    return "\n".join(["name,type,start_time,duration,data,error", *rows_of, ""])


def messages(log):
    """The messages of pcscd's output: the moment, whether the host sent it, and its octets."""
    incoming, nothing = Framed(), Trace()
    for _, row in rows(log):
        for content in (Framed() if row.is_sent else incoming).frames(row, nothing):
            if row.is_sent or content[0] >= 0x80:
                yield row.moment, row.is_sent, content


def urb(number, moment, is_sent, octets, is_submitted):
    """An event of usbmon: the host submits a transfer, or it completes. Octets go with one of both."""
    has = is_sent == is_submitted
    head = struct.pack("<QBBBBHBBqiiII", 0xFFFF_0000_0000_0000 + number, ord("S" if is_submitted else "C"), 3,
                       0x02 if is_sent else 0x83, 5, 1, ord("-"), 0 if has else ord("<" if is_submitted else ">"),
                       EPOCH + moment // 1_000_000, moment % 1_000_000, -115 if is_submitted else 0,
                       len(octets), len(octets) if has else 0)
    return head + bytes(8) + struct.pack("<iiII", 0, 0, 0, 0) + (octets if has else b"")


def described():
    """The transfer in which the device says that it has an interface of CCID with two endpoints of bulk transfers."""
    reader = bytes.fromhex("3621 1001 00 07 03000000 A00F0000 A00F0000 00 002A0000 002A0000 00 FE000000"
                           "00000000 00000000 30020100 0F010000 FF FF 0000 00 01")
    ends = bytes.fromhex("07050202400000" "07058302400000")
    inside = bytes.fromhex("0904000002" "0B0000" "00") + reader + ends
    whole = bytes.fromhex("0902") + struct.pack("<H", len(inside) + 9) + bytes.fromhex("010100" "8032") + inside
    for is_submitted in (True, False):
        head = struct.pack("<QBBBBHBBqiiII", 1, ord("S" if is_submitted else "C"), 2, 0x80, 5, 1,
                           0 if is_submitted else ord("-"), ord("<") if is_submitted else 0, EPOCH, 0,
                           -115 if is_submitted else 0, len(whole), 0 if is_submitted else len(whole))
        set_up = struct.pack("<BBHHH", 0x80, 6, 0x0200, 0, len(whole)) if is_submitted else bytes(8)
        yield 0, head + set_up + struct.pack("<iiII", 0, 0, 0, 0) + (b"" if is_submitted else whole)


def packets(log):
    """The packets of a capture."""
    yield from described()
    for number, (moment, is_sent, octets) in enumerate(messages(log), 2):
        for is_submitted in (True, False):
            yield moment, urb(number, moment, is_sent, octets, is_submitted)


def pcap(found):
    """A file of pcap with link type 220."""
    head = struct.pack("<IHHiIII", 0xA1B2C3D4, 2, 4, 0, 0, 262144, 220)
    return head + b"".join(struct.pack("<IIII", EPOCH + moment // 1_000_000, moment % 1_000_000, len(it), len(it)) + it
                           for moment, it in found)


def part(kind, body):
    """A part of a file of pcapng."""
    body += bytes(-len(body) % 4)
    size = struct.pack("<I", len(body) + 12)
    return struct.pack("<I", kind) + size + body + size


def pcapng(found):
    """A file of pcapng with one interface of link type 220."""
    head = part(0x0A0D0D0A, struct.pack("<IHHq", 0x1A2B3C4D, 1, 0, -1)) + part(1, struct.pack("<HHI", 220, 0, 262144))
    moments = ((EPOCH * 1_000_000 + moment, it) for moment, it in found)
    return head + b"".join(part(6, struct.pack("<IIIII", 0, moment >> 32, moment & 0xFFFFFFFF, len(it), len(it)) + it)
                           for moment, it in moments)


def main(words):
    if len(words) != 2:
        sys.exit(__doc__)
    place = pathlib.Path(words[1])
    (place / "line.vcd").write_text(vcd())
    (place / "saleae-1.csv").write_text(saleae_1())
    (place / "saleae-2.csv").write_text(saleae_2())
    with open(words[0], encoding="latin-1") as log:
        found = list(packets(log))
    (place / "usbmon.pcap").write_bytes(pcap(found))
    (place / "usbmon.pcapng").write_bytes(pcapng(found))
    return 0


if __name__ == "__main__":
    sys.exit(main(sys.argv[1:]))
