"""Files of captures: pcap, and pcapng as far as Wireshark writes it. Only the packets are read."""
from __future__ import annotations

import struct
from typing import IO, Dict, Iterator, NamedTuple, Tuple

from .errors import Wrong

# the first four octets of a file of pcap: the order of its octets, and the parts of a second of its times
MAGIC: Dict[bytes, Tuple[str, int]] = {
    b"\xd4\xc3\xb2\xa1": ("<", 1_000_000), b"\xa1\xb2\xc3\xd4": (">", 1_000_000),
    b"\x4d\x3c\xb2\xa1": ("<", 1_000_000_000), b"\xa1\xb2\x3c\x4d": (">", 1_000_000_000),
}
SECTION, INTERFACE, PACKET = 0x0A0D0D0A, 1, 6
ORDERS = {b"\x4d\x3c\x2b\x1a": "<", b"\x1a\x2b\x3c\x4d": ">"}
LONGEST = 1 << 24


class Packet(NamedTuple):
    """A packet: its number from 1, the kind of its link, the order of the file's octets, and its octets."""

    number: int
    link: int
    order: str
    octets: bytes


def exactly(file: IO[bytes], count: int, what: str) -> bytes:
    """So many octets of a file."""
    if count > LONGEST:
        raise Wrong(f"{what} has {count} octets, which no capture has")
    octets = file.read(count)
    if len(octets) != count:
        raise Wrong(f"the file ends within {what}")
    return octets


def packets(file: IO[bytes]) -> Iterator[Packet]:
    """The packets of a file, in order."""
    magic = file.read(4)
    if magic in MAGIC:
        return of_pcap(file, MAGIC[magic][0])
    if magic == struct.pack("<I", SECTION):
        return of_pcapng(file)
    raise Wrong("the file isn't pcap or pcapng")


def of_pcap(file: IO[bytes], order: str) -> Iterator[Packet]:
    """The packets of a file of pcap, after its first four octets."""
    *_, link = struct.unpack(order + "HHiIII", exactly(file, 20, "the header of the file"))
    number = 0
    while True:
        header = file.read(16)
        if not header:
            return
        number += 1
        if len(header) < 16:
            raise Wrong(f"the file ends within packet {number}")
        _, _, captured, length = struct.unpack(order + "IIII", header)
        octets = exactly(file, captured, f"packet {number}")
        yield complete(Packet(number, link & 0xFFFF, order, octets), length)


def complete(packet: Packet, length: int) -> Packet:
    """A packet that was captured whole."""
    if len(packet.octets) != length:
        raise Wrong(f"packet {packet.number}: {len(packet.octets)} of {length} octets were captured")
    return packet


def of_pcapng(file: IO[bytes]) -> Iterator[Packet]:
    """The packets of a file of pcapng, after its first four octets."""
    order, number, kind = "<", 0, SECTION
    links: Dict[int, int] = {}
    while True:
        if kind == SECTION:
            size, mark = exactly(file, 4, "a header"), exactly(file, 4, "a header")
            if mark not in ORDERS:
                raise Wrong("a section of the file has no order of octets")
            order, links = ORDERS[mark], {}
            body = exactly(file, inside(struct.unpack(order + "I", size)[0]) - 4, "a section")
        else:
            size = exactly(file, 4, "a header")
            body = exactly(file, inside(struct.unpack(order + "I", size)[0]), "a part of the file")
        exactly(file, 4, "a part of the file")
        if kind == INTERFACE:
            links[len(links)] = struct.unpack(order + "H", body[:2])[0] if len(body) > 7 else 0
        if kind == PACKET:
            number += 1
            yield packet_of(body, order, links, number)
        head = file.read(4)
        if not head:
            return
        if len(head) < 4:
            raise Wrong("the file ends within a header")
        kind = struct.unpack(order + "I", head)[0]


def inside(size: int) -> int:
    """The octets of a part of the file between its two sizes, by its size."""
    if size < 16 or size % 4:
        raise Wrong(f"a part of the file has the size {size}, which isn't one")
    return size - 12


def packet_of(body: bytes, order: str, links: Dict[int, int], number: int) -> Packet:
    """The packet of an Enhanced Packet Block."""
    if len(body) < 20:
        raise Wrong(f"packet {number} has no header")
    interface, _, _, captured, length = struct.unpack(order + "IIIII", body[:20])
    if interface not in links or captured > len(body) - 20:
        raise Wrong(f"packet {number} has a wrong header")
    return complete(Packet(number, links[interface], order, body[20:20 + captured]), length)
