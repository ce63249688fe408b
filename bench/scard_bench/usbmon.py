"""A capture of USB by Linux's usbmon, as tcpdump, dumpcap and Wireshark write it: the bulk transfers of a reader."""
from __future__ import annotations

import struct
from typing import IO, Dict, NamedTuple, Optional

from .ccid import COMMANDS, HEADER, Conversation, Message, message, size_of
from .ccid_log import chosen
from .errors import Wrong
from .pcap import Packet, packets
from .trace import Trace

# LINKTYPE_USB_LINUX and LINKTYPE_USB_LINUX_MMAPPED, with the octets of their headers
HEADERS = {189: 48, 220: 64}
BULK, IN = 3, 0x80
# id, type, transfer, endpoint, device, bus, flags of set-up and data, seconds, microseconds, status, lengths
FIELDS = "QBBBBHBBqiiII"


class Urb(NamedTuple):
    """A transfer that carried octets."""

    device: str
    is_in: bool
    octets: bytes
    place: str
    moment: int


def urb(packet: Packet) -> Optional[Urb]:
    """The octets that a packet carried between host and device, if it is a bulk transfer."""
    place = f"packet {packet.number}"
    if packet.link not in HEADERS:
        raise Wrong(f"{place}: link type {packet.link} isn't that of usbmon")
    size = HEADERS[packet.link]
    if len(packet.octets) < size:
        raise Wrong(f"{place}: fewer octets than the header of usbmon")
    fields = struct.unpack(packet.order + FIELDS, packet.octets[:40])
    _, event, transfer, endpoint, device, bus, _, flag, seconds, micro, _, _, captured = fields
    is_in = bool(endpoint & IN)
    if transfer != BULK or event != (ord("C") if is_in else ord("S")) or flag != 0:
        return None
    octets = packet.octets[size:]
    length = fields[11]
    if len(octets) != captured or length != captured:
        raise Wrong(f"{place}: {len(octets)} of {length} octets were captured")
    return Urb(f"{bus}.{device}", is_in, octets, place, seconds * 1_000_000 + micro)


class Device:
    """A device with bulk transfers. It is a reader if the host's first one is a command of CCID."""

    def __init__(self, has_times: bool) -> None:
        self.trace = Trace(has_times)
        self.conversation = Conversation(self.trace)
        self.parts = {False: b"", True: b""}
        self.is_reader: Optional[bool] = None
        self.begin: Optional[int] = None

    def takes(self, it: Urb) -> None:
        """Takes a transfer."""
        if self.is_reader is None and not it.is_in:
            self.is_reader = it.octets[:1] != b"" and it.octets[0] in COMMANDS
        if not self.is_reader:
            return
        self.begin = it.moment if self.begin is None else self.begin
        self.trace.read += len(it.octets)
        octets = self.parts[it.is_in] + it.octets
        if len(octets) < HEADER or len(octets) < size_of(octets):
            self.parts[it.is_in] = octets
            return
        self.parts[it.is_in] = b""
        self.says(it.is_in, message(octets, it.place, it.moment - self.begin))

    def says(self, is_in: bool, it: Message) -> None:
        """Takes a whole message."""
        if is_in:
            self.conversation.received(it)
        else:
            if self.parts[True]:
                raise Wrong(f"{it.place}: a command, while a response has fewer octets than its header says")
            self.conversation.sent(it)

    def ends(self) -> Trace:
        """The capture ends. Returns its trace."""
        if self.parts[True] or self.parts[False]:
            raise Wrong("the capture ends within a message, or a message has fewer octets than its header says")
        return self.trace


def traced(file: IO[bytes], reader: Optional[str], has_times: bool) -> Trace:
    """The trace of a capture."""
    devices: Dict[str, Device] = {}
    for packet in packets(file):
        it = urb(packet)
        if it is not None and it.octets:
            devices.setdefault(it.device, Device(has_times)).takes(it)
    return chosen({name: it.ends() for name, it in devices.items()}, reader)
