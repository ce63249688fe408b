"""The messages between a host and a reader (USB CCID, revision 1.1, 6.1 and 6.2): which of them carry octets of the
card's line."""
from __future__ import annotations

from typing import Dict, NamedTuple, Optional, Tuple

from .errors import Wrong
from .trace import CARD, DAMAGED, TERMINAL, Trace

HEADER = 10
XFR_BLOCK, POWER_ON, SET_PARAMETERS, DATA_BLOCK = 0x6F, 0x62, 0x61, 0x80
COMMANDS = {0x61: "SetParameters", 0x62: "IccPowerOn", 0x63: "IccPowerOff", 0x65: "GetSlotStatus", 0x69: "Secure",
            0x6A: "T0APDU", 0x6B: "Escape", 0x6C: "GetParameters", 0x6D: "ResetParameters", 0x6E: "IccClock",
            0x6F: "XfrBlock", 0x71: "Mechanical", 0x72: "Abort", 0x73: "SetDataRateAndClockFrequency"}
RESPONSES = {0x80: "DataBlock", 0x81: "SlotStatus", 0x82: "Parameters", 0x83: "Escape",
             0x84: "DataRateAndClockFrequency"}
# bStatus of a response, and bError of one that failed (6.2.6)
FAILED, MORE_TIME = 1, 2
MUTE, PARITY, OVERRUN = 0xFE, 0xFD, 0xFC
OCTETS_CAME = {PARITY: "the reader names a parity error", OVERRUN: "the reader names an overrun"}


class Message(NamedTuple):
    """A message, the place in the capture where it is, and its moment in microseconds."""

    octets: bytes
    place: str
    moment: Optional[int]

    @property
    def kind(self) -> int:
        """The kind of the message (bMessageType)."""
        return self.octets[0]

    @property
    def name(self) -> str:
        """The name of that kind."""
        return COMMANDS.get(self.kind) or RESPONSES.get(self.kind) or f"message {self.kind:02X}"

    @property
    def data(self) -> bytes:
        """The octets after the header (abData)."""
        return self.octets[HEADER:]

    @property
    def slot(self) -> Tuple[int, int]:
        """The slot, and the number of the command (bSlot, bSeq)."""
        return self.octets[5], self.octets[6]


def size_of(header: bytes) -> int:
    """The octets of the message that begins with this header (dwLength)."""
    return HEADER + int.from_bytes(header[1:5], "little")


def message(octets: bytes, place: str, moment: Optional[int]) -> Message:
    """A message, whose header says how long it is."""
    if len(octets) < HEADER or size_of(octets) != len(octets):
        said = size_of(octets) if len(octets) >= HEADER else HEADER
        raise Wrong(f"{place}: a message has {len(octets)} octets, and its header says {said}")
    return Message(octets, place, moment)


class Conversation:
    """A host and one slot of a reader."""

    def __init__(self, trace: Trace) -> None:
        self.trace = trace
        self.waiting: Dict[Tuple[int, int], Message] = {}
        self.is_t1: Optional[bool] = None
        self.number: Optional[int] = None
        self.has_begun = False

    def sent(self, it: Message) -> None:
        """A command of the host."""
        if it.kind not in COMMANDS:
            raise Wrong(f"{it.place}: no command of a host begins with {it.kind:02X}")
        self.waiting[it.slot], self.has_begun = it, True
        if it.kind == SET_PARAMETERS:
            self.is_t1 = it.octets[7] == 1
        if it.kind != XFR_BLOCK or not it.data:
            self.trace.leave(it.name, len(it.octets))
            return
        if self.is_t1 is False:
            raise Wrong(f"{it.place}: the host chose another protocol than T=1")
        if self.number not in (None, it.octets[5]):
            raise Wrong(f"{it.place}: blocks of two slots, {self.number} and {it.octets[5]}, in one capture")
        self.number = it.octets[5]
        self.trace.leave("headers", HEADER)
        self.trace.moment(it.moment)
        self.trace.block(TERMINAL, it.data)

    def received(self, it: Message) -> None:
        """A response of the reader."""
        if it.kind not in RESPONSES:
            raise Wrong(f"{it.place}: no response of a reader begins with {it.kind:02X}")
        if self.has_begun and it.slot not in self.waiting:
            raise Wrong(f"{it.place}: {it.name} of slot {it.slot[0]} with number {it.slot[1]} answers no command")
        status = it.octets[7] >> 6
        if status == MORE_TIME:
            self.trace.leave(f"{it.name} that asks the host to wait", len(it.octets))
            return
        asked = self.waiting.pop(it.slot, None)
        if it.kind != DATA_BLOCK or (asked and asked.kind not in (XFR_BLOCK, POWER_ON)):
            self.trace.leave(it.name, len(it.octets))
        elif asked and asked.kind == POWER_ON:
            self.powered(it)
        else:
            self.trace.moment(it.moment)
            self.answered(it, status)

    def powered(self, it: Message) -> None:
        """The response to a reset."""
        self.is_t1 = None
        if not it.data:
            self.trace.leave("resets without an answer", len(it.octets))
            return
        self.trace.leave("headers", HEADER)
        self.trace.reset(it.data)

    def answered(self, it: Message, status: int) -> None:
        """The response to a block."""
        self.trace.leave("headers", HEADER)
        error = it.octets[8]
        if it.data:
            if status == FAILED:
                self.trace.guess("damage", f"the reader names error {error:02X}: these octets arrived damaged")
            self.trace.block(CARD, it.data, DAMAGED if status == FAILED else None)
        elif status == FAILED and error == MUTE:
            self.trace.quiet()
        elif status == FAILED:
            self.trace.unseen(CARD, OCTETS_CAME.get(error, f"the reader names error {error:02X}"))
        else:
            self.trace.guess("an empty response", "the reader answers with no octets: taken for a silence")
            self.trace.quiet()
