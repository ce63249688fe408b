"""The output of pcscd with the octets of libccid: `LIBCCID_ifdLogLevel=0x000F pcscd --foreground --debug`."""
from __future__ import annotations

import re
from typing import IO, Dict, Iterator, List, NamedTuple, Optional, Tuple

from .ccid import COMMANDS, HEADER, Conversation, message, size_of
from .errors import Wrong
from .trace import Trace

LINE = re.compile(r"(?:(?P<delta>\d{8}) (?:\[\w+\] )?)?(?P<way>->|<-) (?P<reader>[0-9A-F]{6}) (?P<octets>.*)")
COLOURS = re.compile(r"\x1b\[[\d;]*m")
DELTA = re.compile(r"(\d{8}) ")
# pcscd writes no longer time than this
LONGEST_DELTA = 99_999_999
# A GemPC Twin at a serial port puts each message between SYNC, CTRL and a check octet, and repeats each command. It
# also says by two octets that a card was put in or taken out.
SYNC, ACK, NAK, MOVED = 0x03, 0x06, 0x15, 0x50


class Row(NamedTuple):
    """Octets that the driver wrote or read."""

    number: int
    moment: int
    is_sent: bool
    octets: bytes


def octets_of(text: str, number: int) -> bytes:
    """Octets of two digits, each with a blank after it."""
    words = text.split()
    try:
        if any(len(word) != 2 for word in words):
            raise ValueError
        return bytes(int(word, 16) for word in words)
    except ValueError:
        raise Wrong(f"line {number}: not octets of two digits: {text.strip()[:40]!r}") from None


def rows(file: IO[str]) -> Iterator[Tuple[str, Row]]:
    """The rows of each reader."""
    clock = 0
    for number, line in enumerate(file, 1):
        line = COLOURS.sub("", line)
        found = DELTA.search(line)
        clock += int(found[1]) if found else 0
        row = LINE.search(line)
        if row:
            octets = octets_of(row["octets"], number)
            yield row["reader"], Row(number, clock, row["way"] == "->", octets)


class Framed:
    """Takes the messages of a serial reader out of what the driver reads, in whatever pieces they come."""

    def __init__(self) -> None:
        self.octets = b""

    def frames(self, row: Row, trace: Trace) -> Iterator[bytes]:
        """The messages that this row ends."""
        self.octets += row.octets
        while self.octets:
            if self.octets[0] == MOVED and len(self.octets) > 1:
                trace.leave("notices that a card moved", 2)
                self.octets = self.octets[2:]
                continue
            if self.octets[0] not in (SYNC, MOVED):
                raise Wrong(f"line {row.number}: octet {self.octets[0]:02X} where a frame has to begin with 03")
            if len(self.octets) < HEADER + 3 or len(self.octets) < size_of(self.octets[2:]) + 3:
                return
            size = size_of(self.octets[2:])
            frame, self.octets = self.octets[:size + 3], self.octets[size + 3:]
            yield self.content(frame, row, trace)

    def content(self, frame: bytes, row: Row, trace: Trace) -> bytes:
        """The message of a frame, whose exclusive-or is 00."""
        check = 0
        for octet in frame:
            check ^= octet
        if check or frame[1] not in (ACK, NAK):
            raise Wrong(f"line {row.number}: a frame of the serial reader is damaged")
        trace.leave("frames of the serial reader", 3)
        return frame[2:-1]


class Reader:
    """What the driver said to one reader and heard of it."""

    def __init__(self, has_times: bool) -> None:
        self.trace = Trace(has_times)
        self.conversation = Conversation(self.trace)
        self.is_serial: Optional[bool] = None
        self.incoming, self.pending = Framed(), b""
        self.last = 0

    def takes(self, row: Row) -> None:
        """Takes one row."""
        if not row.octets:
            return
        self.last = row.number
        self.trace.read += len(row.octets)
        if self.is_serial is None:
            self.is_serial = row.octets[0] == SYNC
        if self.is_serial:
            self.takes_serial(row)
        elif row.is_sent:
            self.conversation.sent(message(row.octets, f"line {row.number}", row.moment))
        else:
            self.conversation.received(message(row.octets, f"line {row.number}", row.moment))

    def takes_serial(self, row: Row) -> None:
        """Takes a row of a serial reader, which repeats each command before it answers."""
        place = f"line {row.number}"
        framed = Framed() if row.is_sent else self.incoming
        for content in framed.frames(row, self.trace):
            it = message(content, place, row.moment)
            if row.is_sent:
                self.conversation.sent(it)
            elif it.kind in COMMANDS:
                self.trace.leave("commands that the serial reader repeats", len(content))
            else:
                self.conversation.received(it)
        if row.is_sent and framed.octets:
            raise Wrong(f"{place}: a frame of the serial reader has fewer octets than it says")

    def ends(self) -> Trace:
        """The capture ends. Returns its trace."""
        if self.incoming.octets:
            raise Wrong(f"line {self.last}: the capture ends within a frame of the serial reader")
        return self.trace


def chosen(readers: Dict[str, Trace], name: Optional[str]) -> Trace:
    """The trace of the reader with this name, or of the only one that has blocks."""
    busy: List[str] = [key for key, trace in readers.items() if trace.sessions]
    if name is not None:
        if name not in readers:
            raise Wrong(f"there is no reader {name}: the capture has {', '.join(readers) or 'none'}")
        return readers[name]
    if not busy:
        raise Wrong("the capture has no blocks of a card")
    if len(busy) > 1:
        raise Wrong(f"the capture has several readers: choose one by --reader, of {', '.join(busy)}")
    return readers[busy[0]]


def traced(file: IO[str], reader: Optional[str], has_times: bool) -> Trace:
    """The trace of a log."""
    readers: Dict[str, Reader] = {}
    for name, row in rows(file):
        readers.setdefault(name, Reader(has_times)).takes(row)
    return chosen({name: it.ends() for name, it in readers.items()}, reader)
