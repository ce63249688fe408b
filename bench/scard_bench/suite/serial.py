"""A card at a serial port: the tester's blocks go out, and the octets that come back have real moments."""
from __future__ import annotations

import os
import select
import termios
import time
from typing import List, NamedTuple, Optional, Tuple

from ..errors import Wrong
from ..program import Program
from .device import Broken, Reply
from .line import UNITS, timing_of

# seconds for which the port stays closed at a reset
CLOSED = 0.1
# seconds after which octets that are no whole value end, and after which a whole one ends
INSIDE, AFTER = 1.0, 0.02
MICRO = 1_000_000
# elementary time units from the beginning of an octet until a port can hand it over: without its two stop bits
RECEIVED = 10


class Settings(NamedTuple):
    """The path of a port, its speed, seconds to wait for the card, the microseconds that a driver may add to a moment,
    and the frequency of the card's clock if it isn't 372 times the speed."""

    path: str
    baud: int
    limit: float
    tolerance: int
    clock: Optional[int] = None


def speed_of(baud: int) -> int:
    """The number of the system for a speed."""
    speed = getattr(termios, f"B{baud}", None)
    if not isinstance(speed, int):
        raise Wrong(f"a port of this system can't have {baud} baud")
    return speed


def prepared(port: int, baud: int) -> bool:
    """Sets a port: raw octets of eight bits, even parity and two stop bits. Closing it lets DTR and RTS fall. Returns
    whether the port has parity: a pseudo-terminal refuses or ignores it."""
    modes = termios.tcgetattr(port)
    speed = speed_of(baud)
    control = termios.CS8 | termios.PARENB | termios.CSTOPB | termios.CREAD | termios.CLOCAL | termios.HUPCL
    modes[:6] = [termios.INPCK, 0, control, 0, speed, speed]
    modes[6][termios.VMIN], modes[6][termios.VTIME] = 0, 0
    try:
        termios.tcsetattr(port, termios.TCSANOW, modes)
    except termios.error:
        modes[2] = control & ~termios.PARENB
        termios.tcsetattr(port, termios.TCSANOW, modes)
    return bool(termios.tcgetattr(port)[2] & termios.PARENB)


class Port:
    """A card at a port, as a device of the suite. `waits` are the measured waits for its blocks, in microseconds."""

    def __init__(self, program: Program, settings: Settings) -> None:
        self.program, self.settings, self.tolerance = program, settings, settings.tolerance
        self.timing = timing_of(settings.baud, settings.clock)
        self.port: Optional[int] = None
        self.waits: List[int] = []
        self.has_parity = True
        speed_of(settings.baud)

    def opens(self) -> None:
        """Closes the port and opens it again: DTR and RTS fall and rise, and an adapter resets the card."""
        self.ends()
        time.sleep(CLOSED)
        try:
            self.port = os.open(self.settings.path, os.O_RDWR | os.O_NOCTTY)
            self.has_parity = prepared(self.port, self.settings.baud)
        except (OSError, termios.error) as error:
            raise Wrong(f"{self.settings.path}: {error.args[-1]}") from None

    def asks(self, line: str) -> Reply:
        """Resets the card, or sends a block, and returns what comes back."""
        if line == "reset":
            self.opens()
            return self.reply_of(self.reads("atr"), time.monotonic(), b"")
        octets, early = bytes.fromhex(line), self.reads("block", 0.0)
        begun = time.monotonic()
        try:
            os.write(self.number(), octets)
        except OSError:
            raise Broken("the port hung up") from None
        end = begun + self.timing.octet * len(octets) / MICRO
        reply = self.reply_of(self.reads("block", sent=octets), end, octets)
        if early:
            text = bytes(octet for _, octet in early).hex().upper()
            return reply._replace(problem=f"it sent {text[:80]} before it was asked")
        return reply

    def number(self) -> int:
        """The open port."""
        if self.port is None:
            raise Broken("the port isn't open")
        return self.port

    def reads(self, kind: str, limit: Optional[float] = None, sent: bytes = b"") -> List[Tuple[float, int]]:
        """The octets that come, each with its moment, until they are one whole value and nothing follows. An adapter
        with one wire sends back what was sent, before them."""
        found: List[Tuple[float, int]] = []
        wait = self.settings.limit if limit is None else limit
        while select.select([self.number()], [], [], wait)[0]:
            try:
                octets = os.read(self.number(), 4096)
            except OSError:
                octets = b""
            if not octets:
                raise Broken("the port hung up")
            now = time.monotonic()
            found += [(now, octet) for octet in octets]
            value = bytes(octet for _, octet in found)
            value = value[len(sent):] if value.startswith(sent) else value
            if not sent.startswith(value):
                wait = AFTER if self.program.whole(kind, [value]) == [len(value)] else INSIDE
        return found

    def reply_of(self, found: List[Tuple[float, int]], end: float, sent: bytes) -> Reply:
        """The reply in the octets that came, after those that an adapter with one wire sends back."""
        if sent and bytes(octet for _, octet in found[:len(sent)]) == sent:
            found = found[len(sent):]
        if not found:
            return Reply(0, "nothing")
        octets = bytes(octet for _, octet in found)
        waited = int((found[0][0] - end) * MICRO) - self.timing.octet * RECEIVED // UNITS
        if not sent:
            return Reply(0, "block", octets)
        self.waits.append(waited)
        early = f"its block began {-waited} microseconds before the terminal's had ended" if waited < 0 else ""
        return Reply(max(waited, 0), "block", octets, early)

    def notes(self) -> Tuple[str, ...]:
        """What the report says about the port and its times."""
        waits = f"{min(self.waits)} to {max(self.waits)}" if self.waits else "no"
        form = "8E2" if self.has_parity else "without parity"
        return (f"{self.settings.path}, {self.settings.baud} baud, {form}: blocks began {waits} microseconds after the "
                f"terminal's, with a tolerance of {self.tolerance}",)

    def ends(self) -> None:
        """Closes the port."""
        if self.port is not None:
            os.close(self.port)
            self.port = None
