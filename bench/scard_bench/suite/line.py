"""The line between the tester and the device: faults, the trace for the judge, and virtual time."""
from __future__ import annotations

from typing import Any, Callable, Dict, List, NamedTuple, Optional

from ..errors import Wrong
from .engine import Sent
from .scenario import Faults

# microseconds from the end of a block to the next one, if a device doesn't say that it waits, and those after which a
# terminal stops waiting
TURN, WAITED = 10_000, 2_000_000
# an octet of the tester takes so many elementary time units, each of which has so many cycles of the card's clock
UNITS, CYCLES = 12, 372


class Timing(NamedTuple):
    """The frequency of the card's clock, for the judge, and the microseconds of an octet."""

    clock: int = 3_571_200
    octet: int = 1_250


def timing_of(baud: int, clock: Optional[int] = None) -> Timing:
    """The timing of a line with so many elementary time units in a second."""
    return Timing(clock or baud * CYCLES, UNITS * 1_000_000 // baud)


def changed(fault: Any, octets: bytes) -> Optional[bytes]:
    """What arrives of octets, None if nothing."""
    if isinstance(fault, dict):
        return bytes.fromhex(fault["as"]) if "as" in fault else octets
    ways: Dict[Optional[str], Callable[[], Optional[bytes]]] = {
        None: lambda: octets,
        "lose": lambda: None,
        "damage": lambda: octets[:-1] + bytes([octets[-1] ^ 1]),
        "change": lambda: octets[:1] + bytes([octets[1] ^ 0x40]) + octets[2:],
        "cut": lambda: octets[:-1],
        "front": lambda: octets[1:],
        "extend": lambda: octets + b"\x00",
    }
    if fault not in ways:
        raise Wrong(f"unknown fault {fault!r}")
    return ways[fault]()


class Line:
    """What was on the line. `free` is the moment at which the last block ended, or the silence after it. A device with
    times of its own counts from the moment `since`: the end of the last block that it sent or that arrived. `waits` are
    the microseconds from then on to each of its blocks."""

    def __init__(self, faults: Faults, timing: Timing = Timing()) -> None:
        self.faults, self.octet = faults, timing.octet
        self.blocks: List[Sent] = []
        self.waits: List[int] = []
        self.lines: List[str] = []
        self.free = self.since = self.before = 0
        self.has_begun = False

    def begins(self) -> None:
        """The steps begin: the numbers of faults count from here."""
        self.before, self.has_begun = len(self.blocks), True

    @property
    def count(self) -> int:
        """How many blocks were sent since the steps began."""
        return len(self.blocks) - self.before

    def carries(self, side: str, octets: bytes, waited: int) -> Sent:
        """Carries a block that begins so many microseconds after the line got free. A fault `send` puts other octets in
        its place before they are sent."""
        fault = self.faults.of(self.count + 1) if self.has_begun else None
        if isinstance(fault, dict) and "send" in fault:
            octets = bytes.fromhex(fault["send"])
        sent = Sent(side, octets, changed(fault, octets))
        began = self.free + waited
        self.free = began + self.octet * len(octets)
        if sent.came is not None:
            self.since = self.free
        self.blocks.append(sent)
        self.lines += [f"at {began}", f"until {self.free - self.octet}", sent.line()]
        return sent

    def says(self, side: str, octets: bytes, waited: int) -> Sent:
        """Carries a block of a device with times of its own. It can't begin before the last octet on the line."""
        self.waits.append(waited)
        sent = self.carries(side, octets, max(self.since + waited - self.free, -self.octet if self.blocks else 0))
        self.since = self.free
        return sent

    def passes(self, waited: int) -> None:
        """A device with times of its own waited for so long, and sends nothing then."""
        self.since += waited
        self.free = max(self.free, self.since)

    def quiet(self, waited: int = WAITED) -> None:
        """The terminal's waiting time ended, after so many microseconds."""
        self.free += waited
        self.lines.append("quiet")

    def reset(self) -> None:
        """The card was reset."""
        self.lines.append("reset")

    def sent_by(self, side: str) -> List[bytes]:
        """The octets that an end sent."""
        return [it.octets for it in self.blocks if it.side == side]
