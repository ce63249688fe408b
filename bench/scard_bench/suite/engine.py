"""The tester's end of the line: a proved end. `scard replay` names its next turn for a file of what happened."""
from __future__ import annotations

import re
from typing import Dict, List, NamedTuple, Optional, Tuple

from ..errors import Wrong
from ..program import Program

GIVES = re.compile(r"line (\d+): engine gives (.*)$")
MEMORY: Dict[Tuple[str, str], str] = {}


def octets_in(octets: bytes) -> str:
    """Octets as a file of an exchange has them."""
    return octets.hex().upper() or "none"


class Turn(NamedTuple):
    """What the end does: a word of the file of an exchange, and its octets."""

    word: str
    octets: bytes = b""


class Sent(NamedTuple):
    """Octets of an end on the line: whose they are, and what of them arrived, None if nothing."""

    side: str
    octets: bytes
    came: Optional[bytes]

    def line(self) -> str:
        """The line of a trace, which says how the block arrived."""
        came = "lost" if self.came is None else f"as {octets_in(self.came)}"
        return f"{self.side} {octets_in(self.octets)} {came}"

    def recorded(self, meant: Optional[bytes] = None) -> str:
        """The line of a file. `meant` is what the end itself sent, if other octets went out in its place."""
        octets = self.octets if meant is None else meant
        arrived = "lost" if self.came is None else "" if self.came == octets else f"as {octets_in(self.came)}"
        return f"{self.side} {octets_in(octets)} {arrived}".strip()


class Engine:
    """A new end, `terminal` or `card`, and what happened to it."""

    def __init__(self, program: Program, end: str, atr: bytes) -> None:
        self.program, self.end = program, end
        self.lines: List[str] = ["scard-exchange 1", f"atr {octets_in(atr)}"]

    def adds(self, line: str) -> None:
        """Something happened."""
        self.lines.append(line)

    def turn(self) -> Turn:
        """What the end does next."""
        text = "".join(f"{line}\n" for line in self.lines)
        key = (self.end, text)
        if key not in MEMORY:
            MEMORY[key] = self.program.answers(["replay", "--end", self.end], text)[0].strip()
        found = GIVES.match(MEMORY[key])
        if not found or int(found[1]) != len(self.lines) + 1:
            raise Wrong(f"the tester's {self.end} can't go on after `{self.lines[-1]}`: {MEMORY[key]}")
        word, _, octets = found[2].partition(" ")
        return Turn(word, b"" if octets in ("", "none") else bytes.fromhex(octets))
