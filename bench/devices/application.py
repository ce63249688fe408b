"""The application of the suite's cards. It answers a command of which it knows only the octets."""
from __future__ import annotations

from typing import List

DONE, UNKNOWN = b"\x90\x00", b"\x6D\x00"


class Application:
    """`CB` answers with the data of the command, `B0` with as many octets as are expected, `CA` with the number of the
    commands since the reset, and `10` asks for more time first."""

    def __init__(self) -> None:
        self.served = 0

    def answer(self, command: bytes) -> bytes:
        """The answer to a command."""
        self.served += 1
        kind = command[1] if len(command) > 3 else None
        if kind == 0xCB:
            return command[5:5 + command[4]] + DONE
        if kind == 0xB0:
            return bytes(range(command[4] or 256)) + DONE
        if kind == 0xCA:
            return bytes([self.served]) + DONE
        return DONE if kind in (0x10, 0x20, 0xDA) else UNKNOWN

    def multiples(self, command: bytes) -> List[int]:
        """For how many waiting times the card asks before it answers, one after another."""
        return [command[3]] if len(command) > 3 and command[1] == 0x10 else []
