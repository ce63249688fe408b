#!/usr/bin/env python3
"""A card for the suite, by the package scard, which has to be on the path of Python (python/backend.py DIR).

usage: PYTHONPATH=DIR bench/devices/card.py
"""
import sys
from typing import List

import scard
from application import Application

ATR = bytes.fromhex("3B808131204555")
# microseconds that the card takes for each waiting time that it asked for: fewer than one has
WORK = 1_300_000
# microseconds from the end of a block to the card's answer: more than BGT
TURN = 2_000
RESYNCH_RESPONSE = 0xE0


class Device:
    """A card that was reset."""

    def __init__(self) -> None:
        self.card, self.application = scard.Card(scard.Atr.decode(ATR).t1()), Application()
        self.asked: List[bytes] = []
        self.wait = 0

    def hears(self, octets: bytes) -> bytes:
        """The block that the card sends after it received these octets."""
        self.wait = 0
        turn = self.card.received(octets)
        if turn.kind is scard.TurnKind.SEND:
            if turn.octets[1] == RESYNCH_RESPONSE:
                self.asked.clear()  # the command is gone
            return turn.octets
        command = self.card.command
        multiples = self.application.multiples(command)
        if multiples and command not in self.asked:
            self.asked.append(command)
            return self.card.more_time(multiples[0]).octets
        self.wait = WORK * multiples[0] if command in self.asked else 0
        self.asked.clear()
        return self.card.reply(self.application.answer(command)).octets


def main() -> None:
    device = Device()
    for line in sys.stdin:
        if line.strip() == "reset":
            device = Device()
            print(ATR.hex(), flush=True)
        else:
            said = device.hears(bytes.fromhex(line)).hex()
            print(f"wait {TURN + device.wait}\n{said}", flush=True)


if __name__ == "__main__":
    main()
