#!/usr/bin/env python3
"""A terminal for the suite, by the package scard, which has to be on the path of Python (python/backend.py DIR).

usage: PYTHONPATH=DIR bench/devices/terminal.py [IFSD]

With IFSD, it first tells the card the largest field that it takes. It waits for the card as long as the answer to reset
says, and says so to `until`.
"""
import sys
from typing import List

import scard

# the frequency of the card's clock, which is the one of the suite's judge
CLOCK = 3_571_200
# microseconds from the end of a block to the terminal's next one: more than BGT
TURN = 2_000


class Device:
    """A terminal whose card was reset."""

    def __init__(self, atr: bytes) -> None:
        t1 = scard.Atr.decode(atr).t1()
        self.terminal, self.wait = scard.Terminal(t1), 0
        self.bwt = -(-t1.bwt() * 1_000_000 // CLOCK)

    def does(self, turn: scard.Turn) -> str:
        """What the terminal says at a turn."""
        if turn.kind is scard.TurnKind.SEND:
            self.wait = turn.wait * self.bwt
            return f"wait {TURN}\n{turn.octets.hex()}"
        if turn.kind is scard.TurnKind.DONE:
            return f"answer {self.terminal.answer.hex()}"
        return "-" if turn.kind is scard.TurnKind.IFS_SET else "failed"

    def until(self, microseconds: int) -> str:
        """What the terminal says if nothing comes for so long."""
        if self.wait > microseconds:
            return "-"
        waited = self.wait
        said = self.does(self.terminal.quiet())
        return f"wait {waited}\n{said.split()[-1]}"


def said(device: Device, word: str, octets: str) -> str:
    """What the terminal says to a line. Before a card that no longer answers it asks for a reset."""
    if word == "send":
        try:
            return device.does(device.terminal.transmit(bytes.fromhex(octets)))
        except scard.CallRefused:
            return "reset"
    if word == "until":
        return device.until(int(octets))
    return device.does(device.terminal.quiet() if word == "-" else device.terminal.received(bytes.fromhex(word)))


def main(words: List[str]) -> None:
    device, waiting = Device(bytes.fromhex("3B808131204555")), ""
    for line in sys.stdin:
        word, _, octets = line.strip().partition(" ")
        if word == "reset":
            device = Device(bytes.fromhex(octets))
            reply = device.does(device.terminal.ask_ifs(int(words[0]))) if words else "-"
        else:
            reply = said(device, word, octets)
        if reply == "reset":
            waiting = octets
        elif reply.endswith("failed"):
            waiting = ""
        if reply == "-" and waiting and word != "until":
            reply, waiting = said(device, "send", waiting), ""
        print(reply, flush=True)


if __name__ == "__main__":
    main(sys.argv[1:])
