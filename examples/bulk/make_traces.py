#!/usr/bin/env python3
"""Writes many traces to try the others with: sessions that the program simulates, over lines that lose and damage
blocks. Every tenth trace has a block that its sender may not send.

    python3 make_traces.py COUNT >FILE
"""
import random
import sys

import scard

ATR = "3B808131204555"
COMMANDS = ("00A4040000:9000", "00CB000003A1A2A300:A1A2A39000", "00B0000064:" + "5A" * 100 + "9000")
DIFFERENT, WRONG = 500, 10


def trace(draw):
    """The blocks of a session, each as a line of a trace."""
    words = ["simulate", ATR, *draw.choices(COMMANDS, k=draw.randrange(1, 5))]
    for option in ("--lose", "--damage"):
        words += [option, str(draw.randrange(1, 9))] if draw.random() < 0.4 else []
    lines = scard.answer(words).text.splitlines()
    return [line for line in lines if line[:2] in ("t ", "c ") or line == "quiet"]


def spoiled(draw, lines):
    """The same with a block that its sender may not send: it has another number."""
    places = [at for at, line in enumerate(lines) if line[0] in "tc" and line[4:5] in "04" and " " not in line[2:]]
    at = draw.choice(places)
    octets = bytearray.fromhex(lines[at][2:])
    octets[1] ^= 0x40
    octets[-1] ^= 0x40
    return [*lines[:at], f"{lines[at][:2]}{octets.hex().upper()}", *lines[at + 1:]]


def main(words):
    if len(words) != 1:
        sys.exit(__doc__)
    draw = random.Random(1)
    known = [trace(draw) for _ in range(min(DIFFERENT, int(words[0])))]
    for number in range(int(words[0])):
        lines = known[number % len(known)]
        lines = spoiled(draw, lines) if number % WRONG == WRONG - 1 else lines
        print(f"trace-{number}", ATR, ";".join(lines), sep="\t")


if __name__ == "__main__":
    main(sys.argv[1:])
