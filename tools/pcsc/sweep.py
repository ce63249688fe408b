#!/usr/bin/python3
"""Runs a session of six commands under each plan that loses, damages or spoils one block, or (pairs) two near ones.
usage: sweep.py READER PLAN_FILE singles|pairs
It prints a line: plans, commands, right, failed (the client got an error), wrong (it got a wrong answer), and the first
plan with a command that wasn't right."""
import sys
from client import Client, Told, counted, echo, read

KINDS = ("lose", "damage", "spoil")
BLOCKS = 36
DATA = bytes(place * 3 & 255 for place in range(600))
UNKNOWN = bytes([0, 0x20, 0, 0]), b"\x6D\x00"
SESSION = [read(0, 10), echo(DATA), read(256, 600), UNKNOWN, echo(DATA[:300]), read(5, 254)]


def singles():
    return [f"{kind}={block}" for block in range(1, BLOCKS + 1) for kind in KINDS]


def pairs():
    return [f"{first}={block} {second}={block + apart}" if first != second else f"{first}={block},{block + apart}"
            for block in range(1, BLOCKS) for apart in (1, 2) for first in KINDS for second in KINDS]


def session(client, plan):
    """Counts the session's commands that are right, failed and wrong."""
    try:
        client.reset(plan)
    except Told:
        return 0, len(SESSION), 0
    return counted(client, SESSION)


def main():
    client = Client(sys.argv[1], sys.argv[2])
    plans = pairs() if sys.argv[3] == "pairs" else singles()
    counts = [session(client, plan) for plan in plans]
    right, failed, wrong = (sum(column) for column in zip(*counts))
    first = [f"; the first at {plan}" for plan, count in zip(plans, counts) if count[1] + count[2] > 0][:1]
    client.reset()
    client.close()
    print(f"{len(plans)} plans, {right + failed + wrong:,} commands: {right:,} right, {failed:,} failed, "
          f"{wrong:,} wrong" + "".join(first))
    return 1 if wrong > 0 else 0


sys.exit(main())
