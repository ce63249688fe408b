#!/usr/bin/python3
"""Makes random exchanges, and compares each answer. After one that fails it resets the card, under the next seed.
usage: exchanges.py READER PLAN_FILE COUNT RATE [MOST]
READER is a part of the reader's name, RATE the percentage of blocks with faults, MOST the longest message.
It prints a line: count, right, failed, wrong, exchanges a second."""
import collections
import random
import sys
import time
from client import Client, Told, some


def begin(client, rate, seed):
    """Begins a session under the rate of faults, and returns its seed. If it can't begin, takes the next seed."""
    for seed in range(seed, seed + 100):
        try:
            client.reset(f"rate={rate} seed={seed}")
            return seed
        except Told:
            pass
    raise SystemExit("exchanges: no session begins")


def main():
    word, plan_file, count, rate = sys.argv[1], sys.argv[2], int(sys.argv[3]), float(sys.argv[4])
    most = int(sys.argv[5]) if len(sys.argv) > 5 else 65536
    dice, told, right, wrong, spent = random.Random(1), collections.Counter(), 0, 0, 0.0
    client = Client(word, plan_file)
    seed = begin(client, rate, 1)
    for _ in range(count):
        command, wanted = some(dice, most)
        began = time.monotonic()
        try:
            is_right = client.transmit(command) == wanted
            spent += time.monotonic() - began
            right += is_right
            wrong += not is_right
        except Told as fault:
            spent += time.monotonic() - began
            told[str(fault)] += 1
            seed = begin(client, rate, seed + 1)
    client.reset()
    client.close()
    names = f" ({', '.join(sorted(told))})" if told else ""
    print(f"{count:,} exchanges: {right:,} right, {told.total():,} failed{names}, {wrong:,} wrong; "
          f"{count / spent:,.0f} a second")
    return 1 if wrong > 0 else 0


sys.exit(main())
