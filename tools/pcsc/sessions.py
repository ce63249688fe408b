#!/usr/bin/python3
"""Runs random sessions, each begun by a reset under another plan and recorded, and counts the answers.
usage: sessions.py READER PLAN_FILE COUNT RECORD     the recordings are RECORD.1, RECORD.2 and so on
It prints a line: sessions, commands, right, failed, wrong."""
import random
import sys
from client import Client, Told, counted, some

RATES = (0, 1, 3, 8)


def session(client, plan, dice):
    """Sends random commands, and counts those that are right, failed and wrong."""
    try:
        client.reset(plan)
    except Told:
        return 0, 1, 0
    return counted(client, [some(dice, 3000) for _ in range(dice.randint(1, 6))])


def main():
    client, dice = Client(sys.argv[1], sys.argv[2]), random.Random(7)
    counts = [session(client, f"rate={dice.choice(RATES)} seed={seed} record={sys.argv[4]}", dice)
              for seed in range(1, int(sys.argv[3]) + 1)]
    client.reset()
    client.close()
    right, failed, wrong = (sum(column) for column in zip(*counts))
    print(f"{len(counts)} sessions, {right + failed + wrong} commands: {right} right, {failed} failed, {wrong} wrong")


main()
