#!/usr/bin/python3
"""Sends a command whose last block is damaged until the terminal asks for RESYNCH. The octets of that block, the end of
the data field, are another command, READ BINARY, which nobody sent. Prints what the card executed and what
the client got.
usage: tail.py READER PLAN_FILE RECORD     the session's recording becomes RECORD.1, or .2 and so on"""
import glob
import os
import sys
from client import Client, Told

READ_BINARY = bytes([0x00, 0xB0, 0x00, 0x00, 0x08])
DATA = b"\x11" * 247 + READ_BINARY
COMMAND = bytes([0x00, 0xCB, 0x3F, 0xFF, 0x00, len(DATA) >> 8, len(DATA) & 255]) + DATA


def main():
    client = Client(sys.argv[1], sys.argv[2])
    client.reset(f"damage=5,6,8,10 record={sys.argv[3]}")
    try:
        told = client.transmit(COMMAND).hex().upper()
    except Told as fault:
        told = str(fault)
    print(f"sent {COMMAND[:8].hex().upper()}.. of {len(COMMAND)} octets, which ends in {READ_BINARY.hex().upper()}")
    client.reset()
    client.close()
    last = max(glob.glob(sys.argv[3] + ".*"), key=os.path.getmtime)
    with open(last) as file:
        executed = [line.split()[1] for line in file if line.startswith("asked ")]
    print(f"the card executed {', '.join(executed) or 'nothing'}")
    print(f"the client was told {told}")


main()
