"""A terminal and a card on a pseudo terminal with an echo, as a UART on one wire hears itself.

    python3 terminal_pty.py 00A4040000

prints the card's answer to the command, which is the command and 9000. The terminal is a session over a file that takes
the place of a serial port. The other side of the pseudo terminal is the wire: it returns what the terminal sends, and
puts the card's blocks on the line.
"""
import os
import select
import sys
import threading
import tty

import scard

# a busy machine delays octets: long waiting times leave room for that
T1 = scard.T1(ifsc=32, bwi=7, cwi=13)
SETUP = scard.Setup(T1, echo=True)


class FileLine:
    """A file descriptor as a line."""

    def __init__(self, descriptor):
        self.descriptor = descriptor

    def send(self, octets):
        os.write(self.descriptor, octets)

    def receive(self, room, microseconds):
        """Returns what came, or no octets on a timeout."""
        seconds = None if microseconds is None else microseconds / 1e6
        ready, _, _ = select.select([self.descriptor], [], [], seconds)
        return os.read(self.descriptor, room) if ready else b""


class Wire(FileLine):
    """The card's side of the wire: each octet of the terminal goes back to it too."""

    def receive(self, room, microseconds):
        octets = super().receive(room, microseconds)
        os.write(self.descriptor, octets)
        return octets


def host(command, granted):
    """The application of the card."""
    return command + b"\x90\x00"


def serves(wire):
    """Serves the terminal until it closes its side."""
    try:
        scard.CardSession(wire, scard.Setup(T1)).serve(host)
    except scard.NoAnswer:
        pass


def main(words):
    if len(words) != 1:
        sys.exit(__doc__)
    wire, port = os.openpty()
    tty.setraw(port)
    threading.Thread(target=serves, args=(Wire(wire),), daemon=True).start()
    with scard.Session(FileLine(port), SETUP) as session:
        print(session.exchange(bytes.fromhex(words[0])).hex().upper())
    return 0


if __name__ == "__main__":
    sys.exit(main(sys.argv[1:]))
