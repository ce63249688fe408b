"""A card of T=1 in plain Python, for tests of the suite: each wrong card is this one with one line changed."""
import sys

IFSC, ATR = 32, "3B808131204555"
# microseconds from the end of a block to the card's answer: more than BGT
TURN = 2_000
I, R, S = "I", "R", "S"


def check(octets):
    """The check octet of these octets."""
    found = 0
    for octet in octets:
        found ^= octet
    return found


def block(pcb, field=b""):
    """A block."""
    octets = bytes([0x00, pcb, len(field)]) + field
    return octets + bytes([check(octets)])


def kind_of(octets):
    """The kind of a block, or None if it isn't one that the card takes."""
    if len(octets) < 4 or len(octets) != octets[2] + 4 or octets[2] > IFSC or check(octets) != 0:
        return None
    nad, pcb, size = octets[0], octets[1], octets[2]
    if nad != 0x00:
        return None
    if pcb & 0x80 == 0:
        return I if pcb & 0x1F == 0 else None
    if pcb & 0xC0 == 0x80:
        return R if pcb & 0xEC == 0x80 and size == 0 else None
    if pcb in (0xC0, 0xE0, 0xC2):
        return S if size == 0 else None
    return S if pcb in (0xC1, 0xC3, 0xE1, 0xE3) and size == 1 else None


class Addresses:
    """The node addresses of a session: those of the first block, which the card swaps. Inside of the card they are 0."""

    def __init__(self):
        self.first = None

    def inside(self, octets):
        """A block without its addresses, if they are those of the session. Any other stays as it is."""
        if len(octets) < 4 or len(octets) != octets[2] + 4 or check(octets) != 0:
            return octets
        nad = octets[0]
        if self.first is None and nad & 0x88 == 0 and (nad == 0 or nad >> 4 != nad & 7):
            self.first = nad
        return self.changed(octets, nad if nad == self.first else 0)

    def outside(self, octets):
        """A block of the card with its addresses."""
        nad = self.first or 0
        return self.changed(octets, nad >> 4 | nad << 4 & 0xF0) if octets else octets

    def changed(self, octets, by):
        """A block whose first octet is another one, with a right check octet."""
        return bytes([octets[0] ^ by]) + octets[1:-1] + bytes([octets[-1] ^ by])


class Application:
    """What the card's host does."""

    def __init__(self):
        self.served = 0

    def answer(self, command):
        """The answer to a command."""
        self.served += 1
        kind = command[1]
        if kind == 0xCB:
            return command[5:5 + command[4]] + b"\x90\x00"
        if kind == 0xB0:
            return bytes(range(command[4] or 256)) + b"\x90\x00"
        if kind == 0xCA:
            return bytes([self.served]) + b"\x90\x00"
        return b"\x90\x00" if kind in (0x10, 0x20, 0xDA) else b"\x6D\x00"


class Card:
    """A card after a reset."""

    def __init__(self):
        self.application = Application()
        self.resynchs()

    def resynchs(self):
        """RESYNCH: numbers, chains and sizes begin again."""
        self.expected, self.number, self.ifsd = 0, 0, 32
        self.command, self.answer, self.last, self.request, self.is_open = b"", b"", None, None, False
        self.was_aborted = False

    def hears(self, octets):
        """The block that the card sends after these octets."""
        kind = kind_of(octets)
        if kind == S and octets[1] == 0xC0:
            self.resynchs()
            return block(0xE0)
        if self.request is not None:
            return self.hears_response(octets)
        if kind is None:
            return self.refuses(1 if len(octets) > 3 and check(octets) else 2)
        return {I: self.hears_i, R: self.hears_r, S: self.hears_s}[kind](octets)

    def refuses(self, error):
        """An R-block with an error."""
        return block(0x80 | self.expected << 4 | error)

    def hears_i(self, octets):
        """An I-block: a part of a command."""
        number, more = octets[1] >> 6 & 1, bool(octets[1] & 0x20)
        if number != self.expected or self.is_open:
            return self.refuses(2)
        self.expected ^= 1
        self.last, self.was_aborted = None, False
        self.command += octets[3:-1]
        if more:
            return block(0x80 | self.expected << 4)
        if len(self.command) > 3 and self.command[1] == 0x10:
            self.request = block(0xC3, self.command[3:4])
            return self.request
        return self.replies()

    def replies(self):
        """The first block of the answer."""
        self.answer = self.application.answer(self.command)
        self.command = b""
        return self.sends()

    def sends(self):
        """The next block of the answer."""
        field, self.answer = self.answer[:self.ifsd], self.answer[self.ifsd:]
        self.is_open = bool(self.answer)
        self.last = block(self.number << 6 | (0x20 if self.is_open else 0), field)
        self.number ^= 1
        return self.last

    def hears_r(self, octets):
        """An R-block: it acknowledges, or asks for the last block again."""
        number = octets[1] >> 4 & 1
        if self.is_open and number == self.number:
            return self.sends()
        if self.last is not None and number != self.number:
            return self.last
        return block(0x80 | self.expected << 4)

    def hears_s(self, octets):
        """A request of the terminal."""
        if octets[1] == 0xC2 and (self.command or self.is_open or self.was_aborted):
            return self.aborts()
        if octets[1] != 0xC1 or octets[3] in (0, 255):
            return self.refuses(2)
        self.ifsd = octets[3]
        return block(0xE1, octets[3:4])

    def aborts(self):
        """The response to ABORT: the chain of either end is over."""
        self.command, self.answer, self.last, self.is_open, self.was_aborted = b"", b"", None, False, True
        return block(0xE2)

    def hears_response(self, octets):
        """The response to the request for time, or anything else."""
        if octets != block(0xE3, self.request[3:4]):
            return self.request
        self.request = None
        return self.replies()


def main():
    card, addresses = Card(), Addresses()
    for line in sys.stdin:
        if line.strip() == "reset":
            card, addresses = Card(), Addresses()
            print(ATR, flush=True)
        else:
            said = addresses.outside(card.hears(addresses.inside(bytes.fromhex(line))))
            print(f"wait {TURN}\n" + (said.hex() if said else "-"), flush=True)


if __name__ == "__main__":
    main()
