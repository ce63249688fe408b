"""A terminal of T=1 in plain Python, for tests of the suite: each wrong terminal is this one with one line changed."""
import sys

IFSD, MOST = 32, 3
I, R, S = "I", "R", "S"
FAILED, IDLE, RESET = "failed", "-", "reset"
# microseconds from the end of a block to the terminal's next one: more than BGT
TURN = 2_000


def check(octets):
    """The check octet of these octets."""
    found = 0
    for octet in octets:
        found ^= octet
    return found


def block(pcb, field=b""):
    """A block."""
    octets = bytes([0x00, pcb, len(field)]) + field
    return octets + bytes([check(octets)])


def kind_of(octets):
    """The kind of a block, or None if it isn't one that the terminal takes."""
    if len(octets) < 4 or len(octets) != octets[2] + 4 or octets[2] > IFSD or check(octets) != 0:
        return None
    nad, pcb, size = octets[0], octets[1], octets[2]
    if nad != 0x00:
        return None
    if pcb & 0x80 == 0:
        return I if pcb & 0x1F == 0 else None
    if pcb & 0xC0 == 0x80:
        return R if pcb & 0xEC == 0x80 and size == 0 else None
    if pcb == 0xE0:
        return S if size == 0 else None
    if pcb == 0xC2:
        return S if size == 0 else None
    return S if pcb in (0xC1, 0xC3) and size == 1 else None


def ifsc_of(atr):
    """The field that a card takes: TA3 of the answers to reset of the suite."""
    return atr[4] if len(atr) > 5 else 32


def bwt_of(atr):
    """The block waiting time in microseconds: 11 etu, and 100 ms doubled BWI times, which is in TB3."""
    bwi = atr[5] >> 4 if len(atr) > 6 else 4
    return 1_146 + (100_000 << bwi)


class Terminal:
    """A terminal after a reset of its card."""

    def __init__(self, atr):
        self.bwt = bwt_of(atr)
        self.wait = self.bwt
        self.first = ifsc_of(atr)
        self.dead = False
        self.resynchs()

    def resynchs(self):
        """RESYNCH: numbers, chains and sizes begin again."""
        self.number, self.expected, self.ifsc = 0, 0, self.first
        self.command, self.answer, self.last, self.is_open = b"", b"", None, False
        self.failures, self.tries, self.was_aborted = 0, 0, False

    def transmits(self, command):
        """The first block of a command."""
        if self.dead:
            return RESET
        self.command, self.answer, self.failures, self.tries = command, b"", 0, 0
        self.was_aborted = False
        return self.sends()

    def sends(self):
        """The next block of the command."""
        field, self.command = self.command[:self.ifsc], self.command[self.ifsc:]
        self.is_open = bool(self.command)
        self.last = block(self.number << 6 | (0x20 if self.is_open else 0), field)
        self.number ^= 1
        return self.last

    def hears(self, octets):
        """What the terminal does after these octets, None for none within the waiting time."""
        kind = kind_of(octets) if octets is not None else None
        if self.tries:
            return self.hears_resynch(octets)
        if kind is None:
            return self.fails(0 if octets is None else 1 if len(octets) > 3 and check(octets) else 2)
        return {I: self.hears_i, R: self.hears_r, S: self.hears_s}[kind](octets)

    def fails(self, error, again=None):
        """A failure: an R-block or a repeated block, and RESYNCH after too many in a row."""
        self.failures += 1
        if self.failures > MOST:
            self.tries = 1
            return block(0xC0)
        return again if again is not None else block(0x80 | self.expected << 4 | error)

    def hears_resynch(self, octets):
        """The response to RESYNCH, or anything else."""
        if octets == block(0xE0):
            self.resynchs()
            return FAILED
        self.tries += 1
        if self.tries > 3:
            self.dead = True
            return FAILED
        return block(0xC0)

    def hears_i(self, octets):
        """An I-block: a part of the answer."""
        number, more = octets[1] >> 6 & 1, bool(octets[1] & 0x20)
        if number != self.expected or self.is_open:
            return self.fails(2)
        self.expected ^= 1
        self.failures = 0
        self.last = None
        self.answer += octets[3:-1]
        if more:
            return block(0x80 | self.expected << 4)
        return f"answer {self.answer.hex()}"

    def hears_r(self, octets):
        """An R-block: it acknowledges, or asks for the last block again. After ABORT it hands over."""
        number = octets[1] >> 4 & 1
        if self.was_aborted:
            return FAILED
        if self.is_open and number == self.number:
            self.failures = 0
            return self.sends()
        if self.last is not None and number != self.number:
            return self.fails(0, self.last)
        return self.fails(0)

    def hears_s(self, octets):
        """A request of the card."""
        if octets[1] == 0xC2:
            return self.aborts()
        if octets[1] == 0xC1 and octets[3] in (0, 255) or octets[1] == 0xE0:
            return self.fails(2)
        if octets[1] == 0xC1:
            self.ifsc = octets[3]
        return block(octets[1] | 0x20, octets[3:4])

    def aborts(self):
        """The response to ABORT: the chain of either end is over."""
        if not (self.is_open or self.answer or self.was_aborted):
            return self.fails(2)
        self.command, self.answer, self.last, self.is_open, self.was_aborted = b"", b"", None, False, True
        return block(0xE2)


def said(terminal, word, octets):
    """What the terminal says to a line."""
    if word == "send":
        return terminal.transmits(bytes.fromhex(octets))
    if word == "until" and terminal.wait > int(octets):
        return IDLE
    return terminal.hears(None if word in ("-", "until") else bytes.fromhex(word))


def shown(terminal, word, reply):
    """The lines of a reply, and how long the terminal waited before."""
    waited = terminal.wait if word == "until" and reply != IDLE else TURN
    if isinstance(reply, str):
        return f"wait {waited}\n{reply}" if word == "until" and reply != IDLE else reply
    terminal.wait = terminal.bwt
    if reply[1] == 0xE3:
        terminal.wait = terminal.bwt * (reply[3] or 1)
    return f"wait {waited}\n{reply.hex()}"


def main():
    terminal, waiting = None, ""
    for line in sys.stdin:
        word, _, octets = line.strip().partition(" ")
        if word == "reset":
            terminal, reply = Terminal(bytes.fromhex(octets)), IDLE
            if waiting:
                reply, waiting = said(terminal, "send", waiting), ""
        else:
            reply = said(terminal, word, octets)
            waiting = octets if reply == RESET else ""
        print(shown(terminal, word, reply), flush=True)


if __name__ == "__main__":
    main()
