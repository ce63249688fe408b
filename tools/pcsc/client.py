"""A client of PC/SC for the card of examples/pcsc, over pyscard: sessions under a plan, exchanges, and the right answer
to each command."""
from smartcard import scard


class Told(Exception):
    """The error that PC/SC returned in place of an answer: the name of its code."""


def name_of(code):
    names = [name for name in dir(scard) if name.startswith(("SCARD_E_", "SCARD_W_", "SCARD_F_"))
             and isinstance(getattr(scard, name), int) and getattr(scard, name) & 0xFFFFFFFF == code & 0xFFFFFFFF]
    return names[0] if names else f"{code & 0xFFFFFFFF:08X}"


def checked(code):
    if code != scard.SCARD_S_SUCCESS:
        raise Told(name_of(code))


class Client:
    """A client of the reader with this word in its name, `scard` or `Gem`. `plan_file` is the reader's plan file."""

    def __init__(self, word, plan_file=None, mode=scard.SCARD_SHARE_SHARED):
        code, self.context = scard.SCardEstablishContext(scard.SCARD_SCOPE_SYSTEM)
        checked(code)
        code, names = scard.SCardListReaders(self.context, [])
        checked(code)
        self.reader = next(name for name in names if word in name)
        self.plan_file, self.mode, self.card = plan_file, mode, None

    def connect(self):
        code, self.card, _ = scard.SCardConnect(self.context, self.reader, self.mode, scard.SCARD_PROTOCOL_T1)
        if code != scard.SCARD_S_SUCCESS:
            self.card = None
        checked(code)

    def reset(self, plan=""):
        """Begins a session under a plan: the card is reset."""
        if self.plan_file is not None:
            with open(self.plan_file, "w") as file:
                file.write(plan)
        if self.card is not None:
            code, _ = scard.SCardReconnect(self.card, self.mode, scard.SCARD_PROTOCOL_T1, scard.SCARD_RESET_CARD)
            if code == scard.SCARD_S_SUCCESS:
                return
            scard.SCardDisconnect(self.card, scard.SCARD_UNPOWER_CARD)
            self.card = None
        self.connect()
        code, _ = scard.SCardReconnect(self.card, self.mode, scard.SCARD_PROTOCOL_T1, scard.SCARD_RESET_CARD)
        checked(code)

    def transmit(self, command):
        code, answer = scard.SCardTransmit(self.card, scard.SCARD_PCI_T1, list(command))
        checked(code)
        return bytes(answer)

    def close(self):
        if self.card is not None:
            scard.SCardDisconnect(self.card, scard.SCARD_LEAVE_CARD)
            self.card = None
        scard.SCardReleaseContext(self.context)


def octet(place):
    return (place * 7 + (place >> 8) * 13 + 5) & 255


def read(at, count):
    """READ BINARY of `count` octets, and its answer."""
    given = min(count, 65536 - at)
    short = bytes([0, 0xB0, at >> 8, at & 255, count & 255])
    long = bytes([0, 0xB0, at >> 8, at & 255, 0, count >> 8 & 255, count & 255])
    data = bytes(octet(at + place) for place in range(given))
    return short if count <= 256 else long, data + (b"\x90\x00" if given == count else b"\x62\x82")


def echo(data):
    """A command with this data field, which the answer repeats."""
    head = bytes([0, 0xCB, 0x3F, 0xFF])
    if len(data) < 256:
        return head + bytes([len(data)]) + data + b"\0", data + b"\x90\x00"
    return head + bytes([0, len(data) >> 8, len(data) & 255]) + data + b"\0\0", data + b"\x90\x00"


def some(dice, most):
    """A random command with its answer, each of about `most` octets at most."""
    kind = dice.random()
    if kind < 0.35:
        return read(dice.randrange(0x8000), dice.randint(1, 256))
    if kind < 0.55:
        return read(dice.randrange(0x8000), dice.randint(1, most))
    if kind < 0.75:
        return echo(dice.randbytes(dice.randint(1, 255)))
    if kind < 0.9:
        return echo(dice.randbytes(dice.randint(1, most - 1)))
    if kind < 0.95:
        return bytes([0, 0x20, 0, 0]), b"\x6D\x00"
    return bytes([0, 0xA4, 4, 0, 2, 1, 2]), b"\x6A\x82"


def counted(client, exchanges):
    """Sends commands, and counts how many answers are right, how many commands fail, and how many answers are wrong."""
    right = failed = wrong = 0
    for command, wanted in exchanges:
        try:
            is_right = client.transmit(command) == wanted
            right += is_right
            wrong += not is_right
        except Told:
            failed += 1
    return right, failed, wrong
