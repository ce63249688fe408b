"""The kinds of wrong steps of tools/gate/try-legal, by the clauses of ISO/IEC 7816-3:2006.

KINDS has each kind that the judge has to name: the rules of docs/JUDGE.md of which it has to name one, when the step
can come, and the rows that it adds to a trace. UNSEEN has the kinds that no trace shows or that the judge leaves out,
each with its reason. Nobody may be accused for one of those.
"""

import dataclasses
import functools
import operator

from legal import ABORT, CARD, IFS, RESPONSE, RESYNCH, SUBJECTS, TERMINAL, WTX, encoded, swapped
from tapped import BUSY, CLEAN, PAIRS, QUIET, Row, Wishes

# how often a terminal repeats and corrects at most, and how often it asks for RESYNCH
MOST_REPEATS, MOST_RESYNCHS = 3, 3
# the blocks of which an end owes exactly one kind; after ABORT two are possible, and a refusal and a request are free
OWED = ("message", "next", "acknowledgment", "correction", "repeat", "request again", "response")
MESSAGE = ("message", "next")
# many requests, and enough damage for repeats
ASKING = Wishes(chain=0.7, request=0.6, damage=0.05, loss=0.03)
FAILING = Wishes(chain=0.5, request=0.2, refusal=0.0, anew=0.0, damage=0.2, loss=0.1)
# the times of drawn.ATR at 3.5712 MHz in microseconds, a little more than they are: BWT, CWT, and 22 etu
BWT, CWT, BGT = 1_601_147, 4_480, 2_291
# a part of the octets of each block, so that none comes sooner than 11 etu after the one before
OCTET = 1_146


# why a trace that doesn't say how blocks arrived doesn't show some kinds
AS_AFTER_ERROR = "an R-block after an error has the same octets"
AS_DAMAGED = "damage on the line leaves the same octets"
RESYNCH_AFTER_ERROR = "RESYNCH may come after an error"
AS_ANEW = "the terminal may have got each response, and ask anew"


@dataclasses.dataclass(frozen=True)
class Kind:
    """A kind of wrong step. It comes in place of a block of the kinds `dues` of the end `side`, or of either end.
    `needs` is what the ends do before it, and `storm` says which blocks are damaged from the first step on that it
    could follow. `hidden` says why a trace that doesn't say how blocks arrived doesn't show it. In such a trace it may
    also break the rules `unless_told`."""

    name: str
    rules: tuple[str, ...]
    rows: object
    dues: tuple[str, ...] = OWED
    side: str = ""
    needs: Wishes = BUSY
    hidden: str = ""
    unless_told: tuple[str, ...] = ()
    storm: str = ""
    is_timed: bool = False
    begins: bool = False
    line: str = ""

    def is_hidden(self, is_told):
        """Whether the judge can't tell it from what is permitted."""
        return not self.rules or not is_told and bool(self.hidden)

    def rules_of(self, is_told):
        """The rules of which the judge has to name one."""
        return self.rules if is_told else self.rules + self.unless_told


KINDS, UNSEEN = {}, {}


def kind(name, *rules, **more):
    """Adds a kind, whose rows the function makes that comes next."""
    def adds(rows):
        KINDS[name] = Kind(name, rules, rows, **more)
        return rows
    return adds


def unseen(name, reason, **more):
    """Adds a kind that nobody may name."""
    def adds(rows):
        UNSEEN[name] = Kind(name, (), rows, hidden=reason, **more)
        return rows
    return adds


class Turn:
    """The end whose turn it is, and the block that it would send."""

    def __init__(self, line, side, block):
        self.line, self.rng, self.side, self.block = line, line.rng, side, block
        self.end, self.rows = line.ends[side], line.rows
        self.nad = line.nad if side == TERMINAL else swapped(line.nad)
        self.pcb, self.field = block

    def raw(self, octets, side=None, gap=None):
        """Rows with these octets, which arrive as they are."""
        return [Row(side or self.side, octets, octets, "wrong", gap)]

    def sends(self, pcb, field=b"", nad=None):
        """Rows with another block."""
        return self.raw(encoded(self.nad if nad is None else nad, pcb, field))

    def informs(self, number=None):
        """Rows with a new I-block."""
        return self.sends((self.end.next if number is None else number) << 6, self.rng.randbytes(3))

    def confirms(self, code=0, number=None):
        """Rows with an R-block."""
        return self.sends(0x80 | (self.end.expects if number is None else number) << 4 | code)

    def octets(self):
        """The octets of the block that it would send."""
        return encoded(self.nad, *self.block)

    def last(self):
        """The last row, if it is a block."""
        return self.rows[-1] if self.rows and self.rows[-1].is_block() else None

    def answers(self):
        """Whether it answers a block that came whole."""
        last = self.last()
        return last is not None and last.word != self.side and last.came == last.octets

    def is_first(self):
        """Whether no block came since the reset."""
        return not self.line.has_begun()

    def row_of(self, due, count):
        """The last block of the terminal, if its last blocks were so often of one kind."""
        mine = [row for row in self.rows[self.line.begun():] if row.word == TERMINAL][-count:]
        return mine[-1] if len(mine) == count and all(row.due == due for row in mine) else None


# ---- any block (11.3)

@kind("node address of another pair", "node address", side=CARD)
def other_pair(turn):
    used = {turn.line.nad}
    others = [it for it in PAIRS if swapped(it) not in used]
    return turn.answers() and turn.sends(*turn.block, nad=turn.rng.choice(others))


@kind("node address that isn't swapped", "node address", side=CARD)
def not_swapped(turn):
    return turn.answers() and turn.nad != turn.line.nad and turn.sends(*turn.block, nad=turn.line.nad)


@kind("node address of one end twice", "node address")
def twice(turn):
    return turn.sends(*turn.block, nad=0x11 * turn.rng.randint(1, 7))


@kind("node address with bit 8", "node address")
def bit_8(turn):
    return turn.sends(*turn.block, nad=turn.nad | 0x80)


@kind("node address with bit 4", "node address")
def bit_4(turn):
    return turn.sends(*turn.block, nad=turn.nad | 0x08)


@kind("answer in another connection", "node address", side=CARD, needs=CLEAN, line="two",
      hidden="the card may not have got the block of the first connection")
def elsewhere(turn):
    """The card answers a block of the first connection in the other one, which the terminal opened."""
    other = swapped(turn.line.connections[1][0])
    return turn.line.is_first() and turn.line.has_other() and turn.answers() and turn.sends(*turn.block, nad=other)


@kind("reserved bits of an I-block", "control octet")
def reserved_information(turn):
    reserved = turn.rng.choice((0x00, 0x20)) | turn.rng.randint(1, 0x1F)
    return turn.sends(turn.end.next << 6 | reserved, turn.rng.randbytes(3))


@kind("bit 6 of an R-block", "control octet")
def reserved_receipt(turn):
    return turn.sends(0xA0 | turn.end.expects << 4 | turn.rng.choice((0, 1, 2)))


@kind("reserved code of an R-block", "control octet")
def reserved_code(turn):
    return turn.confirms(turn.rng.randint(3, 15))


@kind("reserved request", "control octet")
def reserved_request(turn):
    return turn.sends(0xC0 | turn.rng.randint(5, 0x1F))


@kind("reserved response", "control octet")
def reserved_response(turn):
    return turn.sends(0xE0 | turn.rng.randint(5, 0x1F))


@kind("LEN of 255", "length")
def longest(turn):
    return turn.sends(turn.end.next << 6, turn.rng.randbytes(255))


@kind("R-block with a field", "length")
def receipt_with_field(turn):
    return turn.sends(0x80 | turn.end.expects << 4, turn.rng.randbytes(turn.rng.randint(1, 3)))


def with_length(subject, is_response):
    """A kind of S-blocks with a field of the wrong length."""
    has_octet = subject in (IFS, WTX)
    what = f"{SUBJECTS[subject]} {'response' if is_response else 'request'}"

    @kind(f"{what} {'without its octet, or with two' if has_octet else 'with a field'}", "length")
    def rows(turn):
        field = turn.rng.choice((b"", b"\x20\x20")) if has_octet else turn.rng.randbytes(turn.rng.randint(1, 3))
        return turn.sends(subject | (RESPONSE if is_response else 0), field)
    return rows


for _subject in SUBJECTS:
    with_length(_subject, False)
    with_length(_subject, True)


@kind("LEN of more octets than its sender sent", "length", hidden=AS_DAMAGED)
def too_few(turn):
    nad, pcb, size, *rest = turn.octets()[:-1]
    octets = bytes([nad, pcb, min(size + turn.rng.randint(1, 9), 254), *rest])
    return size < 250 and turn.raw(octets + bytes([checked(octets)]))


@kind("LEN of fewer octets than its sender sent", "length", hidden=AS_DAMAGED)
def too_many(turn):
    octets = turn.octets() + turn.rng.randbytes(turn.rng.randint(1, 3))
    return turn.raw(octets)


@kind("fewer octets than a block has", "length", hidden=AS_DAMAGED)
def cut_short(turn):
    return turn.raw(turn.octets()[:turn.rng.randint(1, 3)])


@kind("wrong check octet", "check octet", hidden=AS_DAMAGED)
def wrong_check(turn):
    octets = turn.octets()
    return turn.raw(octets[:-1] + bytes([octets[-1] ^ turn.rng.randint(1, 255)]))


def checked(octets):
    """The check octet of octets."""
    return functools.reduce(operator.xor, octets)


# ---- sizes (11.4.2)

@kind("request for a size of 0", "reserved size")
def size_0(turn):
    return turn.sends(IFS, b"\x00")


@kind("request for a size of 255", "reserved size")
def size_255(turn):
    return turn.sends(IFS, b"\xff")


@kind("response about a reserved size", "reserved size", dues=("response",), needs=ASKING)
def size_response(turn):
    return turn.pcb == IFS | RESPONSE and turn.sends(turn.pcb, turn.rng.choice((b"\x00", b"\xff")))


def too_long(turn):
    """Rows with a field that is an octet longer than the other end takes, or more."""
    size = min(turn.end.widest + turn.rng.choice((1, 1, 40)), 254)
    return turn.end.widest < 254 and turn.sends(turn.pcb, turn.rng.randbytes(size))


@kind("field of the terminal longer than IFSC", "field too long", dues=MESSAGE, side=TERMINAL)
def past_ifsc(turn):
    return not turn.end.sizes and too_long(turn)


@kind("field of the card longer than IFSD", "field too long", dues=MESSAGE, side=CARD)
def past_ifsd(turn):
    return not turn.end.sizes and too_long(turn)


@kind("field longer than a larger size that was agreed", "field too long", dues=MESSAGE, needs=ASKING)
def past_larger(turn):
    return turn.end.sizes and turn.end.widest > turn.end.first_room and too_long(turn)


@kind("field longer than a smaller size that was agreed", "field too long", dues=MESSAGE, needs=ASKING)
def past_smaller(turn):
    return turn.end.sizes and turn.end.widest < turn.end.first_room and too_long(turn)


# ---- whose turn it is (11.6.2.3 rule 1)

@kind("card that begins a session", "out of turn", dues=("message", "request"), side=TERMINAL, begins=True)
def card_begins(turn):
    block = turn.rng.choice(((0, b"\x90\x00"), (IFS, b"\x40"), (0x80, b"")))
    return turn.is_first() and turn.raw(encoded(swapped(turn.line.nad), *block), CARD)


@kind("card that sends its block twice", "out of turn", side=TERMINAL)
def card_again(turn):
    last = turn.last()
    return last is not None and last.word == CARD and turn.raw(last.octets, CARD)


@kind("card that sends another block after its own", "out of turn", side=TERMINAL)
def card_goes_on(turn):
    last, card = turn.last(), turn.line.ends[CARD]
    block = turn.rng.choice(((card.next << 6, b"\x90\x00"), (0x80 | card.expects << 4, b""), (WTX, b"\x02")))
    return last is not None and last.word == CARD and turn.raw(encoded(swapped(turn.line.nad), *block), CARD)


@kind("card that opens a connection of its own", "out of turn", "node address", side=TERMINAL)
def card_opens(turn):
    last = turn.last()
    nad = turn.rng.choice([it for it in PAIRS if it != turn.line.nad])
    return last is not None and last.word == CARD and turn.raw(encoded(swapped(nad), 0, b"\x90\x00"), CARD)


@kind("no answer to a block", "no block", side=CARD, hidden="the card may not have got the block")
def silence(turn):
    return turn.answers() and turn.end.due != "response" and turn.rows[-1].octets[1] < 0xE0 and [Row(QUIET)]


@kind("no answer to a request", "no block", dues=("response",), side=CARD, needs=ASKING,
      hidden="the card may not have got the request")
def silence_to_request(turn):
    return turn.answers() and [Row(QUIET)]


@kind("no block after a response", "no block", side=CARD, needs=ASKING, hidden="the card may not have got the response")
def silence_to_response(turn):
    return turn.answers() and turn.rows[-1].octets[1] & 0xE0 == 0xE0 and [Row(QUIET)]


@kind("RESYNCH of a card", "request of the other end", side=CARD)
def card_resynchs(turn):
    return turn.sends(RESYNCH)


@kind("WTX of a terminal", "request of the other end", side=TERMINAL)
def terminal_waits(turn):
    return turn.sends(WTX, bytes([turn.rng.randint(1, 255)]))


# ---- messages and chains (rules 2.1, 2.2 and 5)

@kind("number of the first I-block", "sequence number", dues=("message",), begins=True)
def first_number(turn):
    return turn.end.was_new and turn.sends(turn.pcb ^ 0x40, turn.field)


@kind("number of the first I-block after RESYNCH", "sequence number", dues=("message",), needs=ASKING)
def number_anew(turn):
    return turn.end.was_anew and turn.pcb < 0x40 and turn.sends(turn.pcb ^ 0x40, turn.field)


@kind("number of an I-block", "sequence number", dues=("message",))
def number(turn):
    return not turn.end.was_new and not turn.end.was_anew and turn.sends(turn.pcb ^ 0x40, turn.field)


@kind("number of an I-block within a chain", "sequence number", dues=("next",))
def number_in_chain(turn):
    return turn.sends(turn.pcb ^ 0x40, turn.field)


@kind("R-block for a message", "no I-block", dues=("message",), hidden=AS_AFTER_ERROR)
def receipt_for_message(turn):
    return turn.answers() and turn.confirms(turn.rng.choice((0, 1)))


@kind("R-block for a block of its chain", "no I-block", dues=("next",), hidden=AS_AFTER_ERROR)
def receipt_in_chain(turn):
    return turn.answers() and turn.confirms(turn.rng.choice((0, 1)))


@kind("number of an acknowledgment", "sequence number", dues=("acknowledgment",),
      hidden="an R-block after an error has the number of the block that came damaged")
def number_confirmed(turn):
    return turn.sends(turn.pcb ^ 0x10)


@kind("acknowledgment with an error code", "error code", dues=("acknowledgment",))
def with_code(turn):
    return turn.confirms(turn.rng.choice((1, 2)))


@kind("I-block for an acknowledgment", "no acknowledgment", dues=("acknowledgment",))
def block_for_receipt(turn):
    return turn.informs()


# ---- repeats and corrections (11.6.3.2 rules 7.1, 7.2 and 7.4)

@kind("number of a repeat", "sequence number", dues=("repeat",))
def number_again(turn):
    return turn.sends(turn.pcb ^ 0x40, turn.field)


@kind("repeat with another octet", "repeat with other octets", dues=("repeat",))
def other_octet(turn):
    return turn.field and turn.sends(turn.pcb, turn.field[:-1] + bytes([turn.field[-1] ^ 1]))


@kind("repeat of another length", "repeat with other octets", dues=("repeat",))
def other_length(turn):
    return turn.sends(turn.pcb, turn.field[:-1] if turn.field else b"\x00")


@kind("repeat that goes on otherwise", "repeat with other octets", dues=("repeat",))
def other_more(turn):
    return turn.sends(turn.pcb ^ 0x20, turn.field)


@kind("R-block for a repeat", "no repeat", dues=("repeat",), hidden=AS_AFTER_ERROR)
def receipt_for_repeat(turn):
    return turn.confirms()


@kind("number of an R-block after an error", "sequence number", dues=("correction",))
def number_corrected(turn):
    return not turn.end.is_aborted and turn.sends(turn.pcb ^ 0x10)


@kind("new I-block after an error", "no R-block", dues=("correction",))
def block_for_correction(turn):
    return not turn.end.is_aborted and turn.informs()


@kind("last I-block again after an error", "no R-block", dues=("correction",))
def repeat_for_correction(turn):
    last = turn.end.pending
    return not turn.end.is_aborted and last is not None and turn.sends(*last)


@kind("fourth repeat of an I-block", "too many repeats", dues=("RESYNCH",), side=TERMINAL, needs=FAILING,
      storm="blocks of the terminal")
def fourth_repeat(turn):
    last = turn.row_of("repeat", MOST_REPEATS)
    return turn.answers() and last is not None and turn.raw(last.octets)


@kind("fourth R-block after an error", "too many repeats", dues=("RESYNCH",), side=TERMINAL, needs=FAILING,
      storm="blocks of the card",
      unless_told=("no I-block", "no acknowledgment", "error code", "sequence number", "no response"))
def fourth_correction(turn):
    last = turn.row_of("correction", MOST_REPEATS)
    return last is not None and turn.raw(last.octets)


@kind("fourth repeat of a request", "too many repeats", dues=("RESYNCH",), side=TERMINAL, needs=FAILING,
      storm="answers to a request", hidden=AS_ANEW)
def fourth_request(turn):
    last = turn.row_of("request again", MOST_REPEATS)
    return last is not None and turn.raw(last.octets)


@kind("fourth RESYNCH", "too many repeats", dues=("gives up",), side=TERMINAL, needs=FAILING,
      storm="answers to RESYNCH", hidden=AS_ANEW)
def fourth_resynch(turn):
    last = turn.row_of("request again", MOST_RESYNCHS - 1)
    return last is not None and last.octets[1] == RESYNCH and turn.raw(last.octets)


# ---- requests and responses (rules 3, 4, 6, 7.3 and 9)

@kind("request again with another octet", "no repeated request", dues=("request again",), needs=ASKING)
def request_changed(turn):
    return turn.field and turn.sends(turn.pcb, bytes([turn.field[0] % 254 + 1]))


@kind("another request in place of the same again", "no repeated request", dues=("request again",), needs=ASKING)
def other_request(turn):
    subject = ABORT if turn.pcb == IFS else IFS
    return turn.sends(subject, b"\x30" if subject == IFS else b"")


@kind("I-block in place of a request again", "no repeated request", dues=("request again",), needs=ASKING)
def block_for_request(turn):
    return turn.informs()


@kind("R-block in place of a request again", "no repeated request", dues=("request again",), needs=ASKING)
def receipt_for_request(turn):
    return turn.confirms()


@kind("response about another size", "response with another octet", dues=("response",), needs=ASKING)
def other_size(turn):
    return turn.pcb == IFS | RESPONSE and turn.sends(turn.pcb, bytes([turn.field[0] % 254 + 1]))


@kind("response with another multiple", "response with another octet", dues=("response",), side=TERMINAL, needs=ASKING)
def other_multiple(turn):
    return turn.pcb == WTX | RESPONSE and turn.sends(turn.pcb, bytes([turn.field[0] % 255 + 1]))


@kind("response about something else", "no response", dues=("response",), needs=ASKING)
def other_response(turn):
    return turn.sends(ABORT | RESPONSE) if turn.field else turn.sends(IFS | RESPONSE, b"\x20")


@kind("I-block in place of a response", "no response", dues=("response",), needs=ASKING)
def block_for_response(turn):
    return turn.pcb != ABORT | RESPONSE and turn.informs()


@kind("R-block in place of a response", "no response", dues=("response",), needs=ASKING,
      hidden=AS_AFTER_ERROR)
def receipt_for_response(turn):
    return turn.pcb != ABORT | RESPONSE and turn.confirms()


@kind("request in place of a response", "no response", dues=("response",), needs=ASKING)
def request_for_response(turn):
    return turn.sends(IFS, b"\x30")


@kind("I-block in place of an ABORT response", "no response", dues=("response",), needs=ASKING)
def chain_goes_on(turn):
    return turn.pcb == ABORT | RESPONSE and turn.sends(turn.end.next << 6 | 0x20, b"\x01\x02")


@kind("R-block in place of an ABORT response", "no response", dues=("response",), needs=ASKING,
      hidden=AS_AFTER_ERROR)
def receipt_after_abort(turn):
    return turn.pcb == ABORT | RESPONSE and turn.confirms()


def unasked(subject):
    """A kind of responses that nobody asked for."""
    @kind(f"{SUBJECTS[subject]} response that nobody asked for", "response to no request",
          dues=("message", "next", "acknowledgment", "correction", "repeat"))
    def rows(turn):
        return turn.sends(subject | RESPONSE, b"\x20" if subject in (IFS, WTX) else b"")
    return rows


for _subject in SUBJECTS:
    unasked(_subject)


@kind("response in place of a request again", "no repeated request", "response to no request",
      dues=("request again",), needs=ASKING)
def response_for_request(turn):
    return turn.sends(turn.pcb | RESPONSE, turn.field)


@kind("ABORT before a message", "ABORT outside a chain", dues=("message",))
def abort(turn):
    return turn.sends(ABORT)


@kind("number of a block after ABORT", "sequence number", dues=("either",), needs=ASKING)
def number_after_abort(turn):
    return turn.sends(turn.pcb ^ (0x10 if turn.pcb & 0x80 else 0x40), turn.field)


@kind("hand-over with an error code", "error code", dues=("either",), needs=ASKING)
def hand_over_with_code(turn):
    return turn.answers() and turn.rows[-1].octets[1] == ABORT | RESPONSE and turn.confirms(turn.rng.choice((1, 2)))


@kind("RESYNCH within its own chain", "RESYNCH too early", dues=("next",), side=TERMINAL,
      hidden=RESYNCH_AFTER_ERROR)
def resynch_in_chain(turn):
    return turn.answers() and turn.sends(RESYNCH)


@kind("RESYNCH for an acknowledgment", "RESYNCH too early", dues=("acknowledgment",), side=TERMINAL,
      hidden=RESYNCH_AFTER_ERROR)
def resynch_for_receipt(turn):
    return turn.answers() and turn.end.earlier < MOST_REPEATS and turn.sends(RESYNCH)


# ---- times (11.4.3)

def lasts(row, octet):
    """From the beginning of a block to that of its last octet, if octets come so far apart."""
    return (len(row.octets) - 1) * octet


def granted(row):
    """The multiple of BWT after a block of the terminal."""
    return max(row.octets[3], 1) if row.octets[1] == WTX | RESPONSE else 1


@kind("card that is late", "late", side=CARD, is_timed=True)
def late(turn):
    if not turn.answers() or granted(turn.rows[-1]) != 1:
        return None
    return turn.raw(turn.octets(), gap=BWT + lasts(turn.rows[-1], CWT) + turn.rng.randint(1, 2_000_000))


@kind("card that is late after WTX", "late", side=CARD, is_timed=True, needs=ASKING)
def late_after_wtx(turn):
    if not turn.answers() or (multiple := granted(turn.rows[-1])) == 1:
        return None
    return turn.raw(turn.octets(), gap=multiple * BWT + lasts(turn.rows[-1], CWT) + turn.rng.randint(1, 2_000_000))


@kind("card that uses a multiple twice", "late", side=CARD, is_timed=True, needs=ASKING)
def late_once_more(turn):
    earlier = [row for row in turn.rows if row.word == TERMINAL][-2:]
    if not turn.answers() or len(earlier) < 2 or granted(earlier[0]) < 3 or granted(earlier[1]) != 1:
        return None
    return turn.raw(turn.octets(), gap=BWT + lasts(earlier[1], CWT) + turn.rng.randint(1, BWT))


@kind("terminal that doesn't wait for BWT", "early", side=TERMINAL, is_timed=True)
def early(turn):
    if len(turn.rows) < 2 or turn.rows[-1].word != QUIET or turn.rows[-2].word != TERMINAL or turn.rows[-2].came:
        return None
    sent = turn.rows[-2]
    return turn.raw(turn.octets(), gap=lasts(sent, OCTET) + turn.rng.randint(BGT, BWT - 2_000))


@kind("terminal that doesn't wait for the card", "early", side=CARD, is_timed=True)
def early_unanswered(turn):
    sent = turn.last()
    if not turn.answers() or granted(sent) != 1:
        return None
    octets = encoded(turn.line.nad, 0x80 | turn.line.ends[TERMINAL].expects << 4, b"")
    return sent.octets[1] < 0x80 and turn.raw(octets, TERMINAL, lasts(sent, OCTET) + turn.rng.randint(BGT, BWT - 2_000))


@kind("terminal that doesn't wait as long as it granted", "early", side=CARD, is_timed=True, needs=ASKING)
def early_after_wtx(turn):
    sent = turn.last()
    if not turn.answers() or (multiple := granted(sent)) < 2:
        return None
    octets = encoded(turn.line.nad, 0x80 | turn.line.ends[TERMINAL].expects << 4, b"")
    gap = lasts(sent, OCTET) + turn.rng.randint(BWT, (multiple - 1) * BWT + BWT // 2)
    return turn.raw(octets, TERMINAL, gap)


@kind("terminal that doesn't wait for BGT", "early", side=TERMINAL, is_timed=True)
def before_bgt(turn):
    """The card answers soon, so that BWT isn't over either."""
    last, sent = turn.last(), turn.rows[-2] if len(turn.rows) > 1 else None
    if last is None or last.word != CARD or sent.word != TERMINAL:
        return None
    last.gap = lasts(sent, 1_250) + turn.rng.randint(BGT, 100_000)
    return turn.raw(turn.octets(), gap=lasts(last, OCTET) + turn.rng.randint(1, BGT - len(last.octets) - 2))


# ---- what no trace shows, and what the judge leaves out

@unseen("silence after damage", "a card may take damaged octets for noise, and send nothing", side=CARD)
def silence_after_damage(turn):
    last = turn.last()
    return last is not None and last.word == TERMINAL and last.came != last.octets and [Row(QUIET)]


@unseen("chain that goes on after its own ABORT", "the octets don't show that its block isn't the first of a message",
        dues=("either",), needs=ASKING)
def own_chain_goes_on(turn):
    return turn.rows[-1].octets[1:2] == bytes([ABORT | RESPONSE]) and turn.pcb < 0x80 and turn.sends(*turn.block)


@unseen("rest of a chain after RESYNCH", "the octets don't show that its block isn't the first of a message",
        dues=("message",), needs=ASKING)
def rest_of_chain(turn):
    return turn.end.was_anew and turn.sends(*turn.block)


@unseen("refusal without need", "no octet shows whether an end has room", dues=("message", "acknowledgment"), side=CARD)
def refusal(turn):
    return turn.answers() and turn.rows[-1].octets[1] < 0x80 and turn.confirms(2, turn.end.expects ^ 1)


@unseen("reason that isn't the one of an R-block", "the trace doesn't say what the receiver saw", dues=("correction",))
def other_reason(turn):
    return turn.sends(turn.pcb & 0xF0 | (turn.pcb + 1) % 3)


@unseen("card that doesn't wait for BGT", "the judge doesn't judge how soon a card answers (docs/JUDGE.md)", side=CARD,
        is_timed=True)
def card_before_bgt(turn):
    sent = turn.last()
    return turn.answers() and turn.raw(turn.octets(), gap=lasts(sent, 1_250) + turn.rng.randint(1_200, BGT - 1))


@unseen("number of an I-block in another connection", "the judge follows the connection of the first block",
        needs=CLEAN, dues=MESSAGE, line="two")
def number_elsewhere(turn):
    return not turn.line.is_first() and turn.sends(turn.pcb ^ 0x40, turn.field)
