"""The ends of sessions of T=1 that the standard permits, for tools/gate/try-legal.

The ends are written from the clauses of ISO/IEC 7816-3:2006, 11.3 to 11.6. They share no line with the definitions of
the crate judge_core and none with t1_rules.py, and choose at random among the blocks that the clauses permit. Each end
knows what it received, which a tap on the line doesn't.
"""

import functools
import operator

TERMINAL, CARD = "t", "c"
# what an end receives if no block comes whole: octets with an error, or nothing before its waiting time ends
BROKEN, SILENCE = "broken", "silence"
RESYNCH, IFS, ABORT, WTX = 0xC0, 0xC1, 0xC2, 0xC3
SUBJECTS = {RESYNCH: "RESYNCH", IFS: "IFS", ABORT: "ABORT", WTX: "WTX"}
RESPONSE = 0x20
# the field that a card of drawn.ATR takes, and that each card may send first (11.4.2)
USUAL_SIZE = 32
MOST_RESYNCHS = 3
# after so many repeats and corrections a terminal may ask for RESYNCH in place of a refusal, as rule 7.4 is read
MOST_REPEATS = 3
NAMES = {TERMINAL: "terminal", CARD: "card"}
# in place of what an end asks for something or refuses a block
PLACES = {"message": "a message", "next": "a block of its chain", "acknowledgment": "an acknowledgment",
          "either": "a message or a hand-over after ABORT"}


class GivesUp(Exception):
    """The terminal ends the session, or resets the card (rule 6.4)."""


def encoded(nad, pcb, field):
    """The octets of a block (11.3)."""
    octets = bytes([nad, pcb, len(field)]) + field
    return octets + bytes([functools.reduce(operator.xor, octets)])


def swapped(nad):
    """The node address of an answer (11.3.2.1)."""
    return (nad & 0x0F) << 4 | nad >> 4


class End:
    """An end of the line. `due` is the kind of the block that it sends next, for those who change one. `widest` is the
    size that the other end takes by either reading of what RESYNCH does to it. `made` counts what it does."""

    def __init__(self, side, rng, wishes, made):
        self.side, self.rng, self.wishes, self.made = side, rng, wishes, made
        self.room = self.first_room = self.widest = USUAL_SIZE
        self.most = rng.choice((2, 3))
        self.sizes = 0
        # whether it sent no block yet, or no I-block since RESYNCH; and whether that was so before its last one
        self.due, self.is_new, self.is_anew, self.was_new, self.was_anew = None, True, False, True, False
        self.begins()

    def begins(self):
        """After a reset, or after RESYNCH (rule 6): numbers and chains begin again, the sizes perhaps."""
        self.next = self.expects = self.fails = self.earlier = self.tries = 0
        self.pending = self.asked = self.before = self.refusable = self.held = None
        self.is_aborted = self.has_refused = False
        self.widest = max(self.widest, self.first_room)
        self.room = self.rng.choice((self.room, self.first_room))

    # ---- what it sends

    def counts(self, what):
        """It did this once more."""
        self.made[f"{what} of the {NAMES[self.side]}"] += 1

    def sends(self, due, pcb, field=b""):
        """A block of this kind."""
        self.due, self.was_new, self.is_new = due, self.is_new, False
        return pcb, field

    def informs(self, due):
        """An I-block with the next number (rule 2.1), of a message that may go on (rule 5)."""
        size = self.rng.choice((0, 1, 5, self.room)) if self.rng.random() < 0.4 else self.rng.randint(1, 8)
        field = self.rng.randbytes(min(size, self.room))
        pcb = self.next << 6 | (0x20 if self.rng.random() < self.wishes.chain else 0)
        self.pending, self.next = (pcb, field), self.next ^ 1
        self.fails, self.is_aborted, self.has_refused = 0, False, False
        self.was_anew, self.is_anew = self.is_anew, False
        if pcb & 0x20:
            self.counts("chain" if due != "next" else "longer chain")
        if not field:
            self.counts("empty I-block")
        return self.sends(due, pcb, field)

    def acts(self, due):
        """The block that is due in order, or a request or a refusal in place of it (rules 3, 4, 6 and 9)."""
        refusable, self.refusable = self.refusable, None
        if refusable is not None and not self.has_refused and self.rng.random() < self.wishes.refusal:
            return self.refuses(due, refusable)
        subject = self.wish(due)
        if subject is not None:
            return self.asks(due, subject, refusable)
        if due == "acknowledgment" or due == "either" and self.rng.random() < 0.5:
            self.counts("hand-over after ABORT" if due == "either" else "acknowledgment")
            return self.sends(due, 0x80 | self.expects << 4)
        return self.informs(due)

    def refuses(self, due, number):
        """An R-block that refuses an I-block which came whole (11.3.2.2); RESYNCH if the terminal failed too often."""
        if self.side == TERMINAL and self.earlier >= self.most:
            return self.begins_again("a refusal") if self.earlier >= MOST_REPEATS else self.informs_or_confirms(due)
        self.counts("refusal after a request" if self.held is not None else "refusal")
        self.expects, self.has_refused, self.fails, self.held = number, True, self.earlier + 1, None
        return self.sends("refusal", 0x82 | self.expects << 4)

    def informs_or_confirms(self, due):
        """The block that is due in order."""
        return self.sends(due, 0x80 | self.expects << 4) if due == "acknowledgment" else self.informs(due)

    def wish(self, due):
        """A request that may come in place of what is due, if it wishes one."""
        if self.rng.random() >= self.wishes.request:
            return None
        subjects = [IFS] + [WTX] * (self.side == CARD)
        if due in ("next", "acknowledgment"):
            subjects += [ABORT]
        if self.side == TERMINAL and due in ("message", "either"):
            subjects += [RESYNCH]
        return self.rng.choice(subjects)

    def asks(self, before, subject, refusable=None):
        """A first request. After one for a size or for time it may still refuse the I-block before, unless it is a
        terminal between two exchanges, which has taken the answer."""
        octet = {IFS: self.rng.randint(1, 254), WTX: self.rng.randint(1, 255)}.get(subject)
        is_first = self.is_new and self.side == TERMINAL
        self.counts(f"{SUBJECTS[subject]} in place of {'the first block' if is_first else PLACES[before]}")
        self.before, self.tries = before, 0
        self.asked = subject, b"" if octet is None else bytes([octet])
        is_taken = subject not in (IFS, WTX) or self.side == TERMINAL and before != "acknowledgment"
        self.held = None if is_taken else refusable
        return self.sends("request", *self.asked)

    def asks_again(self):
        """The same request (rule 7.3), or RESYNCH after some tries."""
        self.tries += 1
        if self.asked[0] == RESYNCH:
            if self.tries >= MOST_RESYNCHS:
                raise GivesUp
        elif self.side == TERMINAL and (self.tries > self.most or self.is_hasty()):
            return self.begins_again("a request again")
        self.counts(f"{SUBJECTS[self.asked[0]]} again")
        return self.sends("request again", *self.asked)

    def is_hasty(self):
        """Whether a terminal asks for RESYNCH at once after an error: rule 7.4 says how often it may repeat."""
        return self.rng.random() < self.wishes.anew

    def begins_again(self, instead):
        """RESYNCH of a terminal (rule 6)."""
        self.counts(f"RESYNCH in place of {instead}")
        self.begins()
        self.asked, self.before = (RESYNCH, b""), "message"
        return self.sends("RESYNCH", RESYNCH)

    def repeats(self):
        """One more failure of a terminal, which asks for RESYNCH after some (rule 7.4)."""
        self.fails += 1
        return self.side == TERMINAL and (self.fails > self.most or self.is_hasty())

    def corrects(self):
        """An R-block with the number of the I-block that it expects (rules 7.1 and 7.2)."""
        if self.repeats():
            return self.begins_again("an R-block after an error")
        self.counts("R-block after an error")
        return self.sends("correction", 0x80 | self.rng.choice((0, 1, 2)) | self.expects << 4)

    # ---- what it receives

    def hears(self, came):
        """The block that it sends after it received this."""
        self.refusable = None
        if self.side == CARD and came == (RESYNCH, b""):
            self.begins()
            self.is_anew = True
            return self.sends("response", RESYNCH | RESPONSE)
        if self.asked:
            return self.hears_asking(came)
        if came in (BROKEN, SILENCE):
            return self.corrects()
        pcb, field = came
        if pcb < 0x80:
            return self.hears_information(pcb >> 6 & 1, bool(pcb & 0x20))
        if pcb < 0xC0:
            return self.hears_receipt(pcb >> 4 & 1)
        return self.corrects() if pcb & RESPONSE else self.hears_request(pcb, field)

    def hears_asking(self, came):
        """The response to its request, or anything else (rule 7.3)."""
        subject, field = self.asked
        if came != (subject | RESPONSE, field):
            return self.asks_again()
        self.asked, self.fails, self.earlier = None, 0, 0
        if subject == RESYNCH:
            self.begins()
            self.is_anew = True
            return self.acts("message")
        if subject == ABORT:
            self.pending = None
            return self.acts("either")
        self.refusable = self.held
        return self.acts(self.before)

    def hears_information(self, number, more):
        """An I-block acknowledges the last one of a message (rules 2.1 and 5)."""
        if self.in_chain() or number != self.expects:
            return self.corrects()
        self.expects ^= 1
        self.refusable = number
        self.pending, self.earlier, self.fails, self.is_aborted = None, self.fails, 0, False
        return self.acts("acknowledgment" if more else "message")

    def in_chain(self):
        """Whether its last I-block waits for the acknowledgment within a chain."""
        return self.pending is not None and bool(self.pending[0] & 0x20)

    def hears_receipt(self, number):
        """An R-block asks for the last I-block again, or for the next one (rules 2.2 and 7.1)."""
        if self.pending and number != self.next:
            if self.repeats():
                return self.begins_again("an I-block again")
            self.counts("I-block again")
            return self.sends("repeat", *self.pending)
        if self.in_chain():
            self.pending, self.fails = None, 0
            return self.acts("next")
        if self.is_aborted and number == self.next and self.rng.random() < 0.5:
            return self.informs("either")
        return self.corrects()

    def hears_request(self, subject, field):
        """A request, which it answers with the same octet (rules 3, 4 and 9)."""
        self.counts(f"{SUBJECTS[subject]} response")
        if subject == IFS:
            self.room = self.widest = field[0]
            self.sizes += 1
        if subject == ABORT:
            self.pending, self.is_aborted = None, True
        return self.sends("response", subject | RESPONSE, field)
