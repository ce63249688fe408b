"""The rules of T=1 for the next block of an end, if it is known how each earlier block arrived.

This is a second reading of docs/PROTOCOL.md and docs/JUDGE.md, beside the definitions of the crate judge_core: it
shares no line with them. `Line` takes a session block by block and names the rule that each block breaks.
"""

import functools
import operator
import pathlib

PAGE = pathlib.Path(__file__).resolve().parents[2] / "docs/JUDGE.md"
SUBJECTS = "RESYNCH", "IFS", "ABORT", "WTX"
# the requests that one end alone may make
FOREIGN = {"terminal": "WTX", "card": "RESYNCH"}
# how often a terminal repeats or corrects in a row, and how often it sends RESYNCH
MOST, RESYNCHS = 3, 3
USUAL_SIZE = 32


def clauses():
    """The clause of each rule, by the table of docs/JUDGE.md."""
    table = PAGE.read_text(encoding="utf-8").split("| rule | clause |")[1].split("\n\n")[0]
    rows = [line.split("|") for line in table.splitlines()[2:]]
    return {row[1].strip(): row[2].strip() for row in rows}


def with_check(octets):
    """Octets with the check octet that makes their exclusive-or 00."""
    return octets + bytes([functools.reduce(operator.xor, octets)])


def swapped(nad):
    """A node address with its halves swapped."""
    return (nad << 4 | nad >> 4) & 0xFF


def is_address(nad):
    """Whether bits 4 and 8 are 0, and both addresses differ or are 0 (11.3.2.1)."""
    return not nad & 0x88 and (nad == 0 or nad >> 4 != nad & 0x0F)


class Block:
    """A block that arrived undamaged. `fault` is the rule that it breaks in any state, if any."""

    def __init__(self, octets):
        self.nad, self.pcb, self.field = octets[0], octets[1], octets[3:-1]
        self.octet = self.field[0] if self.field else 0
        self.number = self.pcb >> (4 if self.pcb & 0x80 else 6) & 1
        self.more, self.code = bool(self.pcb & 0x20), self.pcb & 0x0F
        self.subject, self.is_response = SUBJECTS[self.pcb & 3], bool(self.pcb & 0x20)
        self.kind = "I" if self.pcb < 0x80 else "R" if self.pcb < 0xC0 else "S"
        self.fault = self.fault_of()

    def fault_of(self):
        """The fault of a control octet, a length or a size that no block has."""
        control = {"I": self.pcb & 0x1F == 0, "R": self.pcb & 0x2F in (0, 1, 2), "S": self.pcb & 0x1F < 4}
        if not control[self.kind]:
            return "control octet"
        length = 1 if self.kind == "S" and self.subject in ("IFS", "WTX") else 0
        if self.kind == "I" and len(self.field) > 254 or self.kind != "I" and len(self.field) != length:
            return "length"
        if self.kind == "S" and self.subject == "IFS" and self.octet in (0, 255):
            return "reserved size"
        return None

    def is_request(self, *subjects):
        """Whether it is a request, of one of these kinds."""
        return self.kind == "S" and not self.is_response and self.subject in subjects


def block_of(octets):
    """Decodes octets as a block, or returns None if they are damaged."""
    whole = len(octets) >= 4 and len(octets) == octets[2] + 4 and with_check(octets[:-1]) == octets
    return Block(octets) if whole else None


def made_wrong(octets):
    """The rule that octets break which are no block, if their sender made them so (11.3.2.3, 11.3.4)."""
    return "check octet" if len(octets) > 2 and len(octets) == octets[2] + 4 else "length"


class End:
    """One end: its numbers, what it sent and requested, and what is due from it."""

    def __init__(self, side, room, owed):
        self.side, self.room, self.first_room, self.owed = side, room, room, owed
        self.next = self.expects = self.tries = self.repeats = self.corrections = self.resynchs = 0
        self.earlier = 0, 0, 0
        self.last = self.asked = self.before = self.about = None
        self.in_chain = self.hears_chain = self.is_aborted = self.may_refuse = self.refuses_later = False

    def begins_again(self):
        """The state after RESYNCH: new numbers, no chain, and the larger size."""
        self.next = self.expects = 0
        self.last = None
        self.in_chain = self.hears_chain = self.is_aborted = self.may_refuse = self.refuses_later = False
        self.room = max(self.room, self.first_room)

    # ---- what it receives

    def hears(self, octets):
        """Octets arrived, or None if nothing did."""
        block = block_of(octets) if octets is not None else None
        self.may_refuse = False
        if octets is None and self.side == "card":
            self.owed = "nothing"
        elif block is None or block.fault:
            self.fails()
        else:
            {"I": self.hears_information, "R": self.hears_receipt, "S": self.hears_supervision}[block.kind](block)

    def fails(self):
        """It received no block that it can use: it asks again for what it waits for."""
        self.owed = "request" if self.asked else "correction"

    def goes_on(self, owed):
        """It received a block in order."""
        self.owed, self.earlier = owed, (self.tries, self.repeats, self.corrections)
        self.tries = self.repeats = self.corrections = 0

    def hears_information(self, block):
        """An I-block: the expected one, or one that it can't use, such as one inside its own chain."""
        if self.asked or self.in_chain or block.number != self.expects:
            self.fails()
            return
        self.expects ^= 1
        self.is_aborted, self.hears_chain = False, block.more
        self.may_refuse = True
        self.goes_on("acknowledgment" if block.more else "message")

    def hears_receipt(self, block):
        """An R-block asks for its last I-block again, or for the next one of its chain, or for its own R-block."""
        if self.asked:
            self.fails()
        elif self.is_aborted and block.number == self.next:
            self.owed = "message_or_correction"
        elif self.last and block.number != self.next:
            self.owed = "repeat"
        elif self.in_chain and block.number == self.next:
            self.goes_on("next")
        else:
            self.fails()

    def hears_supervision(self, block):
        """A request, which it answers; the response to its own, after which it goes on; or another response."""
        if not block.is_response:
            self.hears_request(block)
        elif self.asked != (block.subject, block.octet):
            self.fails()
        else:
            self.asked, self.resynchs = None, 0
            if block.subject == "ABORT":
                self.in_chain = self.hears_chain = False
            self.goes_on({"RESYNCH": "message", "ABORT": "either"}.get(block.subject, self.before))
            self.may_refuse = self.refuses_later and block.subject in ("IFS", "WTX")
            self.earlier = 0, 0, 0

    def hears_request(self, block):
        """A request: a response is due, unless its own request waits. RESYNCH always gets a response."""
        if self.asked and block.subject != "RESYNCH":
            self.fails()
        else:
            self.about, self.owed = block, "response"

    # ---- what it may send

    def breaks(self, block):
        """The rule that a block breaks, or None."""
        if block.fault:
            return block.fault
        if self.owed == "nothing":
            return "out of turn"
        if block.is_request(FOREIGN[self.side]):
            return "request of the other end"
        if block.kind == "S" and block.is_response and self.owed not in ("response", "request"):
            return "response to no request"
        return getattr(self, f"breaks_{self.owed}")(block) or self.breaks_size(block)

    def breaks_size(self, block):
        """An I-block with more octets than the other end takes."""
        return "field too long" if block.kind == "I" and len(block.field) > self.room else None

    def breaks_message(self, block):
        """At the beginning of a message. RESYNCH may come between exchanges."""
        if block.is_request("RESYNCH"):
            return None
        return self.breaks_next(block)

    def breaks_next(self, block):
        """Within a message: an I-block, a request, or the refusal of the I-block before."""
        if block.kind == "I":
            return None if block.number == self.next else "sequence number"
        if block.kind == "R":
            return None if self.is_refusal(block) else "no I-block"
        return self.breaks_in_order(block)

    def breaks_acknowledgment(self, block):
        """After a block of the other end's chain."""
        if block.kind == "I":
            return "no acknowledgment"
        if block.kind == "S":
            return self.breaks_in_order(block)
        return None if self.is_refusal(block) else self.breaks_receipt(block)

    def breaks_receipt(self, block):
        """An R-block that is free of errors."""
        if block.code:
            return "error code"
        return None if block.number == self.expects else "sequence number"

    def is_refusal(self, block):
        """Whether an R-block refuses, as another error, the I-block that came whole: a correction like others."""
        is_often = self.side == "terminal" and self.earlier[2] >= MOST
        return self.may_refuse and block.number != self.expects and block.code == 2 and not is_often

    def breaks_in_order(self, block):
        """A request in place of the block that is due in order; RESYNCH if the block before may be refused too often."""
        if block.subject == "RESYNCH":
            return None if self.may_refuse and self.earlier[0] >= MOST else "RESYNCH too early"
        if block.subject == "ABORT" and not (self.in_chain or self.hears_chain):
            return "ABORT outside a chain"
        return None

    def breaks_either(self, block):
        """After ABORT: its message, or the right to send is handed over."""
        if block.kind == "S":
            return None if block.is_request("RESYNCH") else self.breaks_in_order(block)
        if block.kind == "R":
            return self.breaks_receipt(block)
        return None if block.number == self.next else "sequence number"

    def breaks_message_or_correction(self, block):
        """After ABORT and an R-block, which hands over or asks for the last R-block again: a message, or that."""
        if block.kind == "R":
            return self.breaks_correction(block)
        return self.breaks_either(block)

    def breaks_often(self, block, otherwise):
        """Another block in place of a repeat or a correction. Only RESYNCH may come."""
        return None if block.is_request("RESYNCH") else otherwise

    def too_many(self, count):
        """Whether a terminal has repeated as often as it may."""
        return "too many repeats" if self.side == "terminal" and count >= MOST else None

    def breaks_repeat(self, block):
        """Its last I-block once more."""
        if block.kind != "I":
            return self.breaks_often(block, "no repeat")
        if block.number == self.next:
            return "sequence number"
        return self.too_many(self.repeats) if (block.pcb, block.field) == self.last else "repeat with other octets"

    def breaks_correction(self, block):
        """An R-block after an error."""
        if block.kind != "R":
            return self.breaks_often(block, "no R-block")
        return self.too_many(self.corrections) if block.number == self.expects else "sequence number"

    def breaks_request(self, block):
        """Its request once more; RESYNCH in its place."""
        if block.is_request("RESYNCH"):
            return "too many repeats" if self.resynchs >= RESYNCHS else None
        if block.is_request(*SUBJECTS) and (block.subject, block.octet) == self.asked:
            return self.too_many(self.tries)
        return "no repeated request"

    def breaks_response(self, block):
        """The response to the other end's request."""
        if block.kind != "S" or not block.is_response or block.subject != self.about.subject:
            return "no response"
        return None if block.octet == self.about.octet else "response with another octet"

    def due(self):
        """What is due, in the words of the judge."""
        information, receipt = f"I-block {self.next}", f"R-block {self.expects}"
        return {"message": information, "next": information, "acknowledgment": receipt, "correction": receipt,
                "nothing": information, "repeat": f"I-block {1 - self.next} again",
                "request": f"{self.asked and self.asked[0]} request again",
                "response": f"{self.about and self.about.subject} response",
                "either": f"{information} or {receipt}",
                "message_or_correction": f"{information} or {receipt}"}[self.owed]

    # ---- what it sends

    def sends(self, block):
        """It sent a block that breaks no rule."""
        corrects = self.owed == "correction" or self.owed == "message_or_correction" and block.kind == "R"
        self.tries += corrects or self.owed in ("repeat", "request")
        self.repeats += self.owed == "repeat"
        self.corrections += corrects
        {"I": self.sends_information, "R": self.sends_receipt, "S": self.sends_supervision}[block.kind](block)

    def sends_information(self, block):
        """A new I-block, or the last one."""
        if self.owed != "repeat":
            self.last, self.in_chain = (block.pcb, block.field), block.more
            self.next ^= 1
            self.hears_chain = self.is_aborted = False
            self.tries = self.repeats = self.corrections = 0

    def sends_receipt(self, block):
        """A refused I-block is expected again."""
        if block.number != self.expects:
            self.expects = block.number
            tries, self.repeats, corrections = self.earlier
            self.tries, self.corrections = tries + 1, corrections + 1

    def sends_supervision(self, block):
        """A request waits for its response; a response changes what it agrees to."""
        if block.is_response:
            self.agrees(block)
            return
        if not self.asked:
            self.before = self.owed
            self.refuses_later = self.may_refuse and (self.side == "card" or self.owed == "acknowledgment")
        self.asked = (block.subject, block.octet)
        if block.subject == "RESYNCH":
            self.resynchs += 1
            self.begins_again()

    def agrees(self, block):
        """A response: a size, new numbers, or the end of a chain. It ends each row of repeats."""
        self.repeats = self.corrections = 0
        if block.subject == "IFS":
            self.room = block.octet
        elif block.subject == "RESYNCH":
            self.asked = None
            self.begins_again()
        elif block.subject == "ABORT":
            self.in_chain = self.hears_chain = False
            self.is_aborted = True


class Line:
    """A terminal, and a card that takes fields of up to `ifsc` octets."""

    def __init__(self, ifsc):
        self.ifsc, self.blocks = ifsc, 0
        self.reset()

    def reset(self):
        """Resets the card."""
        self.ends = {"terminal": End("terminal", self.ifsc, "message"), "card": End("card", USUAL_SIZE, "nothing")}
        self.nads, self.opened, self.owes = None, set(), False

    def other(self, side):
        """The other end."""
        return self.ends["card" if side == "terminal" else "terminal"]

    def pair(self, side, nad):
        """The pair of node addresses of a block, as the terminal's blocks have it."""
        return nad if side == "terminal" else swapped(nad)

    def is_foreign(self, side, nad):
        """Whether a node address is none, or isn't that of the session."""
        return not is_address(nad) or self.nads is not None and self.pair(side, nad) != self.nads

    def is_elsewhere(self, side, octets):
        """Whether octets are a block of another logical connection, which isn't judged. The terminal opens them. The
        card answers in one of them, unless it owes an answer in the first."""
        block = block_of(octets)
        if block is None or block.fault or self.nads is None or not is_address(block.nad):
            return False
        pair = self.pair(side, block.nad)
        if pair == self.nads or side == "terminal":
            return pair != self.nads
        return pair in self.opened and not self.owes

    def broken(self, side, octets):
        """The rule that octets of an end would break now, if the line changes none, or None; and what is due."""
        block, end = block_of(octets), self.ends[side]
        if block is None:
            return made_wrong(octets), end.due()
        if block.fault or not self.is_foreign(side, block.nad):
            return end.breaks(block), end.due()
        return "node address", end.due()

    def takes(self, side, octets, came):
        """An end sends a block, and the other end receives the octets `came`, or nothing if it is None."""
        if self.is_elsewhere(side, octets):
            self.takes_elsewhere(side, octets, came)
            return
        broken, _ = self.broken(side, octets)
        if broken:
            raise ValueError(f"block {self.blocks + 1} {side}: {broken}")
        self.blocks += 1
        if self.nads is None:
            self.nads = self.pair(side, octets[0])
        self.owes = side == "terminal" and came == octets
        self.ends[side].sends(block_of(octets))
        if side == "card":
            self.ends["card"].owed = "nothing"
        self.other(side).hears(came)
        if came is None:
            self.ends[side].hears(None)

    def takes_elsewhere(self, side, octets, came):
        """A block of another connection. The card may refuse it in the first one, or answer there if it is damaged."""
        self.blocks += 1
        self.owes = False
        if side == "terminal":
            self.opened.add(octets[0])
            self.ends["card"].hears(b"" if came == octets else came)
        else:
            self.ends["card"].hears(None)
