"""Makes every next block after each of some histories of a line, with the answer of t1_rules.py. They are the traces
of vectors/judge.next.

A history is steps with blanks between them: the end, a block, and perhaps how it arrived. `t:I0` is an I-block of
the terminal with the number 0, `c:I1+` an I-block of the card with more to follow, `t:R1.2` an R-block with the
error code 2, `c:WTX` a request of the card, `t:wtx` the response to it. `~` after a block says that it is of another
logical connection. Then `!` says that it was damaged on its way, and `?` that it was lost. `reset` is a reset of the card. `t` or `c` alone says whose turn it is, and `@`
that the node address is 21.
"""

from t1_rules import SUBJECTS, Line, block_of, clauses, swapped, with_check

ATR, IFSC = "3B808131204555", 32
DAMAGED, LOST, ELSEWHERE = "!", "?", "~"
SIDES = {"t": "terminal", "c": "card"}
FIELDS = {"t": "00A4040000", "c": "9000", "t+": "00D6", "c+": "AABB"}
OCTETS = {"IFS": 0x10, "WTX": 0x02}
# the address of the terminal's blocks in a session whose address isn't 00, and what makes that of another connection
ADDRESS, OTHER = 0x21, 0x03

HISTORIES = [
    ("Nothing", ""),
    ("A command", "t:I0"),
    ("A command that was damaged", "t:I0!"),
    ("A command that was lost", "t:I0?"),
    ("A command that was lost, and yet the card sends", "t:I0? c"),
    ("An answer", "t:I0 c:I0"),
    ("An answer that was damaged", "t:I0 c:I0!"),
    ("An answer that was lost", "t:I0 c:I0?"),
    ("The second command", "t:I0 c:I0 t:I1"),
    ("The second answer", "t:I0 c:I0 t:I1 c:I1"),
    ("A block of the terminal's chain", "t:I0+"),
    ("One that was damaged", "t:I0+!"),
    ("The acknowledgment of one", "t:I0+ c:R1"),
    ("An acknowledgment that was damaged", "t:I0+ c:R1!"),
    ("The second block of the terminal's chain", "t:I0+ c:R1 t:I1+"),
    ("The last block of the terminal's chain", "t:I0+ c:R1 t:I1"),
    ("The last block of the terminal's chain, damaged", "t:I0+ c:R1 t:I1!"),
    ("The last block of the terminal's chain, lost", "t:I0+ c:R1 t:I1?"),
    ("A block of the card's chain", "t:I0 c:I0+"),
    ("The card's chain acknowledged", "t:I0 c:I0+ t:R1"),
    ("An acknowledgment of the terminal that was damaged", "t:I0 c:I0+ t:R1!"),
    ("The last block of the card's chain", "t:I0 c:I0+ t:R1 c:I1"),
    ("The card asks for a block again", "t:I0! c:R0.1"),
    ("The terminal asks for a block again", "t:I0 c:I0! t:R0.1"),
    ("The terminal asks for one that the card never sent", "t:I0? t:R0"),
    ("The card answers that by asking for its own", "t:I0? t:R0 c:R0"),
    ("The card refuses a block", "t:I0 c:R0.2"),
    ("The terminal refuses a block", "t:I0 c:I0 t:R0.2"),
    ("The terminal asks about a size", "t:IFS"),
    ("The terminal asks about a size, and that is damaged", "t:IFS!"),
    ("The terminal asks about a size, and that is lost", "t:IFS?"),
    ("The card agrees to a size", "t:IFS c:ifs"),
    ("The card agrees, and that is lost", "t:IFS c:ifs?"),
    ("The terminal asks about a size once more", "t:IFS c:ifs? t:IFS"),
    ("A command after a size that the card agreed to", "t:IFS c:ifs t:I0"),
    ("The card asks about a size", "t:I0 c:IFS"),
    ("The terminal agrees to a size", "t:I0 c:IFS t:ifs"),
    ("An answer after a size that the terminal agreed to", "t:I0 c:IFS t:ifs c:I0"),
    ("The card asks for time", "t:I0 c:WTX"),
    ("The card asks for time, and that is damaged", "t:I0 c:WTX!"),
    ("The terminal gives time", "t:I0 c:WTX t:wtx"),
    ("The terminal gives time, and that is damaged", "t:I0 c:WTX t:wtx!"),
    ("The terminal gives time within its chain", "t:I0+ c:WTX t:wtx"),
    ("The card stops the terminal's chain", "t:I0+ c:ABORT"),
    ("The terminal agrees to that", "t:I0+ c:ABORT t:abort"),
    ("The card hands over after that", "t:I0+ c:ABORT t:abort c:R1"),
    ("The terminal stops the card's chain", "t:I0 c:I0+ t:ABORT"),
    ("The card agrees to that", "t:I0 c:I0+ t:ABORT c:abort"),
    ("The terminal hands over after that", "t:I0 c:I0+ t:ABORT c:abort t:R1"),
    ("The terminal stops its own chain", "t:I0+ c:R1 t:ABORT c:abort"),
    ("The terminal asks for RESYNCH", "t:RESYNCH"),
    ("The terminal asks for RESYNCH, and that is lost", "t:RESYNCH?"),
    ("RESYNCH between exchanges", "t:I0 c:I0 t:RESYNCH c:resynch"),
    ("RESYNCH that went out three times", "t:RESYNCH? t:RESYNCH? t:RESYNCH?"),
    ("The terminal corrected twice", "t:I0? t:R0? t:R0?"),
    ("The terminal corrected three times", "t:I0? t:R0? t:R0? t:R0?"),
    ("The terminal repeated three times", "t:I0! c:R0.1 t:I0! c:R0.1 t:I0! c:R0.1 t:I0! c:R0.1"),
    ("The terminal asked about a size four times", "t:IFS? t:IFS? t:IFS? t:IFS?"),
    ("The terminal repeated three times, and gives time then",
     "t:I0! c:R0.1 t:I0! c:R0.1 t:I0! c:R0.1 t:I0 c:WTX t:wtx c:I0!"),
    ("The terminal repeated three times, and agrees to a size then",
     "t:I0! c:R0.1 t:I0! c:R0.1 t:I0! c:R0.1 t:I0 c:IFS t:ifs c:I0!"),
    ("The terminal repeated, gave time and corrected", "t:I0! c:R0.1 t:I0 c:WTX t:wtx c:I0! t:R0.1 c:I0!"),
    ("The terminal repeated twice and corrected twice",
     "t:I0! c:R0.1 t:I0! c:R0.1 t:I0 c:I0! t:R0.1 c:I0! t:R0.1 c:I0!"),
    ("The terminal repeated and corrected three times",
     "t:I0! c:R0.1 t:I0 c:I0! t:R0.1 c:I0! t:R0.1 c:I0! t:R0.1 c:I0!"),
    ("The terminal hands over after ABORT again", "t:I0 c:I0+ t:ABORT c:abort t:R1! c:R1.1 t:R1"),
    ("The card hands over after ABORT again", "t:I0+ c:ABORT t:abort c:R1! t:R0.1 c:R1"),
    ("The terminal asks for a block again that the card sent after ABORT",
     "t:I0 c:I0+ t:ABORT c:abort t:R1 c:R1 t:R1"),
    ("The card refuses a block after it asked for time", "t:I0 c:WTX t:wtx c:R0.2"),
    ("The card refuses a block of a chain after it asked about a size", "t:I0+ c:IFS t:ifs c:R0.2"),
    ("The terminal asks about a size within the card's chain", "t:I0 c:I0+ t:IFS c:ifs"),
    ("The terminal refuses a block of a chain after that", "t:I0 c:I0+ t:IFS c:ifs t:R0.2"),
    ("RESYNCH after two corrections", "t:I0? t:R0? t:R0? t:RESYNCH c:resynch"),
    ("A command with the node address 21", "@ t:I0"),
    ("Its answer with the node address 12", "@ t:I0 c:I0"),
    ("A reset", "t:I0 c:I0 t:IFS c:ifs reset"),
    ("A block of another connection", "t:I0 c:I0 t:I0~"),
    ("One that was damaged", "t:I0 c:I0 t:I0~!"),
    ("One that was lost", "t:I0 c:I0 t:I0~?"),
    ("One that was lost, and yet the card sends", "t:I0 c:I0 t:I0~? c"),
    ("The answer of another connection", "t:I0 c:I0 t:I0~ c:I0~"),
    ("That answer, and the first connection after it", "t:I0 c:I0 t:I0~ c:I0~ t:I1"),
    ("An exchange of another connection within the terminal's chain", "t:I0+ c:R1 t:I0~ c:I0~ t:I1"),
    ("One within the card's chain", "t:I0 c:I0+ t:I0~ c:I0~ t:R1"),
    ("One after the card asked for time", "t:I0 c:WTX t:I0~ c:I0~"),
    ("One after a lost block", "t:I0? t:I0~ c:I0~ t:R0"),
    ("A reset after another connection", "t:I0 c:I0 t:I0~ c:I0~ reset t:I0"),
]


def octets_of(side, word, nad):
    """The octets of a block, by its word in a history."""
    kind, number = word[0], word[1:2]
    if kind == "I" and number in ("0", "1"):
        more = word.endswith("+")
        return information(nad, int(number), more, bytes.fromhex(FIELDS[side + ("+" if more else "")]))
    if kind == "R" and number in ("0", "1"):
        return receipt(nad, int(number), int(word[3:] or "0"))
    subject = word.upper()
    field = [OCTETS[subject]] if subject in OCTETS else []
    return supervision(nad, subject, word.islower(), field)


def information(nad, number, more, field):
    """An I-block."""
    return with_check(bytes([nad, number << 6 | more << 5, len(field)]) + field)


def receipt(nad, number, code):
    """An R-block."""
    return with_check(bytes([nad, 0x80 | number << 4 | code, 0]))


def supervision(nad, subject, is_response, field):
    """An S-block."""
    return with_check(bytes([nad, 0xC0 | is_response << 5 | SUBJECTS.index(subject), len(field), *field]))


def damaged(octets):
    """A block with its last octet changed."""
    return octets[:-1] + bytes([octets[-1] ^ 1])


def arrival(octets, end):
    """How a block arrived: the words of a trace, and the octets, if any."""
    if end == LOST:
        return "lost", None
    came = damaged(octets) if end == DAMAGED else octets
    return f"as {came.hex().upper()}", came


class Session:
    """A line, and the trace of it so far."""

    def __init__(self, steps):
        self.line, self.trace, self.told, self.turn = Line(IFSC), [], [], "t"
        words = steps.split()
        self.nad = ADDRESS if words[:1] == ["@"] else 0
        for word in words:
            if word == "reset":
                self.reset()
            elif word in SIDES:
                self.turn = word
            elif word != "@":
                self.takes(*word.split(":"))

    def reset(self):
        """Resets the card."""
        self.line.reset()
        self.trace.append("reset")
        self.turn = "t"

    def address(self, side, is_elsewhere=False):
        """The node address of an end's blocks, perhaps in the other connection."""
        nad = self.nad ^ OTHER if is_elsewhere else self.nad
        return nad if side == "t" else swapped(nad)

    def takes(self, side, word):
        """Takes a step of a history."""
        end = word[-1] if word[-1] in (LOST, DAMAGED) else ""
        word = word.rstrip(LOST + DAMAGED)
        octets = octets_of(side, word.rstrip(ELSEWHERE), self.address(side, word.endswith(ELSEWHERE)))
        said, came = arrival(octets, end)
        if self.line.is_elsewhere(SIDES[side], octets):
            self.told.append(not_judged(self.line.blocks + 1, SIDES[side]))
        self.line.takes(SIDES[side], octets, came)
        self.trace.append(f"{side} {octets.hex().upper()} {said}")
        self.turn = "t" if end == LOST or side == "c" else "c"
        if end == LOST:
            self.trace.append("quiet")


def next_blocks(session):
    """Each kind of block by the end whose turn it is."""
    side, nad = session.turn, session.address(session.turn)
    room = session.line.ends[SIDES[side]].room
    for number in (0, 1):
        yield from (octets_of(side, f"I{number}{more}", nad) for more in ("", "+"))
        yield information(nad, number, False, b"")
    yield information(nad, session.line.ends[SIDES[side]].next, False, bytes(room))
    yield information(nad, session.line.ends[SIDES[side]].next, False, bytes(room + 1))
    yield from (receipt(nad, number, code) for number in (0, 1) for code in (0, 1, 2))
    for is_response in (False, True):
        for subject in SUBJECTS:
            yield supervision(nad, subject, is_response, [OCTETS[subject]] if subject in OCTETS else [])
            if subject in OCTETS:
                yield supervision(nad, subject, is_response, [OCTETS[subject] + 1])
    for other in (OTHER, swapped(OTHER)):
        yield octets_of(side, f"I{session.line.ends[SIDES[side]].next}", nad ^ other)
    yield from (with_check(bytes([nad, *rest])) for rest in ([0x83, 0], [0x80, 1, 0], [0xC1, 1, 0], [0xE1, 1, 0xFF]))


def not_judged(number, side):
    """The line about a block of another connection."""
    return f"block {number} {side}: another logical connection, not judged  (11.3.2.1)"


def summary(blocks, side, broken, others):
    """The last line of the judge."""
    counted = f"{blocks} block{'' if blocks == 1 else 's'}"
    part = f", not judged {others}" if others else ""
    if not broken:
        return f"{'unsure' if others else 'ok'} {counted}{part}"
    ends = ", ".join(f"{end} {int(end == side)}" for end in SIDES.values())
    return f"{counted}, 1 deviation: {ends}, unseen 0{part}"


def said(session, side, octets, clause):
    """The lines that the judge prints for a trace that ends with a block."""
    line, number = session.line, session.line.blocks + 1
    if line.is_elsewhere(side, octets):
        lines, broken = [*session.told, not_judged(number, side)], None
        return [*lines, summary(number, side, broken, len(lines))]
    broken, due = line.broken(side, octets)
    lines = [f"block {number} {side}: {broken}, due {due}  ({clause[broken]})"] if broken else []
    return [*session.told, *lines, summary(number, side, broken, len(session.told))]


def rows(steps, clause):
    """Traces, each with one block more than a history, and the lines that the judge prints for them."""
    session = Session(steps)
    for octets in dict.fromkeys(next_blocks(session)):
        assert block_of(octets)
        yield row(session, octets, "lost", clause)
    whole = octets_of(session.turn, "R0.1", session.address(session.turn))
    for octets in (damaged(whole), whole[:-1]):
        yield row(session, octets, f"as {octets.hex().upper()}", clause)


def row(session, octets, arrival, clause):
    """A trace with octets more that arrive so, and the lines that the judge prints for it."""
    last = f"{session.turn} {octets.hex().upper()} {arrival}"
    return [*session.trace, last], said(session, SIDES[session.turn], octets, clause)


def vector(trace, lines):
    """A line of the file."""
    status = 0 if lines[-1].startswith("ok ") else 1
    return "\t".join([f"judge {ATR}", "".join(f"{it}\\n" for it in trace), str(status),
                      "".join(f"{it}\\n" for it in lines)])


REMARK = """\
# Every block after these: traces of a line that say of each block how it arrived, and end with one block of each kind
# by the end whose turn it is, or with octets that it made wrong. Written by tools/daily/vectors. What comes is what
# tools/common/t1_rules.py says, a second reading of the rules beside the program's.
"""


def text():
    """The text of the file vectors/judge.next."""
    clause = clauses()
    parts = [REMARK]
    for name, steps in HISTORIES:
        parts.append(f"# {name}\n" + "".join(vector(*row) + "\n" for row in rows(steps, clause)))
    return "\n".join(parts)
