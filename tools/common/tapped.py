"""A line between two ends of legal.py, and what a tap on it sees, for tools/gate/try-legal."""

import collections
import contextlib
import dataclasses
import functools
import operator

from legal import BROKEN, CARD, NAMES, SILENCE, TERMINAL, End, GivesUp, encoded, swapped

QUIET, RESET = "quiet", "reset"
# microseconds within which a card answers: BWT of drawn.ATR at 3.5712 MHz is 1,600,000 or a little more
CLOCK, SOON, WAITED = "3571200", 1_500_000, 4_000_000
# all pairs of node addresses: both are 0 or they differ (11.3.2.1)
PAIRS = [dad << 4 | sad for dad in range(8) for sad in range(8) if dad != sad or dad == 0]
# the requests of PPS for T=1 and the default of F and D, which the card repeats (9.3)
PPS = ("ff01fe", "ff1111ff")


@dataclasses.dataclass(frozen=True)
class Wishes:
    """How often a message goes on, an end asks for something or refuses a block, and a block is damaged or lost. How
    often a terminal asks for RESYNCH at once after an error, resets the card at any time, or begins by PPS; and how
    often a card takes damaged octets for noise."""

    chain: float = 0.3
    request: float = 0.1
    refusal: float = 0.03
    damage: float = 0.0
    loss: float = 0.0
    anew: float = 0.03
    reset: float = 0.01
    pps: float = 0.2
    noise: float = 0.1


@dataclasses.dataclass
class Row:
    """A line of a trace: a block with what came of it, None if nothing, or the words of another line. `gap` says how
    many microseconds after the block before it begins, if that is settled."""

    word: str
    octets: bytes = b""
    came: bytes | None = None
    due: str = ""
    gap: int | None = None

    def is_block(self):
        """Whether it is a block."""
        return self.word in (TERMINAL, CARD)


def is_whole(octets):
    """Whether octets have the length and the check octet of a block."""
    return len(octets) > 3 and len(octets) == octets[2] + 4 and not functools.reduce(operator.xor, octets)


def harmed(rng, octets):
    """Octets that are no block: with one changed, missing or added."""
    while is_whole(came := changed(rng, octets)):
        pass
    return came


def changed(rng, octets):
    """Octets with one changed, missing or added."""
    way, place = rng.randrange(4), rng.randrange(len(octets))
    if way == 0:
        return octets[:place] + octets[place + 1:]
    if way == 1:
        return octets + bytes([rng.randrange(256)])
    return octets[:place] + bytes([octets[place] ^ rng.randint(1, 255)]) + octets[place + 1:]


class Line:
    """A line with two ends. `rows` has what was on it, and `made` counts what of the clauses it had."""

    def __init__(self, rng, wishes):
        self.rng, self.wishes, self.rows, self.made = rng, wishes, [], collections.Counter()
        self.resets()

    def resets(self):
        """The card is reset. PPS may come before the first block."""
        self.nad = self.rng.choice((0x00, self.rng.choice(PAIRS)))
        self.made["pair of node addresses other than 00"] += self.nad != 0
        self.ends = self.two_ends()
        if self.rng.random() < self.wishes.pps:
            octets = self.rng.choice(PPS)
            self.rows += [Row(f"{TERMINAL} {octets}"), Row(f"{CARD} {octets}")]
            self.made["PPS"] += 1

    def two_ends(self):
        """The ends of a new connection."""
        return {side: End(side, self.rng, self.wishes, self.made) for side in (TERMINAL, CARD)}

    def begins_anew(self, why):
        """The terminal resets the card."""
        self.made[why] += 1
        self.rows.append(Row(RESET))
        self.resets()

    def fate(self, octets):
        """What reaches the other end."""
        draw = self.rng.random()
        if draw < self.wishes.loss:
            return None
        return harmed(self.rng, octets) if draw < self.wishes.loss + self.wishes.damage else octets

    def carries(self, side, block):
        """Carries a block. Returns the end that sends next, and its block."""
        octets = encoded(self.nad if side == TERMINAL else swapped(self.nad), *block)
        came = self.fate(octets)
        self.rows.append(Row(side, octets, came, self.ends[side].due))
        if came is None:
            self.made[f"lost block of the {NAMES[side]}"] += 1
            return self.is_silent()
        if came == octets:
            other = CARD if side == TERMINAL else TERMINAL
            return other, self.ends[other].hears(block)
        self.made[f"damaged block of the {NAMES[side]}"] += 1
        if side == TERMINAL and self.rng.random() < self.wishes.noise:
            self.made["card that takes damaged octets for noise"] += 1
            return self.is_silent()
        other = CARD if side == TERMINAL else TERMINAL
        return other, self.ends[other].hears(BROKEN)

    def is_silent(self):
        """The terminal's waiting time ends."""
        self.rows.append(Row(QUIET))
        return TERMINAL, self.ends[TERMINAL].hears(SILENCE)

    def turned(self, step):
        """The step that comes next, if another connection than the last one goes on."""
        return step

    def runs(self, count):
        """Carries so many blocks. A terminal that gives up resets the card, and may do so at any time."""
        step = None
        for _ in range(count):
            step = self.turned(step)
            try:
                step = self.carries(*(step or (TERMINAL, self.ends[TERMINAL].acts("message"))))
            except GivesUp:
                self.begins_anew("reset of a terminal that gives up")
                step = None
            if step is not None and self.rng.random() < self.wishes.reset:
                self.begins_anew("reset in the midst")
                step = None
        return self.rows

    def begun(self):
        """The place in the rows after the last reset."""
        return max((place for place, row in enumerate(self.rows) if row.word == RESET), default=-1) + 1

    def has_begun(self):
        """Whether a block came since the last reset."""
        return any(row.is_block() for row in self.rows[self.begun():])


class Doubled(Line):
    """A line with two logical connections, each with ends of its own. The terminal turns from one to the other whenever
    it is to send: between exchanges, within chains and after losses."""

    def resets(self):
        """The card is reset. Both connections are gone, and begin with pairs of their own."""
        super().resets()
        other = self.rng.choice([nad for nad in PAIRS if nad != self.nad])
        self.connections = [[self.nad, self.ends, None], [other, self.two_ends(), None]]
        self.turns = False

    def turned(self, step):
        """The step of the connection that goes on. The first block sets the addresses of the first one."""
        self.connections[self.turns][2] = step
        if (step is None or step[0] == TERMINAL) and self.has_begun():
            turns = self.rng.random() < 0.4
            self.made["turn to another connection"] += turns != self.turns
            self.turns = turns
        self.nad, self.ends, step = self.connections[self.turns]
        return step


class Refusing(Line):
    """A line with a card that has one connection. The terminal tries others whenever it is to send. The card takes such
    a block for one that it can't use, and refuses it in its own connection, or is silent (11.3.2.1)."""

    def resets(self):
        """The card is reset. The terminal has an end for each other pair, and what that sends next."""
        super().resets()
        nads = self.rng.sample([nad for nad in PAIRS if nad != self.nad], self.rng.randint(1, 3))
        ends = {nad: End(TERMINAL, self.rng, self.wishes, collections.Counter()) for nad in nads}
        self.others = {nad: (end, end.acts("message")) for nad, end in ends.items()}

    def turned(self, step):
        """The same step, after some blocks of other pairs."""
        while step is not None and self.others and self.may_try(step[0]) and self.rng.random() < 0.2:
            self.tries(self.rng.choice(list(self.others)))
        return step

    def may_try(self, side):
        """Whether the terminal may turn away, and go on later with the same block: it got the card's last block whole,
        so that it doesn't learn what is due from the card's next one."""
        is_heard = self.ends[TERMINAL].due in ("message", "next", "acknowledgment", "response", "either", "repeat")
        return side == TERMINAL and self.has_begun() and is_heard

    def tries(self, nad):
        """The terminal sends a block of another pair, and goes on there until it gives up."""
        end, block = self.others.pop(nad)
        octets = encoded(nad, *block)
        with contextlib.suppress(GivesUp):
            self.others[nad] = end, end.hears(SILENCE)
        came = self.fate(octets)
        self.rows.append(Row(TERMINAL, octets, came, "another connection"))
        if came is None or self.rng.random() < 0.4:
            self.made["block of another pair that the card doesn't answer"] += 1
            self.rows.append(Row(QUIET))
            return
        self.made["block of another pair that the card refuses in its own connection"] += 1
        octets = encoded(swapped(self.nad), *self.ends[CARD].hears(BROKEN))
        came = self.fate(octets)
        self.rows.append(Row(CARD, octets, came, self.ends[CARD].due))
        if came is None:
            self.rows.append(Row(QUIET))


# ---- what a tap writes down

def informed(row):
    """A line that says how the block arrived."""
    word = "lost" if row.came is None else f"as {row.came.hex()}"
    return [f"{row.word} {row.octets.hex()} {word}"] if row.is_block() else [row.word]


def told(row):
    """A line that says how the block arrived if it didn't arrive whole."""
    return informed(row) if row.is_block() and row.came != row.octets else sent(row)


def sent(row):
    """The block as it was sent."""
    return [f"{row.word} {row.octets.hex()}"] if row.is_block() else [row.word]


def arrived(row):
    """The block as it arrived; a lost one as it was sent."""
    octets = row.octets if row.came is None else row.came
    return [f"{row.word} {octets.hex()}"] if row.is_block() else [row.word]


def hasty(row):
    """The block as it was sent, without the ends of waiting times."""
    return [] if row.word == QUIET else sent(row)


def unseen(row):
    """The block as it arrived; a lost one isn't seen."""
    return [] if row.is_block() and row.came is None else arrived(row)


def missed(row):
    """A line that says how the block arrived. A lost one of the terminal isn't seen."""
    return [] if row.word == TERMINAL and row.came is None else informed(row)


def late(rows):
    """Lines in which a lost block of the card is seen after the terminal's waiting time, too late for it."""
    lines, held = [], []
    for row in rows:
        if row.word == CARD and row.came is None:
            held = sent(row)
        else:
            lines += [*arrived(row), *held]
            held = []
    return lines


def spent(rng, row):
    """Microseconds from the beginning of a row to that of the next one. Octets come 12 etu apart, and 22 etu are
    between the last one and the next block. An etu has 104.17 microseconds."""
    return 1_250 * len(row.octets) + rng.randrange(1_100, SOON) if row.is_block() else WAITED


def moments(row, moment, lasts):
    """The lines with the moment of a block, and perhaps with that of its last octet."""
    until = [f"until {moment + 1_250 * (len(row.octets) - 1)}"] if lasts else []
    return [f"at {moment}", *until] if row.is_block() else []


def timed(rng, rows, way=None):
    """Lines with the moment of each block, and of the last octets of some."""
    lines, moment, before = [], rng.randrange(1_000_000), 0
    for row, following in zip(rows, [*rows[1:], Row(QUIET)]):
        moment = moment if row.gap is None else before + row.gap
        lasts = following.gap is None and rng.random() < 0.3
        lines += [*moments(row, moment, lasts), *(way or told)(row)]
        before = moment if row.is_block() else before
        moment += spent(rng, row)
    return lines


def flagged(row):
    """A line that says how the block arrived. One that arrived damaged had an error of parity."""
    if not row.is_block() or row.came in (None, row.octets):
        return informed(row)
    return [f"{row.word} {row.octets.hex()} parity"]


def each(way):
    """The lines of a trace, by the lines of each row."""
    return lambda rng, rows: [line for row in rows for line in way(row)]


def begun_late(rng, rows, way=sent):
    """A trace that begins in the midst of a session, which its first line says."""
    place = rng.randrange(min(len(rows), 12))
    return ["begins unknown", *(line for row in rows[place:] for line in way(row))]


def ended_early(rng, rows):
    """A trace that ends before a session does."""
    place = rng.randrange(len(rows))
    return [line for row in rows[:place] for line in informed(row)]


CLEAN, HARMED = Wishes(), Wishes(damage=0.06, loss=0.06)
ROUGH, DAMAGED = Wishes(damage=0.25, loss=0.2), Wishes(damage=0.1)
BUSY = Wishes(chain=0.6, request=0.3, refusal=0.1, damage=0.08, loss=0.05)
REFUSED = Wishes(chain=0.7, request=0.05, refusal=0.7, damage=0.15, loss=0.2, anew=0.0)
# the classes of legal traces: what the ends do, and what the tap sees of it
CLASSES = {
    "clean": (CLEAN, each(sent)),
    "clean, informed": (CLEAN, each(informed)),
    "harmed, informed": (HARMED, each(informed)),
    "rough, informed": (ROUGH, each(informed)),
    "busy, informed": (BUSY, each(informed)),
    "harm told": (HARMED, each(told)),
    "as sent": (HARMED, each(sent)),
    "busy, as sent": (BUSY, each(sent)),
    "as arrived": (HARMED, each(arrived)),
    "rough, as arrived": (ROUGH, each(arrived)),
    "damage alone, as arrived": (DAMAGED, each(arrived)),
    "ended early": (HARMED, ended_early),
    "timed": (HARMED, timed),
    "errors of parity": (HARMED, each(flagged)),
    "without quiet": (HARMED, each(hasty)),
    "unseen": (HARMED, each(unseen)),
    "rough, unseen": (ROUGH, each(unseen)),
    "late": (HARMED, lambda rng, rows: late(rows)),
    "begun late": (HARMED, begun_late),
    "refused, terminal unseen": (REFUSED, each(missed)),
    "refused, begun late": (REFUSED, functools.partial(begun_late, way=informed)),
}
# the classes in which the terminal has two logical connections, and those in which the card has one of several
TWO, ONE = "two connections, ", "one of several, "
DOUBLED = {TWO + name: CLASSES[name] for name in CLASSES if name != "rough, unseen"}
REFUSING = {ONE + name: CLASSES[name] for name in ("clean, informed", "busy, informed", "busy, as sent", "as arrived",
                                                   "timed", "begun late")}
LINES = {**dict.fromkeys(CLASSES, Line), **dict.fromkeys(DOUBLED, Doubled), **dict.fromkeys(REFUSING, Refusing)}
WAYS = {**CLASSES, **DOUBLED, **REFUSING}


def trace(rng, name, made):
    """A trace of a class. `made` counts what it has."""
    wishes, tap = WAYS[name]
    line = LINES[name](rng, wishes)
    rows = line.runs(rng.randint(2, 60))
    made.update(line.made)
    lost = sum(row.is_block() and row.came is None for row in rows)
    made["block that the tap doesn't see"] += lost if name.endswith("unseen") else 0
    made["block that comes late"] += sum(row.word == CARD and row.came is None for row in rows) * name.endswith("late")
    made["beginning in the midst"] += name.endswith("begun late")
    made["moments"] += name.endswith("timed")
    return tap(rng, rows)
