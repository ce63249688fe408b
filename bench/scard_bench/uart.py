"""Characters of a UART become blocks of a trace. Silences cut them, and the program says what is whole."""
from __future__ import annotations

from typing import Dict, List, NamedTuple, Optional

from .errors import Wrong
from .program import Program
from .trace import CARD, DAMAGED, TERMINAL, Trace
from .uart_csv import Table

# A pause that is longer than this many of the shortest distance between two characters ends a burst: characters of a
# block follow each other after 11 or 12 elementary time units, and the other end begins after 22 or more
# (ISO/IEC 7816-3:2006, 11.4.3).
PAUSE = 1.5
LONGEST_ATR = 33
# how many bursts one block may be in
PIECES = 4


class Choices(NamedTuple):
    """What a user may say of the capture: channels, and times in microseconds."""

    terminal: Optional[str] = None
    card: Optional[str] = None
    pause: Optional[int] = None
    waiting: int = 1_000_000


class Burst:
    """Characters of one channel without a pause: those from `begin` to `end` of a table."""

    __slots__ = ("table", "begin", "end", "side", "joined")

    def __init__(self, table: Table, begin: int, end: int, joined: int = 0) -> None:
        self.table, self.begin, self.end, self.joined = table, begin, end, joined
        self.side: Optional[str] = None

    def __len__(self) -> int:
        return self.end - self.begin

    @property
    def octets(self) -> bytes:
        """Their octets."""
        return bytes(self.table.octets[self.begin:self.end])

    @property
    def channel(self) -> str:
        """Their channel."""
        return self.table.channel(self.begin)

    @property
    def start(self) -> int:
        """When the first began."""
        return self.table.starts[self.begin]

    @property
    def last(self) -> int:
        """When the last began."""
        return self.table.starts[self.end - 1]

    def errors(self) -> List[str]:
        """What is wrong with characters of it."""
        if not self.table.errors:
            return []
        return [f"{name} at octet {at - self.begin}" for at in range(self.begin, self.end)
                for name in self.table.errors.get(at, ())]


def bursts(table: Table, pause: int) -> List[Burst]:
    """The characters, cut at each pause and each change of the channel."""
    cuts = [at for at in range(1, len(table)) if table.starts[at] - table.starts[at - 1] > pause
            or table.places[at] != table.places[at - 1]]
    edges = [0, *cuts, len(table)]
    return [Burst(table, one, two) for one, two in zip(edges, edges[1:]) if two > one]


def pause_of(table: Table, choices: Choices) -> int:
    """The pause that ends a burst."""
    if choices.pause is not None:
        return choices.pause
    pairs = zip(table.starts, table.starts[1:])
    return int(PAUSE * min((two - one for one, two in pairs if two > one), default=0))


def joined(found: List[Burst], program: Program) -> List[Burst]:
    """Joins bursts in which the program sees one block together, and none apart."""
    short = [line.startswith("short") for line in program.checked("block", [it.octets for it in found])]
    tries = [(at, count) for at in range(len(found)) if short[at] for count in range(2, PIECES + 1)
             if at + count <= len(found) and len({it.channel for it in found[at:at + count]}) == 1]
    texts = [b"".join(it.octets for it in found[at:at + count]) for at, count in tries]
    sizes = program.whole("block", texts)
    whole: Dict[int, int] = {}
    for (at, count), text, size in zip(tries, texts, sizes):
        if size == len(text):
            whole.setdefault(at, count)
    return merged(found, whole)


def merged(found: List[Burst], whole: Dict[int, int]) -> List[Burst]:
    """The bursts with those joined that begin at a place of `whole`."""
    at, out = 0, []
    while at < len(found):
        count = whole.get(at, 1)
        out.append(Burst(found[at].table, found[at].begin, found[at + count - 1].end, count - 1))
        at += count
    return out


class Answer(NamedTuple):
    """An answer to reset: the number of its first burst, and its octets."""

    burst: int
    size: int


def answers(found: List[Burst], program: Program) -> List[Answer]:
    """Where the program sees an answer to reset begin: at the first burst, and later where one fits whole bursts."""
    texts = [bytes(it.table.octets[it.begin:it.begin + LONGEST_ATR]) for it in found]
    sizes = program.whole("atr", texts)
    return [Answer(at, size) for at, size in enumerate(sizes) if size and ends_burst(found, at, size)]


def ends_burst(found: List[Burst], at: int, size: int) -> bool:
    """Whether so many octets from this burst on end where a burst ends."""
    for it in found[at:]:
        size -= len(it)
        if size <= 0:
            return size == 0
    return False


class Tracing:
    """Writes the trace of a table."""

    def __init__(self, table: Table, program: Program, choices: Choices) -> None:
        self.table, self.program, self.choices = table, program, choices
        self.trace = Trace(table.has_times)
        self.trace.read = len(table)
        self.begin = table.starts[0] if len(table) else 0
        self.longest = pause_of(table, choices)

    def runs(self) -> Trace:
        """The trace of all sessions."""
        found = bursts(self.table, self.longest)
        if not found:
            raise Wrong("the capture has no characters")
        places = {it.burst: it.size for it in answers(found, self.program)}
        starts = sorted({0, *places})
        for start, end in zip(starts, [*starts[1:], len(found)]):
            rest = found[start:end]
            if start in places:
                rest = self.answered(rest, places[start])
            if start == 0 and self.choices.pause is None:
                self.trace.guess("the pause that ends a block", f"a longer pause than {self.longest} ends a block")
            self.session(joined(rest, self.program))
        return self.trace

    def answered(self, found: List[Burst], count: int) -> List[Burst]:
        """Writes an answer to reset. Returns the bursts after it."""
        octets = bytes(self.table.octets[found[0].begin:found[0].begin + count])
        self.trace.reset(octets)
        self.trace.guess("the end of an answer to reset", f"the answer to reset has {count} octets")
        while count > 0:
            count -= len(found[0])
            found = found[1:]
        return found

    def session(self, found: List[Burst]) -> None:
        """Writes the blocks of a session."""
        self.directed(found)
        for at, it in enumerate(found):
            if at and self.is_silence(found[at - 1], it):
                self.trace.guess("a silence", f"no answer within {self.choices.waiting} microseconds")
                self.trace.quiet()
            self.writes(it)

    def is_silence(self, before: Burst, it: Burst) -> bool:
        """Whether the card sent nothing after a block of the terminal."""
        return before.side == it.side == TERMINAL and self.pause(before, it) >= self.choices.waiting

    def pause(self, before: Burst, it: Burst) -> int:
        """Microseconds between two bursts, 0 if nobody knows."""
        return it.start - before.last if self.table.has_times else 0

    def directed(self, found: List[Burst]) -> None:
        """Says whose each burst is: by its channel, or by turns that the terminal begins."""
        names = {self.choices.terminal: TERMINAL, self.choices.card: CARD}
        names.pop(None, None)
        for at, it in enumerate(found):
            it.side = names.get(it.channel)
            if names and it.side is None:
                raise Wrong(f"line {self.table.lines[it.begin]}: channel {it.channel!r} is neither the terminal's nor "
                            "the card's")
            if it.side is None:
                it.side = self.turn(found, at)
        if not names and found:
            self.trace.guess("a direction", f"the terminal begins, and {len(found)} blocks take turns", len(found))

    def turn(self, found: List[Burst], at: int) -> str:
        """Whose turn it is: the other end's, or the terminal's after a long silence."""
        if at == 0 or self.pause(found[at - 1], found[at]) >= self.choices.waiting:
            return TERMINAL
        return CARD if found[at - 1].side == TERMINAL else TERMINAL

    def writes(self, it: Burst) -> None:
        """Writes one block."""
        if it.joined:
            self.trace.guess("a pause inside a block", f"{it.joined} pauses inside of this block", it.joined)
        errors = it.errors()
        if errors:
            self.trace.guess("what arrived", f"{', '.join(errors)}: a wrong check octet is written for what arrived")
        self.trace.moment(it.start - self.begin)
        self.trace.block(it.side or TERMINAL, it.octets, DAMAGED if errors else None)


def traced(table: Table, program: Program, choices: Choices) -> Trace:
    """The trace of a table."""
    return Tracing(table, program, choices).runs()
