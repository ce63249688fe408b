"""A judge of the blocks on a line, and the times of the line (docs/JUDGE.md)."""
from __future__ import annotations

from dataclasses import dataclass
from typing import Any, Optional, Tuple

from . import _scard
from ._numbers import Arrival, Asked, End, Judged, OffTime, Owed, Rule, Silence
from ._octets import Octets, Value
from .atr import T1, Rates


@dataclass(frozen=True)
class Due(Value):
    """The block that was due. `octet` is the size or multiple of a response. `next` is the number of the end's next new
    I-block, and `expects` that of the I-block that it expects."""

    __slots__ = ("owed", "octet", "next", "expects", "asked")
    owed: Owed
    octet: int
    next: int
    expects: int
    asked: Asked


@dataclass(frozen=True)
class Judgment(Value):
    """The judgment of a block, and of a silence of the card before it. The numbers of blocks start at 1. `before` is
    the other end's last block, and `unanswered` the block that the card didn't answer, or 0. `rule` and `due` are None
    unless the block is a deviation."""

    __slots__ = ("number", "before", "unanswered", "verdict", "rule", "silence", "due")
    number: int
    before: int
    unanswered: int
    verdict: Judged
    rule: Optional[Rule]
    silence: Silence
    due: Optional[Due]


@dataclass(frozen=True)
class Exercise(Value):
    """What a block exercises: the rules that it keeps, each of which its sender could break with some block then; or
    the one rule that it breaks. `due` is what was due from its sender, or None, as if it was the other end's turn."""

    __slots__ = ("kept", "broken", "due")
    kept: Tuple[Rule, ...]
    broken: Optional[Rule]
    due: Optional[Owed]


@dataclass(frozen=True)
class Timed(Value):
    """What is said about the time of a block, in microseconds. `elapsed` is the time since the block before, and
    `limit` what is permitted: at most for a late block, at least for an early one. Both are 0 for another one. `over`
    says whether the card's waiting time was over when the block began."""

    __slots__ = ("off", "elapsed", "limit", "over")
    off: OffTime
    elapsed: int
    limit: int
    over: bool


class Judge:
    """A judge from a reset of the card on. `ifsc` is the largest field that the card accepts, 1 to 254 octets.

    >>> judge = Judge(ifsc=32)
    >>> judge.block(End.TERMINAL, bytes.fromhex("00000500A4040000A5")).verdict
    <Judged.PERMITTED: 0>
    >>> judge.block(End.CARD, bytes.fromhex("000002900092")).verdict
    <Judged.PERMITTED: 0>
    >>> found = judge.block(End.TERMINAL, bytes.fromhex("00000500A4040000A5"))
    >>> found.verdict, found.rule.text, found.due.next
    (<Judged.DEVIATION: 3>, 'sequence number', 1)
    """

    __slots__ = ("_judge",)

    def __init__(self, ifsc: int) -> None:
        self._judge = _scard.judge_new(ifsc)

    def block(self, end: End, octets: Octets, arrival: Arrival = Arrival.UNSAID, came: Octets = b"") -> Judgment:
        """Judges the octets that were on the line as one block of an end. `came` is what arrived, if `arrival` is
        CAME."""
        return _scard.judge_block(self._judge, end, octets, arrival, came)

    def exercise(self, end: End, octets: Octets, arrival: Arrival = Arrival.UNSAID, came: Octets = b"") -> Exercise:
        """Says which rules the block keeps or breaks, and what was due. The judge doesn't take it: `block` does, with
        the same arguments."""
        return _scard.judge_exercise(self._judge, end, octets, arrival, came)

    def quiet(self) -> Judgment:
        """Takes a timeout of the terminal. The judgment says whether the card owed a block and sent none."""
        return _scard.judge_quiet(self._judge)

    def finish(self) -> Judgment:
        """Says whether the card owes a block now. Nothing changes."""
        return _scard.judge_finish(self._judge)

    def __reduce__(self) -> Any:
        raise TypeError("a judge can't be pickled or copied")


class Times:
    """The times of a line from a reset of the card on, or from an exchange of PPS on. `hertz` is the frequency of the
    card's clock. A rate of 0 isn't known, and then no block is late or early.

    >>> judge, times = Judge(ifsc=32), Times(T1(ifsc=32, bwi=4, cwi=5), hertz=3571200)
    >>> request, response = bytes.fromhex("00C000C0"), bytes.fromhex("00E000E0")
    >>> times.block(judge, End.TERMINAL, request, first=0).off
    <OffTime.NO: 0>
    >>> judge.block(End.TERMINAL, request).verdict
    <Judged.PERMITTED: 0>
    >>> times.block(judge, End.CARD, response, first=2000000)
    Timed(off=<OffTime.LATE: 1>, elapsed=2000000, limit=1614584, over=True)
    """

    __slots__ = ("_times",)

    def __init__(self, t1: T1, hertz: int, rates: Rates = Rates(372, 1)) -> None:
        self._times = _scard.times_new(t1.ifsc, t1.bwi, t1.cwi, rates.fi, rates.di, hertz)

    def block(self, judge: Judge, end: End, octets: Octets, arrival: Arrival = Arrival.UNSAID, came: Octets = b"", *,
              first: Optional[int] = None, last: Optional[int] = None) -> Timed:
        """Takes a block before the judge takes it, and says whether it came too late or too early. `first` and `last`
        are when its first and its last octet began, in microseconds, or None. Call `block` of the judge next."""
        return _scard.times_block(self._times, judge._judge, end, octets, arrival, came, first, last)

    def __reduce__(self) -> Any:
        raise TypeError("the times of a line can't be pickled or copied")
