"""Answers to reset (ISO/IEC 7816-3, clause 8)."""
from __future__ import annotations

from dataclasses import dataclass, field
from typing import Any, Optional, Tuple

from . import _scard
from ._errors import Argument, NoT1
from ._octets import Octets, Value


@dataclass(frozen=True)
class Rates(Value):
    """The integers Fi and Di of TA1. A reserved one is 0."""

    __slots__ = ("fi", "di")
    fi: int
    di: int


@dataclass(frozen=True)
class T1(Value):
    """The parameters of T=1: the field size of the card in octets, and the indexes of its two waiting times.

    >>> T1(ifsc=254, bwi=4, cwi=5).cwt
    43
    """

    __slots__ = ("ifsc", "bwi", "cwi")
    ifsc: int
    bwi: int
    cwi: int

    @property
    def cwt(self) -> int:
        """The character waiting time in etu (clause 11.4)."""
        time = _scard.t1_cwt(self.ifsc, self.bwi, self.cwi)
        if time == 0:
            raise Argument("no card has these parameters of T=1")
        return time

    def bwt(self, fi: int = 372, di: int = 1) -> int:
        """The block waiting time in clock cycles divided by `di`, with the integers in use."""
        time = _scard.t1_bwt(self.ifsc, self.bwi, self.cwi, fi, di)
        if time == 0:
            raise Argument("no card has these parameters of T=1")
        return time


@dataclass(frozen=True)
class Interface(Value):
    """The interface bytes TA, TB and TC. One that is absent is None."""

    __slots__ = ("ta", "tb", "tc")
    ta: Optional[int]
    tb: Optional[int]
    tc: Optional[int]

    def _plain(self) -> Tuple[Optional[int], Optional[int], Optional[int]]:
        return self.ta, self.tb, self.tc


@dataclass(frozen=True)
class Indicated(Value):
    """A TD byte: the protocol T that it indicates, 0 to 15, and the interface bytes after it."""

    __slots__ = ("protocol", "interface")
    protocol: int
    interface: Interface


@dataclass(frozen=True)
class Atr(Value):
    """An answer to reset. `first` has TA1, TB1 and TC1, and `indicated` the TDs. `tck` is what decoding found: encoding
    computes it, and comparisons leave it out.

    >>> atr = Atr.decode(bytes.fromhex("3B808131204555"))
    >>> atr.protocols
    (1, 1)
    >>> atr.t1()
    T1(ifsc=32, bwi=4, cwi=5)
    >>> atr.encode().hex()
    '3b808131204555'
    >>> Atr.decode(b"\\x3C")
    Traceback (most recent call last):
    scard.Refused: refused at 0: BadTs
    """

    is_inverse: bool
    first: Interface
    indicated: Tuple[Indicated, ...]
    historical: bytes
    tck: Optional[int] = field(default=None, compare=False)

    @staticmethod
    def decode(octets: Octets) -> Atr:
        """The answer to reset at the start of octets. Octets after it are left out."""
        return _scard.atr_decode(octets)

    @staticmethod
    def check(octets: Octets) -> int:
        """How many octets the answer at the start of octets takes. Raises as `decode` does."""
        return _scard.atr_check(octets)

    def _plain(self) -> Tuple[Any, ...]:
        indicated = tuple((it.protocol, *it.interface._plain()) for it in self.indicated)
        return self.is_inverse, self.first._plain(), indicated, self.historical

    def encode(self) -> bytes:
        """The octets of the answer."""
        return _scard.atr_encode(*self._plain())

    @property
    def protocols(self) -> Tuple[int, ...]:
        """The protocols that the TDs indicate, in their order."""
        return tuple(it.protocol for it in self.indicated)

    def t1(self) -> T1:
        """The parameters of T=1 (clause 11.4). Raises NoT1 if the answer has none that this stack can use."""
        made = _scard.atr_t1(*self._plain())
        if isinstance(made, int):
            raise NoT1(made)
        return made

    def rates(self) -> Rates:
        """Fi and Di of TA1 (clause 8.3)."""
        return _scard.atr_rates(*self._plain())
