"""The exceptions of the package. Those of one kind can be caught by their class, and all by Error."""
from __future__ import annotations

from typing import Optional

from . import _scard
from ._numbers import Codec, T1Fault, TurnKind


class Error(Exception):
    """What every exception of this package is."""


class Refused(Error, ValueError):
    """Octets are invalid. `place` is the first octet after which no encoding can continue, and `reason` the library's
    name of the reason. `codec` says what the octets were decoded as."""

    def __init__(self, place: int, reason: str, codec: int) -> None:
        super().__init__(place, reason, codec)
        self.place = place
        self.reason = reason
        self.codec = Codec(codec)

    def __str__(self) -> str:
        return f"refused at {self.place}: {self.reason}"

    @property
    def sentence(self) -> str:
        """What is wrong with the octet at `place`, in a sentence of the library.

        >>> Refused(4, "BadTck", Codec.ATR).sentence
        'TCK is wrong.'
        """
        numbers = (it for it in range(1, 256) if _scard.reason_name(self.codec, it) == self.reason)
        return _scard.reason_sentence(self.codec, next(numbers, 0))


class Short(Error, ValueError):
    """Octets end too early: there are `place` of them, and more could still complete a value.

    `least` says how many more must come at least. No value ends before, and some value ends then. So a program that
    reads a serial port can request that many octets. It is None if a reader of chains or of a forest raises the
    exception, since such a reader doesn't keep the octets.

    >>> from scard import Block, Short
    >>> try:
    ...     Block.decode(bytes.fromhex("00000500A4"))
    ... except Short as short:
    ...     print(short.place, short.least)
    5 4
    """

    def __init__(self, place: int, codec: int, least: Optional[int] = None) -> None:
        super().__init__(place, codec, least)
        self.place = place
        self.codec = Codec(codec)
        self.least = least

    def __str__(self) -> str:
        return f"short at {self.place}"


class Argument(Error, ValueError):
    """The library takes no such argument, or no octets encode such a value."""


class Duplicate(Error, ValueError):
    """Two known values of a data object list have the same tag."""


class Closed(Error, ValueError):
    """The object was closed before the call."""

    def __str__(self) -> str:
        return f"the {self.args[0]} is closed"


class InUse(Error, RuntimeError):
    """Another call uses the object at the same time."""


class NoT1(Error, ValueError):
    """An answer to reset has no parameters of T=1 that this stack can use."""

    def __init__(self, fault: int) -> None:
        super().__init__(fault)
        self.fault = T1Fault(fault)

    def __str__(self) -> str:
        return self.fault.name


class TurnError(Error):
    """An end or a session has no answer. `kind` says why."""

    def __init__(self, kind: TurnKind) -> None:
        super().__init__(kind)
        self.kind = kind

    def __str__(self) -> str:
        return TurnKind(self.kind).label


class CallRefused(TurnError):
    """An end or a session refused the call, and nothing changed."""


class NoAnswer(TurnError):
    """An exchange ended without an answer."""
